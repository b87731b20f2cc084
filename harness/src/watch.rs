//! Counts what happens while call lists run on the plain unit.

use crate::calls::{perform, Answer, Call, Lent};
use crate::lateness::{Lateness, Numbers};
use crate::plain::{Plain, COUNT_AND_LAST, HSRR0, MOD_AND_RATE, POSITION, TARGET, TICKS_A_COUNT};
use crate::turns::{Need, Slots, Turns};
use crate::unit::{Phase, Unit};
use std::fmt;

#[derive(Clone, Default, Debug)]
pub struct Counts {
    pub lists: u64,
    pub calls: u64,
    pub ticks: u64,
    /// By number of the question.
    pub refused: [u64; 15],
    pub words_read: u64,
    pub wraps: u64,
    pub initialised: u64,
    /// By number of channels of the group.
    pub starts: [u64; 9],
    pub steps_right: u64,
    pub steps_left: u64,
    pub turns: u64,
    /// Steps that took the pattern afresh, MOD_CNT being 0.
    pub fresh_patterns: u64,
    pub arrivals: u64,
    /// At position 0 and at the highest target there is.
    pub arrivals_low: u64,
    pub arrivals_high: u64,
    /// Targets and requests taken for a motor on its way.
    pub retargets: u64,
    pub second_requests: u64,
    /// HSRR words with two or more requests.
    pub words_taken: u64,
    pub words_refused: u64,
    /// Services in a later tick than the match could have had.
    pub late_services: u64,
    /// Matches already due when set up.
    pub due_at_set_up: u64,
    /// Matches that lie in the past when set up and are still not due.
    pub past_and_not_due: u64,
    /// Ticks with more than one motor on its way.
    pub shared_ticks: u64,
    pub line_up: u64,
    pub slow: Slow,
    pub slots: Slots,
    pub numbers: Numbers,
}

/// Questions that refuse a call of the unit.
pub const QUESTIONS: [usize; 11] = [1, 2, 3, 4, 5, 6, 7, 8, 9, 10, 14];

/// What happens by TCR2, or because of it.
#[derive(Clone, Default, Debug)]
pub struct Slow {
    pub wraps: u64,
    /// Wraps with a motor by TCR2 on its way.
    pub wraps_on_the_way: u64,
    /// Channels initialised for the other timer than they had.
    pub changes: u64,
    /// Requests refused for nothing but that the group has both kinds.
    pub mixed: u64,
    pub starts: u64,
    pub steps: u64,
    pub arrivals: u64,
    pub late_services: u64,
    pub due_at_set_up: u64,
    pub past_and_not_due: u64,
    /// Ticks with motors by either timer on their way.
    pub both_timers: u64,
}

impl Slow {
    fn named(&self) -> [(&'static str, u64); 11] {
        [
            ("TCR2 wraps", self.wraps),
            ("TCR2 wraps with a motor by it", self.wraps_on_the_way),
            ("channels given the other timer", self.changes),
            ("groups of both kinds refused", self.mixed),
            ("starts by TCR2", self.starts),
            ("steps by TCR2", self.steps),
            ("arrivals by TCR2", self.arrivals),
            ("late services by TCR2", self.late_services),
            ("matches due at set-up by TCR2", self.due_at_set_up),
            ("matches past and not due by TCR2", self.past_and_not_due),
            ("ticks with motors by both timers", self.both_timers),
        ]
    }
}

impl Counts {
    /// The counts that a useful set of lists has above zero, by name.
    pub fn named(&self) -> Vec<(String, u64)> {
        let mut all = Vec::new();
        for number in QUESTIONS {
            all.push((
                format!("refused by question {number}"),
                self.refused[number],
            ));
        }
        for size in 2..=8 {
            all.push((format!("starts of {size} channels"), self.starts[size]));
        }
        let single = [
            ("words read", self.words_read),
            ("TCR1 wraps", self.wraps),
            ("channels initialised", self.initialised),
            ("steps right", self.steps_right),
            ("steps left", self.steps_left),
            ("turns of direction", self.turns),
            ("fresh patterns", self.fresh_patterns),
            ("arrivals", self.arrivals),
            ("arrivals at 0", self.arrivals_low),
            ("arrivals at the highest target", self.arrivals_high),
            ("targets on the way", self.retargets),
            ("requests on the way", self.second_requests),
            ("words with several requests taken", self.words_taken),
            ("words with several requests refused", self.words_refused),
            ("late services", self.late_services),
            ("matches due at set-up", self.due_at_set_up),
            ("matches past and not due", self.past_and_not_due),
            ("ticks with several motors", self.shared_ticks),
            ("calls that left the line up", self.line_up),
        ];
        let single = single.into_iter().chain(self.slow.named());
        let single = single.chain(self.numbers.named());
        all.extend(single.map(|(name, count)| (name.to_string(), count)));
        all.extend(self.slots.named());
        all
    }

    /// A rule of the slots or of the numbers that did not hold.
    pub fn broken(&self) -> Option<&'static str> {
        self.slots.broken.or(self.numbers.broken)
    }
}

impl fmt::Display for Counts {
    fn fmt(&self, f: &mut fmt::Formatter) -> fmt::Result {
        writeln!(f, "{:>12} lists", self.lists)?;
        writeln!(f, "{:>12} calls", self.calls)?;
        writeln!(f, "{:>12} ticks", self.ticks)?;
        for (name, count) in self.named() {
            writeln!(f, "{count:>12} {name}")?;
        }
        Ok(())
    }
}

fn has_several(call: Call) -> bool {
    match call {
        Call::Write(address, value) if address == HSRR0 || address == HSRR0 + 2 => {
            // The upper bit of a field makes it a request.
            (value & 0xAAAA).count_ones() > 1
        }
        _ => false,
    }
}

/// The unit would say something else if all kinds were alike.
fn kinds_matter(unit: &Plain, call: Call, answer: Answer) -> bool {
    let mut state = unit.snapshot();
    for channel in &mut state.channels {
        channel.slow = false;
    }
    let mut alike = Plain::from_snapshot(&state);
    perform(&mut alike, call, &mut Lent::default()) != answer
}

/// A plain unit with a memory of when each group's match happened.
#[derive(Default)]
pub struct Watch {
    unit: Plain,
    ticks: u64,
    matched: [u64; 16],
    served_next: [bool; 16],
    /// The priority that a primary has kept since its request, if it has.
    kept: [Option<u16>; 16],
    turns: Turns,
    lateness: Lateness,
    lent: Lent,
}

/// What one tick can change of a group.
#[derive(Clone, Copy, Default)]
struct Look {
    phase: Phase,
    position: u16,
    left: bool,
    initialised: bool,
    slow: bool,
    by_tcr2: bool,
}

impl Look {
    fn is_moving(self) -> bool {
        self.phase != Phase::Resting
    }
}

impl Watch {
    /// Runs one list from reset and adds to the counts.
    pub fn run(calls: &[Call], counts: &mut Counts) {
        Watch::run_on(Plain::default(), calls, counts);
    }

    /// The same with a unit that may make a blunder.
    pub fn run_on(unit: Plain, calls: &[Call], counts: &mut Counts) {
        let mut watch = Watch {
            unit,
            ..Watch::default()
        };
        counts.lists += 1;
        for &call in calls {
            watch.call(call, counts);
        }
    }

    pub fn call(&mut self, call: Call, counts: &mut Counts) {
        counts.calls += 1;
        match call.ticks() {
            // A taken advance is made tick by tick, to look in between.
            Some(n) => (0..n).for_each(|_| self.tick(counts)),
            None => self.other(call, counts),
        }
        counts.line_up += u64::from(self.unit.interrupt_line());
    }

    fn other(&mut self, call: Call, counts: &mut Counts) {
        let before = self.unit.clone();
        let answer = perform(&mut self.unit, call, &mut self.lent);
        Lateness::call(&before, &self.unit, call, answer, &mut counts.numbers);
        match answer {
            Answer::Refused(number) => {
                counts.refused[usize::from(number)] += 1;
                counts.words_refused += u64::from(has_several(call));
                let mixed = number == 6 && kinds_matter(&before, call, answer);
                counts.slow.mixed += u64::from(mixed);
            }
            Answer::Word(_) => counts.words_read += 1,
            Answer::Done => {
                counts.words_taken += u64::from(has_several(call));
                self.taken(call, &before, counts);
            }
        }
    }

    fn taken(&mut self, call: Call, before: &Plain, counts: &mut Counts) {
        let Call::Write(address, value) = call else {
            return;
        };
        for c in 0..16 {
            let was_moving = before.phase(c) != Phase::Resting;
            let moving = self.unit.phase(c) != Phase::Resting;
            let level = Some(self.unit.priority(c)).filter(|&level| level != 0);
            self.kept[c] = level.filter(|_| !was_moving || self.kept[c] == level);
            if moving && !was_moving {
                let last = usize::from(self.unit.word(c, COUNT_AND_LAST) & 15);
                counts.starts[last - c + 1] += 1;
                counts.slow.starts += u64::from(self.unit.view(c).by_tcr2);
            }
            if was_moving && address == 0xF00 + 16 * c as u16 + 2 * TARGET as u16 {
                counts.retargets += 1;
            }
            let asked = address == HSRR0 + 2 * (1 - c as u16 / 8);
            if was_moving && asked && (value >> (2 * (c % 8))) & 3 == 3 {
                counts.second_requests += 1;
            }
        }
    }

    fn look(&self, c: usize) -> Look {
        let view = self.unit.view(c);
        Look {
            phase: view.phase,
            position: self.unit.word(c, POSITION),
            left: view.left,
            initialised: view.initialised,
            slow: view.slow,
            by_tcr2: view.by_tcr2,
        }
    }

    fn needs(&self) -> [Need; 16] {
        let mut needs = [Need::default(); 16];
        for (c, need) in needs.iter_mut().enumerate() {
            *need = Need::of(&self.unit, c);
        }
        needs
    }

    fn tick(&mut self, counts: &mut Counts) {
        let before = self.unit.clone();
        let needs = self.needs();
        self.tick_groups(counts);
        self.turns.tick(&needs, &self.needs(), &mut counts.slots);
        self.lateness
            .tick(&before, &self.unit, &self.kept, &mut counts.numbers);
    }

    fn tick_groups(&mut self, counts: &mut Counts) {
        let mut before = [Look::default(); 16];
        let mut moving = 0;
        let mut slow = 0;
        for (c, look) in before.iter_mut().enumerate() {
            *look = self.look(c);
            moving += u64::from(look.is_moving());
            slow += u64::from(look.is_moving() && look.by_tcr2);
        }
        let tcr2 = self.unit.tcr2();
        let taken = self.unit.advance(1, &mut [0]);
        assert!(taken.is_ok(), "an advance by one is taken");
        let wraps = tcr2 > self.unit.tcr2();
        self.ticks += 1;
        counts.ticks += 1;
        counts.wraps += u64::from(self.unit.tcr1() == 0);
        counts.shared_ticks += u64::from(moving > 1);
        counts.slow.wraps += u64::from(wraps);
        counts.slow.wraps_on_the_way += u64::from(wraps && slow > 0);
        counts.slow.both_timers += u64::from(slow > 0 && moving > slow);
        for (c, look) in before.iter().enumerate() {
            let after = self.look(c);
            counts.initialised += u64::from(after.initialised && !look.initialised);
            counts.slow.changes += u64::from(after.slow != look.slow);
            if look.is_moving() {
                self.compare(c, *look, after, counts);
            }
        }
    }

    fn compare(&mut self, c: usize, before: Look, after: Look, counts: &mut Counts) {
        let arrived = after.phase == Phase::Resting;
        let stepped = after.position != before.position;
        let first = before.phase == Phase::Requested;
        if let Phase::Matched { .. } = before.phase {
            let late = self.ticks - self.matched[c] > 1 || !self.served_next[c];
            let late = late && (stepped || arrived);
            counts.late_services += u64::from(late);
            counts.slow.late_services += u64::from(late && after.by_tcr2);
        } else if let Phase::Armed(_) = before.phase {
            self.matched[c] = self.ticks;
            self.served_next[c] = false;
        }
        if arrived {
            let n = (self.unit.word(c, COUNT_AND_LAST) >> 8) & 15;
            counts.arrivals += 1;
            counts.slow.arrivals += u64::from(after.by_tcr2);
            counts.arrivals_low += u64::from(after.position == 0);
            counts.arrivals_high += u64::from(after.position == 0xFFFF - n);
        }
        if !stepped {
            return;
        }
        counts.fresh_patterns += u64::from(self.unit.word(c, MOD_AND_RATE) < 0x100);
        counts.steps_right += u64::from(!after.left);
        counts.steps_left += u64::from(after.left);
        counts.slow.steps += u64::from(after.by_tcr2);
        counts.turns += u64::from(!first && after.left != before.left);
        self.new_match(c, first, after, counts);
    }

    fn new_match(&mut self, c: usize, first: bool, after: Look, counts: &mut Counts) {
        match after.phase {
            Phase::Matched { .. } => {
                counts.due_at_set_up += 1;
                counts.slow.due_at_set_up += u64::from(after.by_tcr2);
                if self.kept[c].is_some() {
                    counts.slots.broken = Some("no match is set too late at one level");
                }
                self.matched[c] = self.ticks;
                self.served_next[c] = true;
            }
            Phase::Armed(_) if !first => {
                // No period is longer than $7FFF.
                let ticks_a_count = if after.by_tcr2 { TICKS_A_COUNT } else { 1 };
                let count = |ticks: u64| ticks / u64::from(ticks_a_count);
                let past = count(self.ticks) - count(self.matched[c]) >= 0x8000;
                counts.past_and_not_due += u64::from(past);
                counts.slow.past_and_not_due += u64::from(past && after.by_tcr2);
            }
            _ => {}
        }
    }
}
