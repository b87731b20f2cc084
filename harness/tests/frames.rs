//! Requests #105 and #107 of paper 02: what a motor's pins do is the same
//! whatever happens outside its row of channels. Two runs are given the same
//! ticks and, between them, the same writes that concern the row; the rest of
//! their calls has nothing in common. Each move that one request sets going in
//! both is compared by the counts of its timer since its own first service.

use harness::archive::Archive;
use harness::calls::{motors, Call, Maker};
use harness::plain::{
    Blunder, Plain, CFSR0, COUNT_AND_LAST, CPR0, HSRR0, MOD_AND_RATE, PARAMETERS, POSITION, TARGET,
};
use harness::random::Random;
use harness::unit::{Phase, Snapshot, Unit};
use std::ops::RangeInclusive;

/// The channels from the first to the last.
#[derive(Clone, Copy, Debug)]
struct Row {
    first: usize,
    last: usize,
}

impl Row {
    fn has(self, c: usize) -> bool {
        self.channels().contains(&c)
    }

    fn channels(self) -> RangeInclusive<usize> {
        self.first..=self.last
    }

    /// The group of the primary is neither all inside nor all outside.
    fn cuts(self, state: &Snapshot, primary: usize) -> bool {
        let last = usize::from(state.words[8 * primary + COUNT_AND_LAST] & 15);
        let inside = self.has(primary) && self.has(last);
        let outside = last < self.first || self.last < primary;
        !inside && !outside
    }
}

/// Words that hold a field for each of several channels.
#[derive(Clone, Copy, PartialEq)]
enum Shared {
    Functions,
    Requests,
    Priorities,
}

impl Shared {
    fn at(address: u16) -> Option<Shared> {
        match address {
            0xE0C | 0xE0E | 0xE10 | 0xE12 => Some(Shared::Functions),
            0xE18 | 0xE1A => Some(Shared::Requests),
            0xE1C | 0xE1E => Some(Shared::Priorities),
            _ => None,
        }
    }

    fn of(self, c: usize) -> u16 {
        let c = c as u16;
        match self {
            Shared::Functions => CFSR0 + 2 * (3 - c / 4),
            Shared::Requests => HSRR0 + 2 * (1 - c / 8),
            Shared::Priorities => CPR0 + 2 * (1 - c / 8),
        }
    }

    fn place(self, c: usize) -> (usize, u16) {
        match self {
            Shared::Functions => (4 * (c % 4), 15),
            _ => (2 * (c % 8), 3),
        }
    }

    fn field(self, word: u16, c: usize) -> u16 {
        let (shift, mask) = self.place(c);
        word >> shift & mask
    }

    fn with(self, word: u16, c: usize, field: u16) -> u16 {
        let (shift, mask) = self.place(c);
        word & !(mask << shift) | field << shift
    }
}

/// The channels that have a field in this word.
fn channels_of(shared: Shared, address: u16) -> impl Iterator<Item = usize> {
    (0..16).filter(move |&c| shared.of(c) == address)
}

/// What occurred; each has to.
#[derive(Debug, Default)]
struct Tally {
    ticks: usize,
    /// Moves set going in both runs, and of these: up to both ends, first
    /// served in different ticks, by TCR2.
    moves: usize,
    ended: usize,
    first_differs: usize,
    by_tcr2: usize,
    /// Counts at which pins were compared, and where words were; where only
    /// one run had its match served.
    counts: usize,
    words: usize,
    late_in_one: usize,
    steps_outside: usize,
    pins_differ: usize,
    mixed_words: usize,
    /// Writes to the row that only one run would have taken, and targets on
    /// the way.
    dropped: usize,
    targets_dropped: usize,
    level_changed: usize,
    cut_groups: usize,
}

impl Tally {
    fn never(&self) -> Option<&'static str> {
        let all = [
            ("ticks", self.ticks),
            ("moves in both runs", self.moves),
            ("moves up to both ends", self.ended),
            ("first services in different ticks", self.first_differs),
            ("moves by TCR2", self.by_tcr2),
            ("counts with pins compared", self.counts),
            ("counts with words compared", self.words),
            ("counts with one match late", self.late_in_one),
            ("steps outside", self.steps_outside),
            ("pins that differ outside", self.pins_differ),
            ("shared words for both", self.mixed_words),
            ("writes that one run refuses", self.dropped),
            ("targets on the way", self.targets_dropped),
            ("moves whose level changed", self.level_changed),
            ("groups across an end of the row", self.cut_groups),
        ];
        all.iter().find(|(_, n)| *n == 0).map(|(name, _)| *name)
    }
}

/// A group at one count.
#[derive(Clone, Copy, Debug, PartialEq)]
struct Seen {
    pins: u16,
    /// Position, MOD_CNT and rate; none while a match is not served.
    words: Option<[u16; 2]>,
}

impl Seen {
    fn of(state: &Snapshot, group: Row) -> Seen {
        let word = |w: usize| state.words[8 * group.first + w];
        let waits = matches!(state.channels[group.first].phase, Phase::Matched { .. });
        Seen {
            pins: group
                .channels()
                .fold(0, |pins, c| pins | state.pins & 1 << c),
            words: (!waits).then(|| [word(POSITION), word(MOD_AND_RATE)]),
        }
    }

    /// The same pins, and the same words where both show them.
    fn agrees(self, other: Seen) -> bool {
        let words = self.words.zip(other.words);
        self.pins == other.pins && words.is_none_or(|(a, b)| a == b)
    }
}

/// A move in one run.
#[derive(Debug, Default)]
struct Course {
    /// The tick of the first service.
    first: Option<usize>,
    /// The group's timer as last seen.
    time: u16,
    /// From the first service on, by count.
    seen: Vec<Seen>,
    ended: bool,
}

impl Course {
    /// After a tick. Within one count nothing but words that waited may change.
    fn tick(&mut self, tick: usize, group: Row, state: &Snapshot) -> Result<(), String> {
        let primary = &state.channels[group.first];
        if self.ended || self.first.is_none() && primary.phase == Phase::Requested {
            return Ok(());
        }
        let now = if primary.by_tcr2 {
            state.tcr2
        } else {
            state.tcr1
        };
        let seen = Seen::of(state, group);
        let counts_on = self.first.is_none() || now != self.time;
        match self.seen.last_mut() {
            Some(before) if !counts_on && !before.agrees(seen) => {
                return Err(format!("in one count {before:?} and {seen:?}"));
            }
            Some(before) if !counts_on => before.words = before.words.or(seen.words),
            _ => self.seen.push(seen),
        }
        self.first.get_or_insert(tick);
        self.time = now;
        self.ended = primary.phase == Phase::Resting;
        Ok(())
    }
}

/// A move that one request set going in both runs.
struct Move {
    group: Row,
    level: u16,
    courses: [Course; 2],
}

impl Move {
    fn tick(&mut self, tick: usize, states: &[Snapshot; 2]) -> Result<(), String> {
        let mut courses = self.courses.iter_mut().zip(states);
        courses.try_for_each(|(course, state)| course.tick(tick, self.group, state))
    }

    /// All counts that both runs had, and the end if both came to it.
    fn compare(&self, tally: &mut Tally) -> Result<(), String> {
        let [one, other] = &self.courses;
        for (count, (a, b)) in one.seen.iter().zip(&other.seen).enumerate() {
            if !a.agrees(*b) {
                let group = self.group;
                return Err(format!("{group:?}, count {count}: {a:?} and {b:?}"));
            }
            tally.counts += 1;
            tally.words += usize::from(a.words.is_some() && b.words.is_some());
            tally.late_in_one += usize::from(a.words.is_some() != b.words.is_some());
        }
        let differs = one.first.is_some() && other.first.is_some() && one.first != other.first;
        tally.first_differs += usize::from(differs);
        if !(one.ended && other.ended) {
            return Ok(());
        }
        tally.ended += 1;
        match (one.seen.last(), other.seen.last()) {
            (a, b) if a == b => Ok(()),
            ends => Err(format!("{:?}, at the ends: {ends:?}", self.group)),
        }
    }
}

/// What became of a write.
#[derive(PartialEq)]
enum Write {
    Made,
    Dropped,
    /// A group across an end of the row would be set going.
    Cuts,
}

struct Frames<'a, U> {
    row: Row,
    one: U,
    other: U,
    /// The second run's own calls, and the ticks until its next.
    beside: Maker,
    wait: u32,
    random: Random,
    moves: Vec<Move>,
    tally: &'a mut Tally,
}

impl<U: Unit + Clone> Frames<'_, U> {
    /// The first run's calls, with what the second run makes of them.
    fn run(&mut self, seed: u64, calls: usize) -> Result<(), String> {
        let mut maker = Maker::new(seed);
        for _ in 0..calls {
            match maker.next_call() {
                Call::Read(address) => drop(self.one.read(address)),
                Call::Write(address, value) => match self.write(address, value)? {
                    Write::Made => {}
                    Write::Dropped => maker.look_at(&self.one.snapshot()),
                    Write::Cuts => break,
                },
                call @ Call::Advance(n, length) => match call.ticks() {
                    Some(n) => (0..n).try_for_each(|_| self.tick())?,
                    None => drop(self.one.advance(n, &mut vec![0; length])),
                },
            }
        }
        self.close(|_| true)
    }

    fn write(&mut self, address: u16, value: u16) -> Result<Write, String> {
        let before = [self.one.snapshot(), self.other.snapshot()];
        if self.cuts(&before[0], address, value) {
            self.tally.cut_groups += 1;
            return Ok(Write::Cuts);
        }
        let (felt, same) = self.row_part(&before[0], address, value);
        if !felt {
            let _ = self.one.write(address, value);
            // One that leaves the row alone may come in either run, or in both.
            if let Some(word) = same.filter(|_| self.random.one_in(2)) {
                let _ = self.other.write(address, word);
            }
            return Ok(Write::Made);
        }
        let same = same.expect("a write that the row feels");
        if self.is_target_on_the_way(&before, address) {
            self.tally.targets_dropped += 1;
            return Ok(Write::Dropped);
        }
        let one = self.one.clone().write(address, value).is_ok();
        let other = self.other.clone().write(address, same).is_ok();
        if !(one && other) {
            self.tally.dropped += usize::from(one != other);
            return Ok(Write::Dropped);
        }
        let _ = (
            self.one.write(address, value),
            self.other.write(address, same),
        );
        self.note_moves(&before)?;
        Ok(Write::Made)
    }

    fn cuts(&self, state: &Snapshot, address: u16, value: u16) -> bool {
        Shared::at(address) == Some(Shared::Requests)
            && channels_of(Shared::Requests, address)
                .any(|c| Shared::Requests.field(value, c) == 3 && self.row.cuts(state, c))
    }

    fn is_target_on_the_way(&self, states: &[Snapshot; 2], address: u16) -> bool {
        let c = usize::from(address.wrapping_sub(PARAMETERS)) / 16;
        let target = address >= PARAMETERS && address % 16 == 2 * TARGET as u16;
        let moving = |state: &Snapshot| state.channels[c].phase != Phase::Resting;
        target && states.iter().any(moving)
    }

    /// Whether the row feels the write, and what the second run writes for it:
    /// the same for the row, and its own for the rest.
    fn row_part(&mut self, before: &Snapshot, address: u16, value: u16) -> (bool, Option<u16>) {
        let row = self.row;
        let Some(shared) = Shared::at(address) else {
            let c = usize::from(address.wrapping_sub(PARAMETERS)) / 16;
            let felt = address >= PARAMETERS && row.has(c);
            return (felt, felt.then_some(value));
        };
        let touched = |c: &usize| match shared {
            Shared::Requests => shared.field(value, *c) > 1,
            _ => shared.field(value, *c) != shared.field(before.at(address), *c),
        };
        let (inside, outside): (Vec<usize>, Vec<usize>) =
            channels_of(shared, address).partition(|&c| row.has(c));
        let felt = inside.iter().any(touched);
        self.tally.mixed_words += usize::from(felt && outside.iter().any(touched));
        let now = self.other.snapshot().at(address);
        let mut word = if shared == Shared::Requests { 0 } else { now };
        for c in inside {
            word = shared.with(word, c, shared.field(value, c));
        }
        (felt, Some(word))
    }

    /// A call of the second run alone, which leaves the row's fields alone.
    fn outside(&mut self) {
        self.beside.look_at(&self.other.snapshot());
        match self.beside.next_call() {
            Call::Read(address) => drop(self.other.read(address)),
            call @ Call::Advance(n, length) => match call.ticks() {
                Some(n) => self.wait = n.min(40),
                None => drop(self.other.advance(n, &mut vec![0; length])),
            },
            Call::Write(address, value) => self.write_outside(address, value),
        }
    }

    fn write_outside(&mut self, address: u16, mut value: u16) {
        let state = self.other.snapshot();
        let row = self.row;
        if let Some(shared) = Shared::at(address) {
            for c in channels_of(shared, address).filter(|&c| row.has(c)) {
                let field = match shared {
                    Shared::Requests => self.random.below(2) as u16,
                    _ => shared.field(state.at(address), c),
                };
                value = shared.with(value, c, field);
            }
        } else if address >= PARAMETERS && row.has(usize::from(address - PARAMETERS) / 16) {
            return;
        }
        if self.cuts(&state, address, value) {
            self.tally.cut_groups += 1;
        } else {
            let _ = self.other.write(address, value);
        }
    }

    fn tick(&mut self) -> Result<(), String> {
        while self.wait == 0 {
            self.outside();
        }
        self.wait -= 1;
        let before = self.other.snapshot();
        let pass = |unit: &mut U| unit.advance(1, &mut [0]).map_err(|n| format!("N {n}"));
        pass(&mut self.one)?;
        pass(&mut self.other)?;
        let states = [self.one.snapshot(), self.other.snapshot()];
        self.tally.ticks += 1;
        self.tally.pins_differ += usize::from(states[0].pins != states[1].pins);
        let stepped =
            |c: &usize| before.words[8 * c + POSITION] != states[1].words[8 * c + POSITION];
        let outside = (0..16).filter(|&c| !self.row.has(c));
        self.tally.steps_outside += outside.filter(stepped).count();
        let tick = self.tally.ticks;
        self.moves
            .iter_mut()
            .try_for_each(|going| going.tick(tick, &states))?;
        self.close(|going| going.courses.iter().all(|course| course.ended))
    }
}

// The moves.
impl<U: Unit + Clone> Frames<'_, U> {
    /// A write that both took may set motors going, or change their levels.
    fn note_moves(&mut self, before: &[Snapshot; 2]) -> Result<(), String> {
        let after = [self.one.snapshot(), self.other.snapshot()];
        let changed = |going: &Move| {
            let kept = |state| level_of(state, going.group.first) == going.level;
            !after.iter().all(kept)
        };
        self.tally.level_changed += self.moves.iter().filter(|m| changed(m)).count();
        self.close(changed)?;
        for c in self.row.first..=self.row.last {
            let starts = before.iter().zip(&after).all(|(before, after)| {
                before.channels[c].phase == Phase::Resting
                    && after.channels[c].phase == Phase::Requested
            });
            let level = level_of(&after[0], c);
            if starts && level != 0 {
                let last = usize::from(after[0].words[8 * c + COUNT_AND_LAST] & 15);
                self.tally.moves += 1;
                self.tally.by_tcr2 += usize::from(after[0].channels[c].by_tcr2);
                self.moves.push(Move {
                    group: Row { first: c, last },
                    level,
                    courses: Default::default(),
                });
            }
        }
        Ok(())
    }

    /// Compares the moves that are over in this sense, and forgets them.
    fn close(&mut self, over: impl Fn(&Move) -> bool) -> Result<(), String> {
        let (over, going): (Vec<Move>, Vec<Move>) = self.moves.drain(..).partition(over);
        self.moves = going;
        over.iter().try_for_each(|m| m.compare(self.tally))
    }
}

fn level_of(state: &Snapshot, c: usize) -> u16 {
    Shared::Priorities.field(state.at(Shared::Priorities.of(c)), c)
}

fn compare<U: Unit + Clone>(
    seed: u64,
    calls: usize,
    new: fn() -> U,
    tally: &mut Tally,
) -> Result<(), String> {
    let mut random = Random::new(seed ^ 0x105);
    // One motor, or several that stand beside each other.
    let motors = motors(seed);
    let i = random.below(motors.len() as u32) as usize;
    let j = i + random.below((motors.len() - i) as u32) as usize;
    let mut frames = Frames {
        row: Row {
            first: motors[i].0,
            last: motors[j].1,
        },
        one: new(),
        other: new(),
        beside: Maker::beside(seed, seed + 1_000_000),
        wait: 0,
        random,
        moves: Vec::new(),
        tally,
    };
    frames
        .run(seed, calls)
        .map_err(|text| format!("seed {seed}: {text}"))
}

fn hunt<U: Unit + Clone>(new: fn() -> U) -> (Tally, Option<String>) {
    let mut tally = Tally::default();
    let found = (1..=150).find_map(|seed| compare(seed, 200, new, &mut tally).err());
    (tally, found)
}

#[test]
fn a_move_does_not_feel_the_rest() {
    for (tally, found) in [hunt(Archive::new), hunt(Plain::default)] {
        assert_eq!(found, None);
        println!("{tally:?}");
        assert_eq!(tally.never(), None);
    }
}

/// A board on which a step moves the pin of the channel after its group, too.
#[derive(Clone, Default)]
struct Leaky(Plain);

impl Unit for Leaky {
    fn reset(&mut self) {
        self.0.reset();
    }

    fn read(&self, address: u16) -> Result<u16, u8> {
        self.0.read(address)
    }

    fn write(&mut self, address: u16, value: u16) -> Result<(), u8> {
        self.0.write(address, value)
    }

    fn advance(&mut self, n: u32, pins: &mut [u16]) -> Result<(), u8> {
        let before = self.0.snapshot();
        self.0.advance(n, pins)?;
        let mut after = self.0.snapshot();
        for c in 0..16 {
            let last = usize::from(after.words[8 * c + COUNT_AND_LAST] & 15);
            if before.words[8 * c + POSITION] != after.words[8 * c + POSITION] && last < 15 {
                after.pins ^= 2 << last;
            }
        }
        self.0 = Plain::from_snapshot(&after);
        Ok(())
    }

    fn interrupt_line(&self) -> bool {
        self.0.interrupt_line()
    }

    fn snapshot(&self) -> Snapshot {
        self.0.snapshot()
    }
}

#[test]
fn a_board_that_leaks_is_found() {
    let (_, found) = hunt(Leaky::default);
    assert!(found.is_some_and(|text| text.contains("pins")));
}

/// Where a late service shows: in later matches, or at the pins themselves.
#[test]
fn boards_that_feel_late_services_are_found() {
    let (_, found) = hunt(|| Plain::with(Blunder::CountsFromService));
    assert!(found.is_some_and(|text| text.contains("count")));
    let (_, found) = hunt(|| Plain::with(Blunder::PinsAtService));
    assert!(found.is_some_and(|text| text.contains("count")));
}
