//! Watches request #108 while call lists run on the plain unit: what a channel's
//! number becomes in the tick that serves its match, and that nothing else
//! changes it. It works out match times itself, from the ramp.

use crate::calls::{Answer, Call};
use crate::plain::{Plain, LATE, MOD_AND_RATE, POSITION, STEP_CNTL0, STEP_CNTL1};
use crate::unit::Phase;

/// The most that a number can be at one level, by TCR1 and by TCR2. A service
/// comes up to 111 ticks after that of the match, in which TCR2 rose.
pub const LATEST: [u16; 2] = [111, 111 / 8];

/// What happened to the numbers. Pairs are by TCR1 and by TCR2.
#[derive(Clone, Default, Debug)]
pub struct Numbers {
    /// Told above 0.
    pub late: [u64; 2],
    /// The greatest where one level was kept since the request.
    pub most: [u16; 2],
    /// Told as 0 after one above 0.
    pub on_time_again: u64,
    /// Told as $8000 or more.
    pub half_round: u64,
    /// Told of a match that was already due at its set-up.
    pub due_at_set_up: u64,
    /// Told above 0 by a service that ended the run.
    pub at_arrival: u64,
    /// Told above 0 by a service with a request in it.
    pub with_request: u64,
    /// Above 0, and left so by a service of a request alone.
    pub left_by_request: u64,
    /// Above 0 in a channel that became a secondary.
    pub in_secondary: u64,
    /// Above 0 as a read gave them.
    pub read: u64,
    pub writes_refused: u64,
    /// What may never happen.
    pub broken: Option<&'static str>,
}

impl Numbers {
    pub fn named(&self) -> [(&'static str, u64); 13] {
        [
            ("late numbers by TCR1", self.late[0]),
            ("late numbers by TCR2", self.late[1]),
            ("greatest number by TCR1, level kept", self.most[0].into()),
            ("greatest number by TCR2, level kept", self.most[1].into()),
            ("numbers 0 again", self.on_time_again),
            ("numbers of $8000 or more", self.half_round),
            ("numbers of matches due at set-up", self.due_at_set_up),
            ("late numbers of arrivals", self.at_arrival),
            ("late numbers told beside a request", self.with_request),
            ("late numbers left by a request", self.left_by_request),
            ("late numbers in secondaries", self.in_secondary),
            ("late numbers read", self.read),
            ("writes to numbers refused", self.writes_refused),
        ]
    }

    fn demand(&mut self, holds: bool, rule: &'static str) {
        if !holds {
            self.broken = Some(rule);
        }
    }
}

/// The time for which the match of each channel was set.
#[derive(Default)]
pub struct Lateness {
    set: [u16; 16],
}

impl Lateness {
    /// A tick. Kept is the level that a primary has had since its request.
    pub fn tick(
        &mut self,
        before: &Plain,
        after: &Plain,
        kept: &[Option<u16>; 16],
        counts: &mut Numbers,
    ) {
        for (c, kept) in kept.iter().enumerate() {
            let stepped = before.word(c, POSITION) != after.word(c, POSITION);
            let arrived = after.phase(c) == Phase::Resting;
            let captured = match before.phase(c) {
                Phase::Matched { captured, .. } => Some(captured),
                Phase::Armed(_) => Some(now(after, c)),
                _ => None,
            };
            match captured {
                Some(captured) if stepped || arrived => {
                    let late = now(after, c).wrapping_sub(self.set[c]);
                    let rule = "a match service tells the counts since its match time";
                    counts.demand(after.late(c) == late, rule);
                    counts.due_at_set_up += u64::from(captured != self.set[c]);
                    note(before, after, c, counts);
                    if kept.is_some() {
                        keeps_to_bound(after, c, counts);
                    }
                }
                _ => passes(before, after, c, counts),
            }
            if stepped {
                let reference = captured.unwrap_or(now(after, c));
                self.set[c] = reference.wrapping_add(period(before, c));
            }
        }
    }

    /// Any call but an advance that is taken.
    pub fn call(before: &Plain, after: &Plain, call: Call, answer: Answer, counts: &mut Numbers) {
        for c in 0..16 {
            stays(before, after, c, counts);
            let bound = after.is_bound(c) && !before.is_bound(c);
            let second = bound && after.phase(c) == Phase::Resting;
            counts.in_secondary += u64::from(second && after.late(c) > 0);
        }
        match call {
            Call::Read(address) if is_number(address) => {
                let late = after.late(usize::from(address - LATE) / 2);
                counts.demand(answer == Answer::Word(late), "a read gives the number");
                counts.read += u64::from(late > 0);
            }
            Call::Write(address, _) if is_number(address) => {
                let refused = answer == Answer::Refused(1);
                counts.demand(refused, "no number can be written");
                counts.writes_refused += 1;
            }
            _ => {}
        }
    }
}

fn is_number(address: u16) -> bool {
    address & 1 == 0 && (LATE..LATE + 32).contains(&address)
}

/// The timer of a group.
fn now(unit: &Plain, c: usize) -> u16 {
    if unit.view(c).by_tcr2 {
        unit.tcr2()
    } else {
        unit.tcr1()
    }
}

/// Of the step that comes next.
fn period(unit: &Plain, c: usize) -> u16 {
    let rate = unit.word(c, MOD_AND_RATE) & 15;
    let per_rate = unit.word(c + 1, STEP_CNTL0);
    unit.word(c + 1, STEP_CNTL1)
        .wrapping_sub(per_rate.wrapping_mul(1 + rate))
}

fn stays(before: &Plain, after: &Plain, c: usize, counts: &mut Numbers) {
    let same = before.late(c) == after.late(c);
    counts.demand(same, "nothing but a match service changes a number");
}

/// A tick without a service of the channel's match.
fn passes(before: &Plain, after: &Plain, c: usize, counts: &mut Numbers) {
    stays(before, after, c, counts);
    let asked = before.request(c) > 1 && after.request(c) == 0;
    counts.left_by_request += u64::from(asked && after.late(c) > 0);
}

/// A tick that served the channel's match.
fn note(before: &Plain, after: &Plain, c: usize, counts: &mut Numbers) {
    let late = u64::from(after.late(c) > 0);
    counts.late[usize::from(after.view(c).by_tcr2)] += late;
    counts.on_time_again += u64::from(before.late(c) > 0 && after.late(c) == 0);
    counts.half_round += u64::from(after.late(c) >= 0x8000);
    if after.phase(c) == Phase::Resting {
        counts.at_arrival += late;
    }
    if before.request(c) > 1 {
        counts.with_request += late;
    }
}

/// The match of a primary that has kept its level.
fn keeps_to_bound(unit: &Plain, c: usize, counts: &mut Numbers) {
    let i = usize::from(unit.view(c).by_tcr2);
    counts.most[i] = counts.most[i].max(unit.late(c));
    let rule = "at one level a number is at most 111, and 13 by TCR2";
    counts.demand(unit.late(c) <= LATEST[i], rule);
}
