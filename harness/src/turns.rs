//! Watches request #107 while call lists run on the plain unit: whose turn each
//! tick was, how long the others have been ready, and the bound of 112 slots.

use crate::plain::{Plain, POSITION, ROUND};
use crate::term3::LONGEST_TURN;
use crate::unit::Phase;

/// Levels of the counts below, in their order.
pub const LEVELS: [&str; 3] = ["high", "middle", "low"];

/// What happened in the slots.
#[derive(Clone, Default, Debug)]
pub struct Slots {
    pub services: [u64; 3],
    /// Slots given to another level than their own.
    pub handed_over: u64,
    /// Slots in which a ready channel was passed over.
    pub contested: u64,
    /// Searches that went on from 15 to 0.
    pub wrapped: u64,
    /// Matches served in a later slot than the first in which they were ready,
    /// at one level all the time, and the latest of them.
    pub late: u64,
    pub latest: u64,
    /// Slots from the first in which a channel was ready at one level to the
    /// one that served it: the most by level.
    pub longest: [u64; 3],
    /// What may never happen.
    pub broken: Option<&'static str>,
}

impl Slots {
    pub fn named(&self) -> Vec<(String, u64)> {
        let mut all = Vec::new();
        for (i, level) in LEVELS.iter().enumerate() {
            all.push((format!("services at the {level} level"), self.services[i]));
            all.push((
                format!("slots of the longest wait, {level}"),
                self.longest[i],
            ));
        }
        let single = [
            ("slots handed over", self.handed_over),
            ("slots with more than one ready", self.contested),
            ("searches past channel 15", self.wrapped),
            ("matches served late, level kept", self.late),
            ("ticks of the latest of them", self.latest),
        ];
        all.extend(single.map(|(name, count)| (name.to_string(), count)));
        all
    }
}

/// What tells whether a channel is ready and whether it was served.
#[derive(Clone, Copy, Default)]
pub struct Need {
    level: u16,
    asked: bool,
    phase: Phase,
    position: u16,
}

impl Need {
    pub fn of(unit: &Plain, c: usize) -> Need {
        Need {
            level: unit.priority(c),
            asked: unit.request(c) >= 2,
            phase: unit.phase(c),
            position: unit.word(c, POSITION),
        }
    }

    fn is_ready(self) -> bool {
        self.level != 0 && (self.asked || matches!(self.phase, Phase::Matched { .. }))
    }

    /// Between this and the tick after it the channel's match was served.
    fn has_stepped(self, after: Need) -> bool {
        let set = matches!(self.phase, Phase::Armed(_) | Phase::Matched { .. });
        let arrived = after.phase == Phase::Resting;
        set && (arrived || self.position != after.position)
    }

    fn was_served(self, after: Need) -> bool {
        self.asked && !after.asked || self.has_stepped(after)
    }
}

/// For how long the channels have been ready.
#[derive(Default)]
pub struct Turns {
    ticks: u64,
    /// The level, and the slots that passed the channel over at it.
    waits: [(u16, u64); 16],
    lasts: [Option<usize>; 3],
}

impl Turns {
    /// One tick from the needs before it to those after it.
    pub fn tick(&mut self, before: &[Need; 16], after: &[Need; 16], counts: &mut Slots) {
        self.ticks += 1;
        let mut served = 0;
        let mut passed = 0;
        for c in 0..16 {
            if before[c].was_served(after[c]) {
                served += 1;
                self.served(c, before[c].has_stepped(after[c]), after[c].level, counts);
            } else if after[c].is_ready() {
                passed += 1;
                self.passed(c, after[c].level, counts);
            } else {
                self.waits[c] = (0, 0);
            }
        }
        counts.contested += u64::from(passed > 0);
        if served > 1 {
            counts.broken = Some("one service a tick");
        }
        if served == 0 && passed > 0 {
            counts.broken = Some("a slot with a ready channel goes to one");
        }
    }

    fn served(&mut self, c: usize, matched: bool, level: u16, counts: &mut Slots) {
        let (waited_at, passed) = self.waits[c];
        let passed = if waited_at == level { passed } else { 0 };
        self.waits[c] = (0, 0);
        if level == 0 {
            counts.broken = Some("priority 00 is not served");
            return;
        }
        let i = usize::from(3 - level);
        let slot = (self.ticks - 1) % 7;
        counts.services[i] += 1;
        counts.handed_over += u64::from(ROUND[slot as usize] != level);
        counts.wrapped += u64::from(self.lasts[i].is_some_and(|last| c <= last));
        counts.longest[i] = counts.longest[i].max(passed + 1);
        counts.late += u64::from(matched && passed > 0);
        counts.latest = counts.latest.max(if matched { passed } else { 0 });
        self.lasts[i] = Some(c);
    }

    fn passed(&mut self, c: usize, level: u16, counts: &mut Slots) {
        let (waited_at, slots) = self.waits[c];
        let slots = if waited_at == level { slots + 1 } else { 1 };
        self.waits[c] = (level, slots);
        if slots >= LONGEST_TURN {
            counts.broken = Some("served within 112 slots at one level");
        }
    }
}
