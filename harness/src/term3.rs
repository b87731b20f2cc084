//! Term 3 watched while calls run on a unit. It sees the unit through its
//! calls alone, after each call and each tick, and knows no other rule than
//! the words of term 3 in document 01, with the longer waits of requests #106
//! and #107: which timer a group has, the initialise of its primary tells.

use crate::calls::{perform, Answer, Call, Lent};
use crate::plain::{
    CHANNEL_CONTROL, CISR, CPR0, HSRR0, MOD_AND_RATE, PARAMETERS, POSITION, STEP_CNTL0, STEP_CNTL1,
    TARGET,
};
use crate::unit::Unit;
use std::fmt;

/// A sentence of term 3 that did not hold.
#[derive(Clone, Debug, PartialEq, Eq)]
pub struct Breach {
    /// The place of the call in its list.
    pub place: usize,
    pub channel: usize,
    pub what: &'static str,
}

/// How much there was to judge.
#[derive(Clone, Debug, Default)]
pub struct Judged {
    pub counts: u64,
    /// Of these: ended by the arrival; within the time, the primary having
    /// kept one level; within that of TCR2; with a turn.
    pub arrivals: u64,
    pub in_time: u64,
    pub in_slow_time: u64,
    pub turns: u64,
}

impl Judged {
    pub fn named(&self) -> [(&'static str, u64); 5] {
        [
            ("counts judged by term 3", self.counts),
            ("of these up to the arrival", self.arrivals),
            ("of these with a time limit", self.in_time),
            ("of these by TCR2", self.in_slow_time),
            ("counts with a turn", self.turns),
        ]
    }
}

impl fmt::Display for Judged {
    fn fmt(&self, f: &mut fmt::Formatter) -> fmt::Result {
        for (name, count) in self.named() {
            writeln!(f, "{count:>12} {name}")?;
        }
        Ok(())
    }
}

/// Runs the calls from reset and judges every count that begins in them.
pub fn judge(unit: &mut dyn Unit, calls: &[Call], judged: &mut Judged) -> Result<(), Breach> {
    unit.reset();
    let mut watch = Watch {
        unit,
        runs: [None; 16],
        slow: [false; 16],
        status: 0,
        lent: Lent::default(),
        judged,
    };
    for (place, &call) in calls.iter().enumerate() {
        watch.call(call).map_err(|(channel, what)| Breach {
            place,
            channel,
            what,
        })?;
    }
    Ok(())
}

#[derive(Clone, Copy)]
struct Step {
    right: bool,
    rate: u16,
}

/// From a request that set the motor going up to its arrival.
#[derive(Clone, Copy)]
struct Run {
    /// Words as last seen.
    position: u16,
    rate: u16,
    latest: Option<Step>,
    /// The priority that it kept since the request, if that is not 00.
    level: Option<u16>,
    /// By TCR2.
    slow: bool,
    count: Count,
}

/// From that request, or a target taken since, up to the arrival or the next.
#[derive(Clone, Copy)]
struct Count {
    target: u16,
    steps: u64,
    limit: u64,
    made: u64,
    turns: u64,
    ticks: u64,
}

/// Slots in which a channel that is ready at one level is served: at the start
/// of a run and at its end an arrival may wait for as many.
pub const LONGEST_TURN: u64 = 112;

/// What a breach is about, without its place.
type Judgement = Result<(), &'static str>;

fn demand(holds: bool, what: &'static str) -> Judgement {
    if holds {
        Ok(())
    } else {
        Err(what)
    }
}

impl Run {
    /// One tick of the run has changed the position.
    fn step(&mut self, position: u16) -> Judgement {
        let by = i32::from(position) - i32::from(self.position);
        demand(by.abs() == 1, "a step moves by one")?;
        let step = Step {
            right: by == 1,
            rate: self.rate,
        };
        match self.latest {
            None => demand(step.rate == 1, "before the first step the rate is 1")?,
            Some(latest) if latest.right != step.right => {
                self.count.turns += 1;
                demand(step.rate == 1, "the first step after a turn is at rate 1")?;
            }
            Some(_) => {}
        }
        let change = self.latest.map_or(0, |l| l.rate.abs_diff(step.rate));
        demand(change <= 1, "the rate changes by one at most")?;
        self.latest = Some(step);
        self.count.made += 1;
        demand(self.count.turns <= 1, "it turns at most once")?;
        demand(self.count.made <= self.count.steps, "never more steps")
    }

    /// The tick that left the group unbound.
    fn arrival(&self, target: u16, lit: bool) -> Judgement {
        let count = &self.count;
        demand(count.made == count.steps, "exactly so many steps")?;
        demand(target == count.target, "the target stays as it was written")?;
        demand(self.position == count.target, "it stands at the target")?;
        demand(self.rate == 1, "it stands at next rate 1")?;
        demand(lit, "its interrupt bit is set")
    }
}

struct Watch<'a> {
    unit: &'a mut dyn Unit,
    runs: [Option<Run>; 16],
    /// The latest initialise that was taken is for TCR2.
    slow: [bool; 16],
    /// CISR as last seen.
    status: u16,
    lent: Lent,
    judged: &'a mut Judged,
}

fn word_address(c: usize, w: usize) -> u16 {
    PARAMETERS + 16 * c as u16 + 2 * w as u16
}

// What the unit shows.
impl Watch<'_> {
    fn read(&self, address: u16) -> u16 {
        self.unit.read(address).unwrap_or(0)
    }

    fn word(&self, c: usize, w: usize) -> u16 {
        self.read(word_address(c, w))
    }

    fn rate(&self, c: usize) -> u16 {
        self.word(c, MOD_AND_RATE) & 15
    }

    fn level(&self, c: usize) -> Option<u16> {
        let word = self.read(CPR0 + 2 * (1 - c as u16 / 8));
        let priority = (word >> (2 * (c % 8))) & 3;
        (priority != 0).then_some(priority)
    }

    /// Whether a write of the position is taken; it writes what stands there.
    fn is_unbound(&mut self, c: usize, position: u16) -> bool {
        let address = word_address(c, POSITION);
        self.unit.write(address, position).is_ok()
    }
}

// What begins, goes on and ends.
impl Watch<'_> {
    fn call(&mut self, call: Call) -> Result<(), (usize, &'static str)> {
        if let Some(n) = call.ticks() {
            return self.advance(n);
        }
        let answer = perform(self.unit, call, &mut self.lent);
        if let (Call::Write(address, value), Answer::Done) = (call, answer) {
            self.taken(address, value);
        }
        let status = self.read(CISR);
        for c in 0..16 {
            self.dark(c, status).map_err(|what| (c, what))?;
        }
        self.status = status;
        Ok(())
    }

    fn taken(&mut self, address: u16, value: u16) {
        for c in 0..16 {
            let asked = address == HSRR0 + 2 * (1 - c as u16 / 8);
            let request = if asked {
                (value >> (2 * (c % 8))) & 3
            } else {
                0
            };
            if request == 2 {
                // This word is locked until the service.
                self.slow[c] = self.word(c, CHANNEL_CONTROL) & 0x1E0 == 0xE0;
            } else if request == 3 && self.runs[c].is_none() {
                self.begin(c, None, self.level(c));
            } else if address == word_address(c, TARGET) {
                if let Some(run) = self.runs[c] {
                    self.end(&run.count);
                    self.begin(c, run.latest, run.level);
                }
            }
            let level = self.level(c);
            if let Some(run) = &mut self.runs[c] {
                run.level = run.level.filter(|_| run.level == level);
            }
        }
    }

    fn begin(&mut self, c: usize, latest: Option<Step>, level: Option<u16>) {
        let (position, rate) = (self.word(c, POSITION), self.rate(c));
        let target = self.word(c, TARGET);
        let ahead = i64::from(rate.max(1)) - 1;
        let stop = match latest {
            Some(Step { right: false, .. }) => i64::from(position) - ahead,
            _ => i64::from(position) + ahead,
        };
        let steps = ahead as u64 + stop.abs_diff(i64::from(target));
        let per_rate = u64::from(self.word(c + 1, STEP_CNTL0));
        let longest = u64::from(self.word(c + 1, STEP_CNTL1)).saturating_sub(2 * per_rate);
        let slow = self.slow[c];
        let ticks_a_count = if slow { 8 } else { 1 };
        self.runs[c] = Some(Run {
            position,
            rate,
            latest,
            level,
            slow,
            count: Count {
                target,
                steps,
                limit: 1 + ticks_a_count * longest * (steps + 1) + 2 * LONGEST_TURN,
                made: 0,
                turns: 0,
                ticks: 0,
            },
        });
    }

    fn end(&mut self, count: &Count) {
        self.judged.counts += 1;
        self.judged.turns += count.turns;
    }

    /// Nothing but the arrival sets the interrupt bit in a run.
    fn dark(&self, c: usize, status: u16) -> Judgement {
        let lit = status & !self.status & 1 << c != 0;
        demand(
            self.runs[c].is_none() || !lit,
            "the bit is set before the arrival",
        )
    }

    /// Tick by tick, as long as there is a run to watch.
    fn advance(&mut self, n: u32) -> Result<(), (usize, &'static str)> {
        for left in (1..=n).rev() {
            if self.runs.iter().all(Option::is_none) {
                perform(
                    self.unit,
                    Call::Advance(left, left as usize),
                    &mut self.lent,
                );
                self.status = self.read(CISR);
                break;
            }
            self.tick()?;
        }
        Ok(())
    }

    fn tick(&mut self) -> Result<(), (usize, &'static str)> {
        self.unit.advance(1, &mut [0]).expect("one tick is taken");
        let status = self.read(CISR);
        for c in 0..16 {
            if let Some(mut run) = self.runs[c] {
                let going = self.after_tick(c, &mut run, status);
                self.runs[c] = going.map_err(|what| (c, what))?.then_some(run);
            }
        }
        self.status = status;
        Ok(())
    }

    /// Whether the run goes on.
    fn after_tick(&mut self, c: usize, run: &mut Run, status: u16) -> Result<bool, &'static str> {
        let position = self.word(c, POSITION);
        run.count.ticks += 1;
        if position != run.position {
            run.step(position)?;
            run.position = position;
        }
        run.rate = self.rate(c);
        if self.is_unbound(c, position) {
            run.arrival(self.word(c, TARGET), status & 1 << c != 0)?;
            self.end(&run.count);
            self.judged.arrivals += 1;
            self.judged.in_time += u64::from(run.level.is_some());
            self.judged.in_slow_time += u64::from(run.level.is_some() && run.slow);
            return Ok(false);
        }
        self.dark(c, status)?;
        let late = run.level.is_some() && run.count.ticks >= run.count.limit;
        demand(!late, "it has arrived in time")?;
        Ok(true)
    }
}
