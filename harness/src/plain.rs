//! The timer unit of document 01, with #103 and #106 to #108 of paper 02, as
//! plain Rust, state by `&mut`. To try the harness it can make a blunder on
//! purpose.

use crate::unit::{ChannelView, Phase, Slots, Snapshot, Unit};

pub const CIER: u16 = 0xE0A;
pub const CFSR0: u16 = 0xE0C;
pub const HSQR0: u16 = 0xE14;
pub const HSRR0: u16 = 0xE18;
pub const CPR0: u16 = 0xE1C;
pub const CISR: u16 = 0xE20;
/// How late channel 0 was served.
pub const LATE: u16 = 0xE40;
pub const PARAMETERS: u16 = 0xF00;

/// Function number of the Stepper Motor.
pub const STEPPER: u16 = 13;
/// Most ticks of one advance.
pub const MAX_TICKS: u32 = 4096;

const INITIALISE: u16 = 2;
const STEP: u16 = 3;

/// TCR2 rises once in so many ticks.
pub const TICKS_A_COUNT: u16 = 8;

/// Priorities of a round of slots, the first after reset first; 3 is high.
pub const ROUND: [u16; 7] = [3, 2, 3, 1, 3, 2, 3];
/// Fewest counts of a motor's quickest step.
pub const SHORTEST: u16 = 128;

// Bits 8 to 5 of CHANNEL_CONTROL: capture and match by a timer.
const BY_TCR1: u16 = 4;
const BY_TCR2: u16 = 7;

// Parameter words of a channel.
pub const CHANNEL_CONTROL: usize = 0;
pub const PIN_CONTROL: usize = 1;
pub const POSITION: usize = 2;
pub const TARGET: usize = 3;
pub const MOD_AND_RATE: usize = 4;
pub const COUNT_AND_LAST: usize = 5;
// Words of the channel after the primary.
pub const STEP_CNTL0: usize = 2;
pub const STEP_CNTL1: usize = 3;

/// What an address stands for. Numbers of channels are the lowest of a word.
enum Place {
    Cier,
    Cfsr(usize),
    Hsqr(usize),
    Hsrr(usize),
    Cpr(usize),
    Cisr,
    Late(usize),
    Word(usize, usize),
}

/// Question 1.
fn place(address: u16) -> Result<Place, u8> {
    if address & 1 != 0 {
        return Err(1);
    }
    let a = usize::from(address);
    match a {
        0xE0A => Ok(Place::Cier),
        0xE0C..=0xE12 => Ok(Place::Cfsr(12 - (a - 0xE0C) * 2)),
        0xE14..=0xE16 => Ok(Place::Hsqr((a - 0xE14) / 2)),
        0xE18..=0xE1A => Ok(Place::Hsrr(8 - (a - 0xE18) * 4)),
        0xE1C..=0xE1E => Ok(Place::Cpr(8 - (a - 0xE1C) * 4)),
        0xE20 => Ok(Place::Cisr),
        0xE40..=0xE5E => Ok(Place::Late((a - 0xE40) / 2)),
        0xF00..=0xFFE => Ok(Place::Word((a >> 4) & 15, (a >> 1) & 7)),
        _ => Err(1),
    }
}

/// Only channels 14 and 15 have words 6 and 7.
fn exists(c: usize, word: usize) -> bool {
    word < 6 || c >= 14
}

/// Bits 8 to 5 of a CHANNEL_CONTROL.
fn timing(control: u16) -> u16 {
    (control >> 5) & 15
}

/// Yes lets the questions go on, no ends them with the number.
fn ask(answer: bool, number: u8) -> Result<(), u8> {
    if answer {
        Ok(())
    } else {
        Err(number)
    }
}

/// A fault to be found. The first four are those of document 01, the fifth is
/// the first board that its conditions of acceptance shut out, the sixth is the
/// turn as it was before paper 02, #103, the next five are about the timers of
/// #106, then eleven about the slots of #107, and the others about the numbers
/// of #108.
#[derive(Clone, Copy, Debug, PartialEq, Eq)]
pub enum Blunder {
    /// MOD_CNT counts visits to a turn, not steps.
    CountsVisits,
    /// A timer is compared with reference time plus period as plain numbers.
    ComparesPlainly,
    /// The motor turns at once where the target lies behind.
    TurnsWhileFast,
    /// A target that is written on the way is kept for after the arrival.
    KeepsTarget,
    /// The status bit is set when a step request is taken.
    LightsAtRequest,
    /// The motor takes up speed at a distance of N already.
    AcceleratesAtN,
    /// TCR2 rises in every seventh tick.
    RisesInSeven,
    /// The kind is what CHANNEL_CONTROL says when steps are requested.
    KindAtRequest,
    /// The reference time of a step request is TCR1 for every group.
    RefersToTcr1,
    /// Question 6 looks at the kind of the first secondary only.
    AsksFirstKind,
    /// Question 6 looks at the kind of the last secondary only.
    AsksLastKind,
    /// Two channels are served in a tick.
    ServesTwo,
    /// A level's search begins at channel 0 in every slot.
    SearchesFromZero,
    /// A slot is handed over to the lowest level that has a ready channel.
    HandsToLowest,
    /// A slot that is handed over moves the last of its own level.
    MovesLastOfSlot,
    /// Every slot serves the highest level with a ready channel.
    StarvesLow,
    /// The slot stands still while no channel is ready.
    SlotRests,
    /// The channel is chosen before the matches of the tick.
    ChoosesFirst,
    /// A period is counted from the service of the match before it.
    CountsFromService,
    /// The pins change when the match is served.
    PinsAtService,
    /// Question 14 is not asked.
    TakesQuickRamps,
    /// Question 14 is asked after question 9.
    AsksTargetFirst,
    /// A number is since the captured time.
    LateFromCapture,
    /// A number is told as the service ends: of the next match, if that was
    /// already due at its set-up.
    LateAtEnd,
    /// A number is told as the match happens.
    LateAtMatch,
    /// A number is by TCR1 for every group.
    LateByTcr1,
    /// A number of $8000 or more is not kept.
    LateBelow8000,
    /// The arrival clears the number.
    ArrivalClearsLate,
    /// The service of a request clears the number.
    RequestClearsLate,
    /// No number is told where a request is served with the match.
    RequestHidesLate,
    /// A write to a number is taken.
    TakesLate,
    /// A read gives the number of the next channel.
    ShowsNextLate,
}

/// The blunders about the numbers of #108.
pub const OF_NUMBERS: [Blunder; 10] = [
    Blunder::LateFromCapture,
    Blunder::LateAtEnd,
    Blunder::LateAtMatch,
    Blunder::LateByTcr1,
    Blunder::LateBelow8000,
    Blunder::ArrivalClearsLate,
    Blunder::RequestClearsLate,
    Blunder::RequestHidesLate,
    Blunder::TakesLate,
    Blunder::ShowsNextLate,
];

#[derive(Clone, Copy, Default)]
struct Channel {
    function: u16,
    request: u16,
    priority: u16,
    initialised: bool,
    /// Initialised for TCR2.
    slow: bool,
    /// The group goes by TCR2.
    by_tcr2: bool,
    bound: bool,
    level: bool,
    left: bool,
    phase: Phase,
    /// By how many counts its latest match service came after the match time.
    late: u16,
    /// What a blunder remembers.
    kept: Option<u16>,
}

/// The unit. The default is the state after reset.
#[derive(Clone, Default)]
pub struct Plain {
    blunder: Option<Blunder>,
    tcr1: u16,
    tcr2: u16,
    /// Ticks since TCR2 rose, or since reset.
    ticks_of_count: u16,
    pins: u16,
    cier: u16,
    cisr: u16,
    hsqr: [u16; 2],
    channels: [Channel; 16],
    words: [[u16; 8]; 16],
    slots: Slots,
}

// The three calls and the line.
impl Plain {
    pub fn read(&self, address: u16) -> Result<u16, u8> {
        Ok(match place(address)? {
            Place::Cier => self.cier,
            Place::Cfsr(low) => self.gather(low, 4, |ch| ch.function),
            Place::Hsqr(i) => self.hsqr[i],
            Place::Hsrr(low) => self.gather(low, 8, |ch| ch.request),
            Place::Cpr(low) => self.gather(low, 8, |ch| ch.priority),
            Place::Cisr => self.cisr,
            Place::Late(c) => self.late(c),
            Place::Word(c, w) if exists(c, w) => self.words[c][w],
            Place::Word(..) => 0,
        })
    }

    pub fn write(&mut self, address: u16, value: u16) -> Result<(), u8> {
        match place(address)? {
            Place::Cier => self.cier = value,
            Place::Cfsr(low) => return self.write_functions(low, value),
            Place::Hsqr(i) => self.hsqr[i] = value,
            Place::Hsrr(low) => return self.write_requests(low, value),
            Place::Cpr(low) => self.write_priorities(low, value),
            Place::Cisr => self.cisr &= value,
            Place::Late(c) if self.makes(Blunder::TakesLate) => self.channels[c].late = value,
            Place::Late(_) => return Err(1),
            Place::Word(c, w) => return self.write_word(c, w, value),
        }
        Ok(())
    }

    pub fn advance(&mut self, n: u32, pins: &mut [u16]) -> Result<(), u8> {
        ask(n <= MAX_TICKS && n as usize <= pins.len(), 10)?;
        for pin_word in &mut pins[..n as usize] {
            self.tick();
            *pin_word = self.pins;
        }
        Ok(())
    }

    pub fn interrupt_line(&self) -> bool {
        self.cier & self.cisr != 0
    }
}

// What the registers hold, and how they are written.
impl Plain {
    /// A register word out of the same field of `count` channels.
    fn gather(&self, low: usize, count: usize, field: fn(&Channel) -> u16) -> u16 {
        let width = 16 / count;
        let mut word = 0;
        for i in 0..count {
            word |= field(&self.channels[low + i]) << (i * width);
        }
        word
    }

    fn write_functions(&mut self, low: usize, value: u16) -> Result<(), u8> {
        for i in 0..4 {
            let differs = self.channels[low + i].function != (value >> (4 * i)) & 15;
            ask(!differs || self.is_free(low + i), 2)?;
        }
        for i in 0..4 {
            self.channels[low + i].function = (value >> (4 * i)) & 15;
        }
        Ok(())
    }

    fn write_priorities(&mut self, low: usize, value: u16) {
        for i in 0..8 {
            self.channels[low + i].priority = (value >> (2 * i)) & 3;
        }
    }

    /// All requests of the word are taken, or none.
    fn write_requests(&mut self, low: usize, value: u16) -> Result<(), u8> {
        let before = self.channels;
        for i in 0..8 {
            let taken = match (value >> (2 * i)) & 3 {
                INITIALISE => self.request_initialise(low + i),
                STEP => self.request_step(low + i),
                _ => Ok(()),
            };
            if taken.is_err() {
                self.channels = before;
                return taken;
            }
        }
        Ok(())
    }

    fn write_word(&mut self, c: usize, w: usize, value: u16) -> Result<(), u8> {
        if !exists(c, w) {
            return Ok(());
        }
        if w == TARGET && self.is_moving(c) {
            ask(value <= 0xFFFF - self.rate_count(c), 9)?;
        } else {
            ask(self.is_free(c), 2)?;
        }
        if self.makes(Blunder::KeepsTarget) && self.is_moving(c) {
            self.channels[c].kept = Some(value);
            return Ok(());
        }
        self.words[c][w] = value;
        if w == CHANNEL_CONTROL {
            self.channels[c].initialised = false;
        }
        Ok(())
    }
}

// Requests at the gate.
impl Plain {
    /// Neither in a bound group nor with a request of its own.
    fn is_free(&self, c: usize) -> bool {
        !self.channels[c].bound && self.channels[c].request == 0
    }

    /// A bound primary: its step request is taken and it has not arrived.
    fn is_moving(&self, c: usize) -> bool {
        self.channels[c].phase != Phase::Resting
    }

    fn request_initialise(&mut self, c: usize) -> Result<(), u8> {
        ask(self.is_free(c), 2)?;
        ask(self.channels[c].function == STEPPER, 3)?;
        let control = self.words[c][CHANNEL_CONTROL];
        let high = self.words[c][PIN_CONTROL] & 0x8000 != 0;
        let pin_bits = if high { 1 } else { 2 };
        let timed = matches!(timing(control), BY_TCR1 | BY_TCR2);
        ask(timed && control & 3 == pin_bits, 4)?;
        self.channels[c].request = INITIALISE;
        Ok(())
    }

    fn request_step(&mut self, c: usize) -> Result<(), u8> {
        if self.is_moving(c) && self.channels[c].request == 0 {
            ask(self.channels[c].function == STEPPER, 3)?;
            self.channels[c].request = STEP;
            return Ok(());
        }
        ask(self.is_free(c), 2)?;
        ask(self.channels[c].function == STEPPER, 3)?;
        self.ask_group(c)?;
        self.ask_ramp_and_target(c)?;
        self.channels[c].request = STEP;
        self.channels[c].by_tcr2 = self.is_slow(c);
        self.bind(c);
        if self.makes(Blunder::LightsAtRequest) {
            self.cisr |= 1 << c;
        }
        Ok(())
    }

    fn bind(&mut self, c: usize) {
        self.channels[c].phase = Phase::Requested;
        for g in c..=self.last(c) {
            self.channels[g].bound = true;
        }
    }

    /// Questions 5 to 7.
    fn ask_group(&self, c: usize) -> Result<(), u8> {
        let tidy = self.words[c][COUNT_AND_LAST] & 0xF0F0 == 0;
        let n = self.rate_count(c);
        let last = self.last(c);
        ask(
            tidy && (1..=14).contains(&n) && last > c && last <= c + 7,
            5,
        )?;
        for g in c..=last {
            let ready = self.channels[g].function == STEPPER && self.channels[g].initialised;
            ask(ready && self.is_alike(c, g, last) && self.is_free(g), 6)?;
        }
        let tidy = self.words[c][MOD_AND_RATE] & 0xF0F0 == 0;
        ask(tidy && self.next_rate(c) == 1, 7)?;
        for g in c..=last {
            let turned = self.words[g][PIN_CONTROL].rotate_right(self.mod_count(c).into());
            ask(self.words[g][CHANNEL_CONTROL] == turned, 7)?;
        }
        Ok(())
    }

    /// The kind that the latest initialise gave the channel.
    fn is_slow(&self, c: usize) -> bool {
        if self.makes(Blunder::KindAtRequest) {
            return timing(self.words[c][CHANNEL_CONTROL]) == BY_TCR2;
        }
        self.channels[c].slow
    }

    /// The channel g has the kind of the primary.
    fn is_alike(&self, primary: usize, g: usize, last: usize) -> bool {
        let passed_over = self.makes(Blunder::AsksFirstKind) && g != primary + 1
            || self.makes(Blunder::AsksLastKind) && g != last;
        passed_over || self.is_slow(g) == self.is_slow(primary)
    }

    /// Questions 8, 14 and 9.
    fn ask_ramp_and_target(&self, c: usize) -> Result<(), u8> {
        let n = self.rate_count(c);
        let quickest = self.period(c, n);
        ask(quickest >= 1 && self.period(c, 1) <= 0x7FFF, 8)?;
        let near = self.words[c][TARGET] <= 0xFFFF - n;
        if self.makes(Blunder::AsksTargetFirst) {
            ask(near, 9)?;
        }
        let slow_enough = quickest >= i32::from(SHORTEST);
        ask(slow_enough || self.makes(Blunder::TakesQuickRamps), 14)?;
        ask(near, 9)
    }
}

// Fields of a primary's words.
impl Plain {
    fn mod_count(&self, c: usize) -> u16 {
        (self.words[c][MOD_AND_RATE] >> 8) & 15
    }

    fn next_rate(&self, c: usize) -> u16 {
        self.words[c][MOD_AND_RATE] & 15
    }

    fn rate_count(&self, c: usize) -> u16 {
        (self.words[c][COUNT_AND_LAST] >> 8) & 15
    }

    fn last(&self, c: usize) -> usize {
        usize::from(self.words[c][COUNT_AND_LAST] & 15)
    }

    /// Counts of a step at this rate; wide, so that it can lie below zero.
    fn period(&self, c: usize, rate: u16) -> i32 {
        let Some(ramp) = self.words.get(c + 1) else {
            return 0;
        };
        i32::from(ramp[STEP_CNTL1]) - i32::from(ramp[STEP_CNTL0]) * (1 + i32::from(rate))
    }
}

// One tick.
impl Plain {
    fn tick(&mut self) {
        self.time_goes_on();
        let early = self.makes(Blunder::ChoosesFirst).then(|| self.choose());
        for c in 0..16 {
            if let Phase::Armed(time) = self.channels[c].phase {
                if self.is_due(c, time) {
                    self.act(c, time);
                }
            }
        }
        if let Some(c) = early.unwrap_or_else(|| self.choose()) {
            self.serve(c);
        }
        let second = self.makes(Blunder::ServesTwo).then(|| self.choose());
        if let Some(c) = second.flatten() {
            self.serve(c);
        }
    }

    /// The request, and then the match that was pending before it.
    fn serve(&mut self, c: usize) {
        let Channel { phase, request, .. } = self.channels[c];
        self.serve_request(c);
        if let Phase::Matched { captured, time } = phase {
            if request == 0 || !self.makes(Blunder::RequestHidesLate) {
                self.tell(c, captured, time);
            }
            self.serve_match(c, captured);
        }
    }

    fn serve_match(&mut self, c: usize, captured: u16) {
        if self.makes(Blunder::PinsAtService) {
            self.show(c);
        }
        let late = self.makes(Blunder::CountsFromService);
        let reference = if late { self.now(c) } else { captured };
        self.turn(c, !self.channels[c].left, reference);
        if let Phase::Matched { captured, time } = self.channels[c].phase {
            if self.makes(Blunder::LateAtEnd) {
                self.tell(c, captured, time);
            }
        }
    }

    /// The number of a match whose service begins now.
    fn tell(&mut self, c: usize, captured: u16, time: u16) {
        let by_tcr1 = self.makes(Blunder::LateByTcr1);
        let now = if by_tcr1 { self.tcr1 } else { self.now(c) };
        let from_capture = self.makes(Blunder::LateFromCapture);
        let late = now.wrapping_sub(if from_capture { captured } else { time });
        let dropped = late >= 0x8000 && self.makes(Blunder::LateBelow8000);
        if !dropped && !self.makes(Blunder::LateAtMatch) {
            self.channels[c].late = late;
        }
    }

    fn time_goes_on(&mut self) {
        self.tcr1 = self.tcr1.wrapping_add(1);
        self.ticks_of_count += 1;
        let whole = if self.makes(Blunder::RisesInSeven) {
            7
        } else {
            TICKS_A_COUNT
        };
        if self.ticks_of_count == whole {
            self.ticks_of_count = 0;
            self.tcr2 = self.tcr2.wrapping_add(1);
        }
        let rests = self.makes(Blunder::SlotRests) && (0..16).all(|c| !self.is_ready(c));
        if !rests {
            self.slots.slot = (self.slots.slot % 7 + 1) % 7;
        }
    }

    fn is_due(&self, c: usize, time: u16) -> bool {
        if self.makes(Blunder::ComparesPlainly) {
            // Never, if the sum went past $FFFF.
            return self.channels[c].kept <= Some(time) && time <= self.now(c);
        }
        self.now(c).wrapping_sub(time) < 0x8000
    }

    /// The time of the group of c, by its timer.
    fn now(&self, c: usize) -> u16 {
        if self.channels[c].by_tcr2 {
            self.tcr2
        } else {
            self.tcr1
        }
    }

    /// What the first period of a run is counted from.
    fn reference(&self, c: usize) -> u16 {
        if self.makes(Blunder::RefersToTcr1) {
            self.tcr1
        } else {
            self.now(c)
        }
    }

    /// The match happens: prepared levels to the pins, time captured.
    fn act(&mut self, c: usize, time: u16) {
        if !self.makes(Blunder::PinsAtService) {
            self.show(c);
        }
        let captured = self.now(c);
        self.channels[c].phase = Phase::Matched { captured, time };
        if self.makes(Blunder::LateAtMatch) {
            self.channels[c].late = captured.wrapping_sub(time);
        }
    }

    /// The prepared levels of a group go to its pins.
    fn show(&mut self, c: usize) {
        for g in c..=self.last(c) {
            self.set_pin(g, self.channels[g].level);
        }
    }

    fn set_pin(&mut self, c: usize, high: bool) {
        if high {
            self.pins |= 1 << c;
        } else {
            self.pins &= !(1 << c);
        }
    }

    fn serve_request(&mut self, c: usize) {
        if self.channels[c].request >= INITIALISE && self.makes(Blunder::RequestClearsLate) {
            self.channels[c].late = 0;
        }
        match self.channels[c].request {
            INITIALISE => {
                self.channels[c].request = 0;
                self.initialise(c);
            }
            STEP => {
                self.channels[c].request = 0;
                if !self.is_stepping(c) {
                    self.bind(c);
                    self.test(c, self.reference(c));
                }
            }
            // No history leaves 01 pending; it asks for nothing.
            _ => {}
        }
    }

    fn is_stepping(&self, c: usize) -> bool {
        matches!(
            self.channels[c].phase,
            Phase::Armed(_) | Phase::Matched { .. }
        )
    }

    fn initialise(&mut self, c: usize) {
        self.set_pin(c, self.words[c][CHANNEL_CONTROL] & 3 == 1);
        self.channels[c].slow = timing(self.words[c][CHANNEL_CONTROL]) == BY_TCR2;
        self.words[c][CHANNEL_CONTROL] = self.words[c][PIN_CONTROL];
        self.channels[c].initialised = true;
        self.cisr |= 1 << c;
    }
}

// Whom a slot goes to.
impl Plain {
    /// Enabled, with something to be served.
    fn is_ready(&self, c: usize) -> bool {
        let channel = &self.channels[c];
        let requested = matches!(channel.request, INITIALISE | STEP);
        let matched = matches!(channel.phase, Phase::Matched { .. });
        channel.priority != 0 && (requested || matched)
    }

    /// The channel that this tick serves. It is from now on the last of its
    /// level.
    fn choose(&mut self) -> Option<usize> {
        // The first slot of a round is number 1, the last is number 0.
        let own = ROUND[usize::from(self.slots.slot + 6) % 7];
        let mut order = [own, 3, 2, 1];
        if self.makes(Blunder::HandsToLowest) {
            order = [own, 1, 2, 3];
        } else if self.makes(Blunder::StarvesLow) {
            order = [3, 2, 1, own];
        }
        let (level, c) = order
            .into_iter()
            .find_map(|level| Some((level, self.next_of(level)?)))?;
        let moved = if self.makes(Blunder::MovesLastOfSlot) {
            own
        } else {
            level
        };
        self.slots.starts[usize::from(3 - moved)] = (c as u16 + 1) % 16;
        Some(c)
    }

    /// The next ready channel of a level, round from 15 to 0.
    fn next_of(&self, level: u16) -> Option<usize> {
        let start = if self.makes(Blunder::SearchesFromZero) {
            0
        } else {
            usize::from(self.slots.starts[usize::from(3 - level)])
        };
        (start..start + 16)
            .map(|c| c % 16)
            .find(|&c| self.channels[c].priority == level && self.is_ready(c))
    }
}

// Stepping.
impl Plain {
    fn test(&mut self, c: usize, reference: u16) {
        let position = self.words[c][POSITION];
        let target = self.words[c][TARGET];
        if target == position {
            self.arrive(c);
        } else {
            self.turn(c, target > position, reference);
        }
    }

    fn arrive(&mut self, c: usize) {
        self.channels[c].phase = Phase::Resting;
        if self.makes(Blunder::ArrivalClearsLate) {
            self.channels[c].late = 0;
        }
        if self.makes(Blunder::KeepsTarget) {
            let kept = self.channels[c].kept.take();
            self.words[c][TARGET] = kept.unwrap_or(self.words[c][TARGET]);
        }
        for g in c..=self.last(c) {
            self.channels[g].bound = false;
        }
        self.cisr |= 1 << c;
    }

    /// Goes on in this direction, or back to the test if slow and not ahead.
    fn turn(&mut self, c: usize, right: bool, reference: u16) {
        let to_the_right = i32::from(self.words[c][TARGET]) - i32::from(self.words[c][POSITION]);
        // A distance: 0 where the target lies behind.
        let ahead = if right { to_the_right } else { -to_the_right }.max(0);
        if self.makes(Blunder::CountsVisits) {
            self.count(c, right);
        }
        let n = self.rate_count(c);
        let rate = self.next_rate(c);
        let at_n = ahead == i32::from(n) && self.makes(Blunder::AcceleratesAtN);
        if self.makes(Blunder::TurnsWhileFast) && ahead == 0 && to_the_right != 0 {
            self.turn(c, !right, reference);
        } else if ahead > i32::from(n) || at_n {
            let faster = if rate < n { rate + 1 } else { rate };
            self.step(c, right, faster, reference);
        } else if rate > 1 {
            self.step(c, right, rate - 1, reference);
        } else if ahead > 0 {
            self.step(c, right, rate, reference);
        } else {
            self.test(c, reference);
        }
    }

    fn step(&mut self, c: usize, right: bool, new_rate: u16, reference: u16) {
        let period = self.period(c, self.next_rate(c)).max(0);
        let time = reference.wrapping_add(period as u16);
        let by = if right { 1 } else { 0xFFFF };
        self.words[c][POSITION] = self.words[c][POSITION].wrapping_add(by);
        if !self.makes(Blunder::CountsVisits) {
            self.count(c, right);
        }
        self.words[c][MOD_AND_RATE] = self.words[c][MOD_AND_RATE] & !15 | new_rate;
        self.channels[c].left = !right;
        for g in c..=self.last(c) {
            self.rotate(g, right, self.mod_count(c) == 0);
        }
        self.channels[c].phase = Phase::Armed(time);
        if self.makes(Blunder::ComparesPlainly) {
            self.channels[c].kept = Some(reference);
        }
        if self.is_due(c, time) {
            self.act(c, time);
        }
    }

    /// MOD_CNT one up or down, modulo 16.
    fn count(&mut self, c: usize, right: bool) {
        let by = if right { 1 } else { 15 };
        let count = (self.mod_count(c) + by) & 15;
        let word = &mut self.words[c][MOD_AND_RATE];
        *word = *word & 0xF0FF | count << 8;
    }

    /// One place on in the pattern of a channel, afresh from PIN_CONTROL
    /// after a whole turn of it.
    fn rotate(&mut self, g: usize, right: bool, whole: bool) {
        let control = self.words[g][CHANNEL_CONTROL];
        let rotated = if right {
            control.rotate_right(1)
        } else {
            control.rotate_left(1)
        };
        self.channels[g].level = rotated & 0x8000 != 0;
        self.words[g][CHANNEL_CONTROL] = if whole {
            self.words[g][PIN_CONTROL]
        } else {
            rotated
        };
    }
}

// Other units than the one after reset.
impl Plain {
    pub fn with(blunder: Blunder) -> Plain {
        Plain {
            blunder: Some(blunder),
            ..Plain::default()
        }
    }

    fn makes(&self, blunder: Blunder) -> bool {
        self.blunder == Some(blunder)
    }

    /// The unit in this state, which need not have a history. Who lies in the
    /// group of a primary on its way is bound, and so is that primary.
    pub fn from_snapshot(state: &Snapshot) -> Plain {
        let r = &state.registers;
        let mut plain = Plain {
            tcr1: state.tcr1,
            tcr2: state.tcr2,
            ticks_of_count: state.tcr1 % TICKS_A_COUNT,
            pins: state.pins,
            cier: r[0],
            cisr: r[11],
            hsqr: [r[5], r[6]],
            slots: state.slots,
            ..Plain::default()
        };
        for c in 0..16 {
            plain.words[c].copy_from_slice(&state.words[8 * c..8 * c + 8]);
            let view = state.channels[c];
            plain.channels[c] = Channel {
                function: (r[4 - c / 4] >> (4 * (c % 4))) & 15,
                request: (r[8 - c / 8] >> (2 * (c % 8))) & 3,
                priority: (r[10 - c / 8] >> (2 * (c % 8))) & 3,
                initialised: view.initialised,
                slow: view.slow,
                by_tcr2: view.by_tcr2,
                level: view.level,
                left: view.left,
                phase: view.phase,
                late: state.late[c],
                ..Channel::default()
            };
        }
        for p in (0..16).filter(|&p| state.channels[p].phase != Phase::Resting) {
            for c in p..=plain.last(p).max(p) {
                plain.channels[c].bound = true;
            }
        }
        plain
    }
}

// What a comparison or a report looks at.
impl Plain {
    pub fn tcr1(&self) -> u16 {
        self.tcr1
    }

    pub fn tcr2(&self) -> u16 {
        self.tcr2
    }

    pub fn pins(&self) -> u16 {
        self.pins
    }

    pub fn request(&self, c: usize) -> u16 {
        self.channels[c].request
    }

    pub fn priority(&self, c: usize) -> u16 {
        self.channels[c].priority
    }

    pub fn word(&self, c: usize, w: usize) -> u16 {
        self.words[c][w]
    }

    pub fn phase(&self, c: usize) -> Phase {
        self.channels[c].phase
    }

    pub fn is_bound(&self, c: usize) -> bool {
        self.channels[c].bound
    }

    /// The word at $E40 + 2 × c.
    pub fn late(&self, c: usize) -> u16 {
        let next = usize::from(self.makes(Blunder::ShowsNextLate));
        self.channels[(c + next) % 16].late
    }

    pub fn view(&self, c: usize) -> ChannelView {
        let channel = &self.channels[c];
        ChannelView {
            initialised: channel.initialised,
            slow: channel.slow,
            by_tcr2: channel.by_tcr2,
            level: channel.level,
            left: channel.left,
            phase: channel.phase,
        }
    }
}

impl Unit for Plain {
    fn reset(&mut self) {
        *self = Plain {
            blunder: self.blunder,
            ..Plain::default()
        };
    }

    fn read(&self, address: u16) -> Result<u16, u8> {
        Plain::read(self, address)
    }

    fn write(&mut self, address: u16, value: u16) -> Result<(), u8> {
        Plain::write(self, address, value)
    }

    fn advance(&mut self, n: u32, pins: &mut [u16]) -> Result<(), u8> {
        Plain::advance(self, n, pins)
    }

    fn interrupt_line(&self) -> bool {
        Plain::interrupt_line(self)
    }

    fn snapshot(&self) -> Snapshot {
        let mut registers = [0; 12];
        for (i, register) in registers.iter_mut().enumerate() {
            *register = Plain::read(self, CIER + 2 * i as u16).unwrap_or(0);
        }
        let mut words = [0; 128];
        let mut channels = [ChannelView::default(); 16];
        let mut late = [0; 16];
        for c in 0..16 {
            words[8 * c..8 * c + 8].copy_from_slice(&self.words[c]);
            channels[c] = self.view(c);
            late[c] = self.late(c);
        }
        Snapshot {
            registers,
            late,
            words,
            tcr1: self.tcr1,
            tcr2: self.tcr2,
            pins: self.pins,
            channels,
            slots: self.slots,
        }
    }
}
