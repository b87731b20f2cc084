//! Calls, what they answer, and random lists of them that set motors up, use
//! them and get in their way.

use crate::plain::*;
use crate::random::Random;
use crate::unit::{Phase, Snapshot, Unit};
use std::collections::VecDeque;

/// One call. An advance has its ticks and the length of the lent list.
#[derive(Clone, Copy, Debug, PartialEq, Eq)]
pub enum Call {
    Read(u16),
    Write(u16, u16),
    Advance(u32, usize),
}

impl Call {
    /// The ticks that a unit makes if this is an advance that it takes.
    pub fn ticks(self) -> Option<u32> {
        match self {
            Call::Advance(n, length) if n <= MAX_TICKS && n as usize <= length => Some(n),
            _ => None,
        }
    }
}

#[derive(Clone, Copy, Debug, PartialEq, Eq)]
pub enum Answer {
    Word(u16),
    Done,
    Refused(u8),
}

/// What a lent list holds before the call.
pub const MARK: u16 = 0x5AA5;
const GUARD: usize = 16;

/// The list that an advance is lent, with guard words on both sides.
#[derive(Default)]
pub struct Lent {
    words: Vec<u16>,
}

impl Lent {
    /// So many marks.
    fn lend(&mut self, length: usize) -> &mut [u16] {
        self.words.clear();
        self.words.resize(GUARD + length + GUARD, MARK);
        &mut self.words[GUARD..GUARD + length]
    }

    /// What the latest call was lent; nothing, if it was no advance.
    pub fn list(&self) -> &[u16] {
        match self.words.len() {
            0 => &[],
            length => &self.words[GUARD..length - GUARD],
        }
    }

    /// No guard word has been touched.
    pub fn is_intact(&self) -> bool {
        let list = self.list().len();
        let before = self.words.iter().take(GUARD);
        let after = self.words.iter().skip(GUARD + list);
        before.chain(after).all(|&word| word == MARK)
    }
}

/// Makes one call and leaves in the list what the unit left there.
pub fn perform(unit: &mut dyn Unit, call: Call, lent: &mut Lent) -> Answer {
    lent.words.clear();
    let done = match call {
        Call::Read(address) => match unit.read(address) {
            Ok(word) => return Answer::Word(word),
            Err(number) => Err(number),
        },
        Call::Write(address, value) => unit.write(address, value),
        Call::Advance(n, length) => unit.advance(n, lent.lend(length)),
    };
    match done {
        Ok(()) => Answer::Done,
        Err(number) => Answer::Refused(number),
    }
}

/// A list of so many calls for a unit in the reset state.
pub fn call_list(seed: u64, length: usize) -> Vec<Call> {
    let mut maker = Maker::new(seed);
    (0..length).map(|_| maker.next_call()).collect()
}

/// The last four are right control words for themselves.
const PATTERNS: [u16; 18] = [
    0xCCCC, 0x3333, 0x9999, 0x6666, 0xE0E0, 0x0E0E, 0x8383, 0x3838, 0xF00F, 0xAAAA, 0x8000, 0x0001,
    0xFFFF, 0x0000, 0x8081, 0x0082, 0x80E1, 0x00E2,
];
/// By TCR1, high and low.
const BY_ITSELF: [u16; 2] = [0x8081, 0x0082];

const OFF: u16 = 0;
const INITIALISE: u16 = 2;
const STEP: u16 = 3;

fn word_address(c: usize, w: usize) -> u16 {
    PARAMETERS + 16 * c as u16 + 2 * w as u16
}

fn function_address(c: usize) -> u16 {
    CFSR0 + 2 * (3 - c as u16 / 4)
}

fn late_address(c: usize) -> u16 {
    LATE + 2 * c as u16
}

/// The word of a channel in HSRR or CPR.
fn half_address(first: u16, c: usize) -> u16 {
    first + 2 * (1 - c as u16 / 8)
}

/// A two-bit field at its place in HSRR or CPR.
fn in_half(c: usize, field: u16) -> u16 {
    field << (2 * (c % 8))
}

#[derive(Clone, Copy)]
struct Motor {
    first: usize,
    last: usize,
}

/// Thinks up calls one small plan at a time. It keeps a plain unit of its own
/// in step, so that the plans fit what the motors are doing.
pub struct Maker {
    random: Random,
    unit: Plain,
    motors: Vec<Motor>,
    /// Channels that are initialised again as soon as they were served.
    busy: Vec<usize>,
    /// There are such channels in the whole list.
    crowded: bool,
    planned: VecDeque<Call>,
    lent: Lent,
}

impl Maker {
    pub fn new(seed: u64) -> Maker {
        let mut random = Random::new(seed);
        let motors = layout(&mut random);
        Maker::over(motors, random)
    }

    /// Other plans for the motors of the list of a seed, on a crowded board.
    pub fn beside(seed: u64, other: u64) -> Maker {
        let mut maker = Maker::over(layout(&mut Random::new(seed)), Random::new(other));
        maker.crowded = true;
        maker
    }

    /// Goes on from another state than its calls have led to.
    pub fn look_at(&mut self, state: &Snapshot) {
        self.unit = Plain::from_snapshot(state);
    }

    fn over(motors: Vec<Motor>, random: Random) -> Maker {
        let mut maker = Maker {
            random,
            unit: Plain::default(),
            motors,
            busy: Vec::new(),
            crowded: false,
            planned: VecDeque::new(),
            lent: Lent::default(),
        };
        maker.crowded = maker.random.one_in(4);
        if maker.random.one_in(8) {
            maker.reads();
        }
        maker.new_levels();
        maker
    }

    pub fn next_call(&mut self) -> Call {
        loop {
            if let Some(call) = self.planned.pop_front() {
                perform(&mut self.unit, call, &mut self.lent);
                return call;
            }
            self.plan();
        }
    }

    fn plan(&mut self) {
        let motor = self.random.pick(&self.motors);
        let others = if self.crowded { 10 } else { 3 };
        if !self.busy.is_empty() && !self.random.one_in(others) {
            return self.keep_busy();
        }
        if self.busy.is_empty() && self.crowded {
            return self.crowd();
        }
        match self.random.below(1000) {
            0..=299 => self.pass_time(),
            300..=469 => self.start(motor),
            470..=549 => self.retarget(motor),
            550..=599 => self.chase(motor),
            600..=639 => self.request(motor.first, STEP),
            640..=654 => self.prepare(motor),
            655..=684 => self.change(motor),
            685..=696 => self.pass_time(),
            697..=704 => self.crowd_match(),
            705..=709 => self.leave_out_first(motor),
            710..=719 => self.numbers(motor),
            720..=759 => self.priorities(),
            760..=787 => self.short_pause(motor),
            788..=792 => self.long_pause(motor),
            793..=849 => self.spoil(motor),
            850..=874 => self.many_requests(),
            875..=914 => self.reads(),
            915..=929 => self.status(),
            930..=944 => self.functions(),
            945..=954 => self.strange_address(),
            955..=962 => self.crowd(),
            963..=984 => self.stray_word(),
            _ => self.odd_advance(),
        }
    }
}

/// The first and last channels of the motors in the list of a seed.
pub fn motors(seed: u64) -> Vec<(usize, usize)> {
    let motors = layout(&mut Random::new(seed));
    motors.iter().map(|m| (m.first, m.last)).collect()
}

/// Two or more motors of two to eight channels, with or without gaps.
fn layout(random: &mut Random) -> Vec<Motor> {
    let mut motors = Vec::new();
    let mut first = random.below(3) as usize;
    while first < 15 {
        let size = random.pick(&[2, 2, 2, 3, 3, 4, 4, 4, 5, 6, 7, 8]);
        let last = (first + size - 1).min(15);
        motors.push(Motor { first, last });
        first = last + 1 + random.pick(&[0, 0, 0, 1, 2]);
    }
    motors
}

// Single calls to be made.
impl Maker {
    fn read(&mut self, address: u16) {
        self.planned.push_back(Call::Read(address));
    }

    fn write(&mut self, address: u16, value: u16) {
        self.planned.push_back(Call::Write(address, value));
    }

    fn set(&mut self, c: usize, w: usize, value: u16) {
        self.write(word_address(c, w), value);
    }

    fn request(&mut self, c: usize, what: u16) {
        self.write(half_address(HSRR0, c), in_half(c, what));
        if self.random.one_in(15) {
            // 00 and 01 leave what is pending.
            let word = self.random.pick(&[0x0000, 0x5555, in_half(c, 1)]);
            self.write(half_address(HSRR0, c), word);
        }
    }

    fn advance(&mut self, n: u32) {
        let spare = if self.random.one_in(10) {
            self.random.below(5)
        } else {
            0
        };
        self.planned
            .push_back(Call::Advance(n, (n + spare) as usize));
    }

    fn advance_far(&mut self, mut ticks: u32) {
        while ticks > 0 {
            let n = ticks.min(4096);
            self.advance(n);
            ticks -= n;
            if self.random.one_in(12) {
                self.reads();
            }
        }
    }

    /// One priority changed, the others of the word as they are now.
    fn set_priority(&mut self, c: usize, priority: u16) {
        let address = half_address(CPR0, c);
        let now = self.now(address);
        self.write(address, now & !in_half(c, 3) | in_half(c, priority));
    }

    /// One function changed, the others of the word as they are now.
    fn set_function(&mut self, c: usize, function: u16) {
        let address = function_address(c);
        let now = self.now(address);
        let shift = 4 * (c % 4);
        self.write(address, now & !(15 << shift) | function << shift);
    }

    fn now(&self, address: u16) -> u16 {
        self.unit.read(address).unwrap_or(0)
    }
}

// What the motors are doing now.
impl Maker {
    fn is_moving(&self, motor: Motor) -> bool {
        self.unit.phase(motor.first) != Phase::Resting
    }

    fn would_start(&self, motor: Motor) -> bool {
        let address = half_address(HSRR0, motor.first);
        self.unit
            .clone()
            .write(address, in_half(motor.first, STEP))
            .is_ok()
    }

    fn rate_count(&self, motor: Motor) -> u16 {
        (self.unit.word(motor.first, COUNT_AND_LAST) >> 8) & 15
    }
}

// Setting up.
impl Maker {
    /// One motor in four goes by TCR2.
    fn prepare(&mut self, motor: Motor) {
        let slow = self.random.one_in(4);
        self.prepare_by(motor, slow);
    }

    /// By TCR2 or by TCR1; seldom a channel by the other.
    fn prepare_by(&mut self, motor: Motor, slow: bool) {
        for address in [CFSR0, CFSR0 + 2, CFSR0 + 4, CFSR0 + 6] {
            let now = self.now(address);
            let low = 4 * (3 - (address - CFSR0) / 2) as usize;
            let concerned = motor.first <= low + 3 && low <= motor.last;
            if concerned && now != 0xDDDD {
                self.write(address, 0xDDDD);
            }
        }
        for g in motor.first..=motor.last {
            let odd = self.random.one_in(40);
            self.set_pattern(g, slow != odd);
        }
        self.initialise(motor);
        let place = self.place();
        self.set(motor.first, POSITION, place);
        self.set(motor.first, MOD_AND_RATE, 1);
        self.new_ramp(motor);
        let target = self.target_near(place, 3);
        self.set(motor.first, TARGET, target);
    }

    /// A pattern and a right control word for it, with its free bits random.
    /// Some patterns have the bits of the other timer.
    fn set_pattern(&mut self, c: usize, slow: bool) {
        let of_other = if slow { BY_ITSELF } else { [0x80E1, 0x00E2] };
        let pattern = match self.random.below(5) {
            0 => self.random.word(),
            1 => self.random.pick(&of_other),
            _ => self.random.pick(&PATTERNS),
        };
        let forced = if pattern & 0x8000 != 0 { 1 } else { 2 };
        let free = if self.random.one_in(3) {
            self.random.word() & 0xFE1C
        } else {
            0
        };
        self.set(c, PIN_CONTROL, pattern);
        let timer = if slow { 0x00E0 } else { 0x0080 };
        self.set(c, CHANNEL_CONTROL, timer | forced | free);
    }

    /// The timer that a channel has, now and then the other.
    fn timer_for(&mut self, c: usize) -> bool {
        self.unit.view(c).slow != self.random.one_in(4)
    }

    /// Requests for all channels, one by one or in whole words.
    fn initialise(&mut self, motor: Motor) {
        if self.random.one_in(3) {
            for g in motor.first..=motor.last {
                self.request(g, INITIALISE);
            }
        } else {
            for low in [0, 8] {
                let mut word = 0;
                for g in motor.first.max(low)..=motor.last.min(low + 7) {
                    word |= in_half(g, INITIALISE);
                }
                if word != 0 {
                    self.write(half_address(HSRR0, low), word);
                }
            }
        }
        for address in [CPR0, CPR0 + 2] {
            let now = self.now(address);
            if (0..8).any(|c| now >> (2 * c) & 3 == OFF) {
                self.write(address, now | 0x5555);
            }
        }
        self.let_serve(motor);
    }

    /// As many ticks as the motor has channels, or more; seldom fewer.
    fn let_serve(&mut self, motor: Motor) {
        let channels = (motor.last - motor.first + 1) as u32;
        let others = self.busy.len() as u32;
        let n = match self.random.below(8) {
            0 => self.random.between(1, channels),
            1 => channels + self.random.below(20),
            2 if others > 0 => 7 * (channels + others),
            _ => channels + others,
        };
        self.advance(n);
    }

    /// N, the last channel and a ramp: mostly quick, seldom very slow, often
    /// about as quick as may be.
    fn new_ramp(&mut self, motor: Motor) {
        let n = self.random.between(1, 14);
        let (per_rate, shortest) = match self.random.below(16) {
            0..=2 => (0, self.random.between(128, 131)),
            3..=8 => (self.random.below(5), self.random.between(128, 140)),
            9..=10 => (self.random.below(5), self.random.between(100, 130)),
            11..=13 => (self.random.below(41), self.random.between(128, 250)),
            14 => (self.random.below(200), self.random.between(1, 1500)),
            _ => {
                let per_rate = self.random.below(2300);
                (
                    per_rate,
                    self.random.between(128, 0x7FFF - per_rate * (n - 1)),
                )
            }
        };
        self.set(
            motor.first,
            COUNT_AND_LAST,
            (n << 8) as u16 | motor.last as u16,
        );
        self.set(motor.first + 1, STEP_CNTL0, per_rate as u16);
        self.set(
            motor.first + 1,
            STEP_CNTL1,
            (per_rate * (1 + n) + shortest) as u16,
        );
    }

    /// Another ramp or place, seldom tried on a motor on its way.
    fn change(&mut self, motor: Motor) {
        if self.is_moving(motor) && !self.random.one_in(5) {
            self.pass_time();
        } else if self.random.one_in(2) {
            self.new_ramp(motor);
        } else {
            let place = self.place();
            self.set(motor.first, POSITION, place);
        }
    }

    fn place(&mut self) -> u16 {
        match self.random.below(8) {
            0..=2 => self.random.below(40) as u16,
            3..=5 => 0xFFFF - self.random.below(40) as u16,
            6 => 0x7FE0 + self.random.below(64) as u16,
            _ => self.random.word(),
        }
    }

    /// A target about as far off as a motor needs to stop, or an end.
    fn target_near(&mut self, place: u16, n: u16) -> u16 {
        let far = match self.random.below(12) {
            0 => 0,
            1 => n.saturating_sub(1),
            2 => n,
            3 => n + 1,
            4 => 2 * n,
            5 if place < 100 => return 0,
            6 if place > 0xFFFF - 100 => return 0xFFFF - n,
            _ => self.random.below(30) as u16,
        };
        if self.random.one_in(2) {
            place.saturating_add(far).min(0xFFFF - n)
        } else {
            place.saturating_sub(far)
        }
    }
}

// Using motors.
impl Maker {
    fn pass_time(&mut self) {
        let to_wrap = 0x1_0000 - u32::from(self.unit.tcr1());
        if (10..4096).contains(&to_wrap) && self.random.one_in(2) {
            return self.go_over(to_wrap);
        }
        if self.random.one_in(900) {
            return self.go_over_slowly();
        }
        let n = match self.random.below(100) {
            0..=34 => self.random.between(1, 8),
            35..=69 => self.random.between(1, 200),
            70..=94 => self.random.between(200, 1200),
            95 => self.random.between(1200, 4096),
            _ => return self.advance_far(4096),
        };
        self.advance(n);
    }

    /// Past the wrap of TCR1 in small steps, with a motor on its way.
    fn go_over(&mut self, to_wrap: u32) {
        let motor = self.random.pick(&self.motors);
        self.advance(to_wrap - 9);
        let next = self.unit.word(motor.first, POSITION) / 2 + 0x2000;
        self.set(motor.first, TARGET, next);
        self.request(motor.first, STEP);
        for _ in 0..3 {
            let n = self.random.between(1, 6);
            self.advance(n);
        }
        self.retarget(motor);
    }

    /// Past the wrap of TCR2, with a motor that goes by it.
    fn go_over_slowly(&mut self) {
        let motor = self.random.pick(&self.motors);
        let to_wrap = 0x1_0000 - u32::from(self.unit.tcr2());
        let before = self.random.between(1, 200);
        let ticks = u32::from(TICKS_A_COUNT) * to_wrap;
        self.advance_far(ticks.saturating_sub(before));
        self.prepare_by(motor, true);
        self.request(motor.first, STEP);
        for _ in 0..4 {
            let n = self.random.between(1, 100);
            self.advance(n);
        }
    }

    fn start(&mut self, motor: Motor) {
        if self.is_moving(motor) {
            return self.pass_time();
        }
        if !self.would_start(motor) {
            self.prepare(motor);
        } else {
            self.retarget(motor);
        }
        self.request(motor.first, STEP);
        let n = self.random.between(1, 30);
        self.advance(n);
    }

    fn retarget(&mut self, motor: Motor) {
        let place = self.unit.word(motor.first, POSITION);
        let n = self.rate_count(motor);
        let target = match self.random.below(25) {
            0 => 0xFFFF - n.saturating_sub(1),
            1 => self.random.word(),
            _ => self.target_near(place, n),
        };
        self.set(motor.first, TARGET, target);
    }

    /// New targets in quick succession, at any tick of the steps.
    fn chase(&mut self, motor: Motor) {
        if !self.is_moving(motor) {
            return self.start(motor);
        }
        for _ in 0..self.random.between(3, 12) {
            self.retarget(motor);
            if self.random.one_in(6) {
                self.request(motor.first, STEP);
            }
            let n = self
                .random
                .pick(&[1, 2, 5, 13, 40, 100, 128, 129, 200, 400]);
            self.advance(n);
        }
    }

    /// Several requests in one word: motors, single channels, 01 fields.
    fn many_requests(&mut self) {
        let low = self.random.pick(&[0, 8]);
        let mut word = 0;
        if self.random.one_in(3) {
            let mask = self.random.word() | self.random.word();
            word = self.random.word() & mask;
        } else {
            for motor in self.motors.clone() {
                let here = motor.first / 8 == low / 8;
                if here && (self.would_start(motor) || self.random.one_in(6)) {
                    word |= in_half(motor.first, STEP);
                }
            }
        }
        if self.random.one_in(4) {
            let c = low + self.random.below(8) as usize;
            let slow = self.timer_for(c);
            self.set_pattern(c, slow);
            word |= in_half(c, INITIALISE);
        }
        self.write(half_address(HSRR0, low), word);
    }

    fn priorities(&mut self) {
        let c = self.random.below(16) as usize;
        match self.random.below(6) {
            0 => self.set_priority(c, OFF),
            1 => {
                let priority = self.random.below(4) as u16;
                self.set_priority(c, priority);
            }
            2 => {
                let word = self.random.word() | self.random.word();
                self.write(half_address(CPR0, c), word);
            }
            _ => {
                let word = self.levels();
                self.write(half_address(CPR0, c), word);
            }
        }
    }

    /// Priorities of eight channels, none of them off: one level, or any.
    fn levels(&mut self) -> u16 {
        if self.random.one_in(3) {
            return self.random.pick(&[0xFFFF, 0x5555, 0xAAAA]);
        }
        (0..8).fold(0, |word, c| {
            word | in_half(c, self.random.between(1, 3) as u16)
        })
    }

    fn new_levels(&mut self) {
        for address in [CPR0, CPR0 + 2] {
            let levels = self.levels();
            self.write(address, levels);
        }
    }

    /// All channels but those of some motors are to be served over and over.
    fn crowd(&mut self) {
        let motors = self.motors.clone();
        let spared: Vec<Motor> = motors
            .into_iter()
            .filter(|_| self.random.one_in(2))
            .collect();
        let is_spared = |c: usize| spared.iter().any(|m| (m.first..=m.last).contains(&c));
        self.busy = (0..16).filter(|&c| !is_spared(c)).collect();
        self.new_levels();
        for motor in spared {
            if self.would_start(motor) {
                self.retarget(motor);
                self.request(motor.first, STEP);
            }
        }
    }

    /// What makes an initialise right leaves the next one right.
    fn set_by_itself(&mut self, c: usize) {
        let pattern = self.random.pick(&BY_ITSELF);
        self.set(c, PIN_CONTROL, pattern);
        self.set(c, CHANNEL_CONTROL, pattern);
        self.set_function(c, STEPPER);
    }

    /// An initialise for each of them that can have one, and some ticks.
    fn keep_busy(&mut self) {
        let mut words = [0; 2];
        for c in self.busy.clone() {
            let request = in_half(c, INITIALISE);
            let address = half_address(HSRR0, c);
            if self.unit.clone().write(address, request).is_ok() {
                words[c / 8] |= request;
            } else if !self.unit.is_bound(c) && self.unit.request(c) == 0 {
                self.set_by_itself(c);
            }
        }
        self.write(HSRR0 + 2, words[0]);
        self.write(HSRR0, words[1]);
        let n = match self.random.below(3) {
            0 => self.random.between(1, 16),
            _ => self.random.between(1, 2),
        };
        self.advance(n);
        if self.random.one_in(60) {
            self.busy.clear();
        }
    }

    /// Many initialises right before a match, which then has to wait: if there
    /// is one, before that of a motor by TCR2.
    fn crowd_match(&mut self) {
        let near = |motor: &Motor| {
            let ticks = self.before_match(*motor, 0)?;
            (1..20_000).contains(&ticks).then_some((*motor, ticks))
        };
        let (slow, quick): (Vec<_>, Vec<_>) = self
            .motors
            .iter()
            .filter_map(near)
            .partition(|(motor, _)| self.unit.view(motor.first).by_tcr2);
        let Some(&(motor, ticks)) = slow.first().or(quick.first()) else {
            return self.pass_time();
        };
        let free = self.fit_for_initialise(self.unit.priority(motor.first));
        self.advance_far(ticks);
        for n in [5, 5, 40] {
            for &c in &free {
                self.write(half_address(HSRR0, c), in_half(c, INITIALISE));
            }
            self.advance(n);
            self.read(late_address(motor.first));
        }
    }

    /// The channels with function 13 that nothing binds, made ready for an
    /// initialise at this level or the high one.
    fn fit_for_initialise(&mut self, level: u16) -> Vec<usize> {
        let mut free = Vec::new();
        let mut levels = [self.now(CPR0 + 2), self.now(CPR0)];
        for c in 0..16 {
            let function = self.now(function_address(c)) >> (4 * (c % 4)) & 15;
            let asked = self.unit.is_bound(c) || self.unit.request(c) != 0;
            if function == STEPPER && !asked {
                let pattern = self.random.pick(&BY_ITSELF);
                self.set(c, PIN_CONTROL, pattern);
                self.set(c, CHANNEL_CONTROL, pattern);
                let level = self.random.pick(&[level, 3]);
                levels[c / 8] = levels[c / 8] & !in_half(c, 3) | in_half(c, level);
                free.push(c);
            }
        }
        self.write(CPR0 + 2, levels[0]);
        self.write(CPR0, levels[1]);
        free
    }

    /// One step of all channels but the first, served late; then a move of all
    /// of them, with the late primary as a secondary.
    fn leave_out_first(&mut self, motor: Motor) {
        let first = motor.first + 1;
        if first == motor.last || self.is_moving(motor) {
            return self.start(motor);
        }
        self.prepare(Motor { first, ..motor });
        let place = self.place() / 2;
        self.set(first, POSITION, place);
        self.set(first, TARGET, place + 1);
        self.request(first, STEP);
        self.advance(4);
        self.set_priority(first, OFF);
        let n = self.random.between(130, 2000);
        self.advance(n);
        self.set_priority(first, 1);
        self.advance(20);
        self.read(late_address(first));
        self.prepare(motor);
        self.request(motor.first, STEP);
    }

    /// A primary switched off for some steps' time, then on again.
    fn short_pause(&mut self, motor: Motor) {
        if !self.is_moving(motor) {
            self.start(motor);
        }
        self.set_priority(motor.first, OFF);
        let n = self.random.pick(&[1, 5, 30, 100, 200, 300, 500]);
        self.advance(n);
        if self.random.one_in(3) {
            self.retarget(motor);
            self.request(motor.first, STEP);
        }
        let back = self.now(half_address(CPR0, motor.first)) | in_half(motor.first, 1);
        self.write(half_address(CPR0, motor.first), back);
        let n = self.random.between(1, 20);
        self.advance(n);
        self.read(late_address(motor.first));
    }

    /// Off for so long that the clock has gone half round or more.
    fn long_pause(&mut self, motor: Motor) {
        if !self.is_moving(motor) {
            self.start(motor);
        }
        self.set_priority(motor.first, OFF);
        let ticks = match (self.half_round(motor), self.random.below(4)) {
            (Some(ticks), 0..=2) => ticks + self.random.below(3) - 1,
            (None, 0..=1) => 0x8000 + self.random.below(64),
            _ => self.random.between(0x7F00, 0x1_1000),
        };
        self.advance_far(ticks);
        let back = self.now(half_address(CPR0, motor.first)) | in_half(motor.first, 2);
        self.write(half_address(CPR0, motor.first), back);
        for n in [1, 1, 3, 30] {
            self.advance(n);
        }
        self.read(late_address(motor.first));
        if self.random.one_in(2) {
            self.advance_far(0x8000);
        }
    }

    /// If a match is set: ticks until just before the one in which its service
    /// would set the next match exactly half a round in the past.
    fn half_round(&self, motor: Motor) -> Option<u32> {
        let rate = self.unit.word(motor.first, MOD_AND_RATE) & 15;
        let per_rate = self.unit.word(motor.first + 1, STEP_CNTL0);
        let period = self
            .unit
            .word(motor.first + 1, STEP_CNTL1)
            .wrapping_sub(per_rate.wrapping_mul(1 + rate));
        self.before_match(motor, u32::from(period) + 0x8000)
    }

    /// If a match is set: ticks until just before the one that is so many
    /// counts after it.
    fn before_match(&self, motor: Motor, counts: u32) -> Option<u32> {
        let Phase::Armed(time) = self.unit.phase(motor.first) else {
            return None;
        };
        let now = self.unit.tcr1();
        let (by_timer, ticks_a_count) = if self.unit.view(motor.first).by_tcr2 {
            (self.unit.tcr2(), TICKS_A_COUNT)
        } else {
            (now, 1)
        };
        let counts = u32::from(time.wrapping_sub(by_timer)) + counts;
        Some(u32::from(ticks_a_count) * counts - u32::from(now % ticks_a_count) - 1)
    }
}

// Getting in the way.
impl Maker {
    /// Something made wrong and a request on it, mostly put right afterwards.
    /// It tells most on a motor that rests and would start.
    fn spoil(&mut self, motor: Motor) {
        if self.is_moving(motor) && !self.random.one_in(4) {
            return self.pass_time();
        }
        if !self.is_moving(motor) && !self.would_start(motor) && self.random.one_in(2) {
            return self.prepare(motor);
        }
        let other = self.random.between(motor.first as u32, motor.last as u32) as usize;
        match self.random.below(14) {
            0 => self.wrong_function(motor.first, STEP),
            1 => self.wrong_function(other, INITIALISE),
            2 => self.wrong_control(other),
            3 => self.reach_across(motor),
            4 | 5 => self.wrong_ramp(motor),
            6 => self.meddle(other),
            7 => self.initialise_again(motor, other),
            8 => self.change_timer(motor, other),
            _ => self.wrong_word(motor, other),
        }
    }

    fn wrong_word(&mut self, motor: Motor, other: usize) {
        let Motor { first, last } = motor;
        match self.random.below(5) {
            0 => {
                let n = self
                    .random
                    .pick(&[0x0000, 0x0F00, 0x1100, 0x0110, 0x0000, 0x8E80]);
                self.try_word(first, COUNT_AND_LAST, n | last as u16, first);
            }
            1 => {
                let same = self.unit.word(other, CHANNEL_CONTROL);
                self.try_word(other, CHANNEL_CONTROL, same, first);
            }
            2 => {
                let now = self.unit.word(first, MOD_AND_RATE);
                let flipped = self
                    .random
                    .pick(&[0x0001, 0x0002, 0x0003, 0x1000, 0x8000, 0x0010]);
                let moved = self.random.pick(&[0x0100, 0x0400, 0x0800]);
                let word = if self.random.one_in(3) {
                    now ^ moved
                } else {
                    now ^ flipped
                };
                self.try_word(first, MOD_AND_RATE, word, first);
            }
            3 => {
                let pattern = self.random.pick(&PATTERNS);
                self.try_word(other, PIN_CONTROL, pattern, first);
            }
            _ => {
                let over = 0xFFFF - self.rate_count(motor).saturating_sub(1);
                self.try_word(first, TARGET, over, first);
            }
        }
    }

    /// A word changed, a step request, and the old value back.
    fn try_word(&mut self, c: usize, w: usize, value: u16, primary: usize) {
        let before = self.unit.word(c, w);
        self.set(c, w, value);
        self.request(primary, STEP);
        if !self.random.one_in(4) {
            self.set(c, w, before);
        }
    }

    fn wrong_function(&mut self, c: usize, what: u16) {
        let function = self.random.below(16) as u16;
        self.set_function(c, function);
        self.request(c, what);
        self.write(function_address(c), 0xDDDD);
    }

    fn wrong_control(&mut self, c: usize) {
        let slow = self.timer_for(c);
        self.set_pattern(c, slow);
        let flipped = self
            .random
            .pick(&[0x01, 0x02, 0x03, 0x20, 0x40, 0x80, 0x100, 0x180]);
        if let Some(Call::Write(_, control)) = self.planned.back().copied() {
            self.set(c, CHANNEL_CONTROL, control ^ flipped);
            self.request(c, INITIALISE);
            if !self.random.one_in(4) {
                self.set(c, CHANNEL_CONTROL, control);
                self.request(c, INITIALISE);
                self.advance(1);
            }
        }
    }

    /// Writes to a channel while its initialise is pending.
    fn meddle(&mut self, c: usize) {
        let slow = self.timer_for(c);
        self.set_pattern(c, slow);
        self.request(c, INITIALISE);
        let function = self.random.below(16) as u16;
        let word = self.random.below(8) as usize;
        let value = self.random.word();
        match self.random.below(3) {
            0 => self.set_function(c, function),
            1 => self.set(c, word, value),
            _ => {
                let what = self.random.pick(&[INITIALISE, STEP]);
                self.request(c, what);
            }
        }
        self.advance(1);
    }

    /// A second initialise pending on a channel that was ready.
    fn initialise_again(&mut self, motor: Motor, other: usize) {
        let by_itself = self.random.pick(&[BY_ITSELF, [0x80E1, 0x00E2]]);
        for g in motor.first..=motor.last {
            let pattern = self.random.pick(&by_itself);
            self.set(g, PIN_CONTROL, pattern);
            self.set(g, CHANNEL_CONTROL, pattern);
        }
        self.initialise(motor);
        self.set(motor.first, MOD_AND_RATE, 1);
        self.request(other, INITIALISE);
        self.request(motor.first, STEP);
        self.advance(1);
        self.request(motor.first, STEP);
    }

    /// One channel is initialised for the other timer, then all are.
    fn change_timer(&mut self, motor: Motor, other: usize) {
        let slow = !self.unit.view(other).slow;
        self.set_pattern(other, slow);
        self.request(other, INITIALISE);
        self.advance(1);
        self.request(motor.first, STEP);
        if !self.random.one_in(4) {
            self.prepare_by(motor, slow);
            self.request(motor.first, STEP);
        }
    }

    /// A group that ends among the channels of another motor.
    fn reach_across(&mut self, motor: Motor) {
        let Motor { first, last } = motor;
        let end = match self.random.below(5) {
            0 => first + 8,
            1 => first,
            2 => self.random.below(16) as usize,
            _ => self.random.between(last as u32, first as u32 + 7) as usize,
        };
        let end = end.min(15) as u16;
        let n = self.random.between(1, 14) as u16;
        self.try_word(first, COUNT_AND_LAST, n << 8 | end, first);
    }

    fn wrong_ramp(&mut self, motor: Motor) {
        let n = self.rate_count(motor);
        let per_rate = self.unit.word(motor.first + 1, STEP_CNTL0);
        let from = self.random.pick(&[1 + n, 2]);
        let at = u32::from(per_rate) * u32::from(from);
        let edge = self.random.pick(&[0, 1, 127, 128, 0x7FFF, 0x8000]);
        let word = (at + edge).min(0xFFFF) as u16;
        self.try_word(motor.first + 1, STEP_CNTL1, word, motor.first);
    }

    fn reads(&mut self) {
        for _ in 0..self.random.between(1, 8) {
            let address = match self.random.below(4) {
                0 => CIER + 2 * self.random.below(12) as u16,
                1 => late_address(self.random.below(16) as usize),
                _ => PARAMETERS + 2 * self.random.below(128) as u16,
            };
            self.read(address);
        }
    }

    /// How late a motor was, and after some ticks again; seldom a write there.
    fn numbers(&mut self, motor: Motor) {
        let address = late_address(motor.first);
        let value = self.random.word();
        self.read(address);
        if self.random.one_in(3) {
            self.write(address, value);
        }
        self.pass_time();
        self.read(address);
    }

    fn status(&mut self) {
        let word = self.random.word();
        match self.random.below(5) {
            0 => self.write(CIER, word),
            1 => self.write(CISR, word),
            2 => self.write(CISR, 0),
            3 => {
                let bit = 1 << self.random.below(16);
                self.write(CISR, !bit);
            }
            _ => self.write(HSQR0 + 2 * (word & 1), word),
        }
    }

    fn functions(&mut self) {
        let c = self.random.below(16) as usize;
        match self.random.below(4) {
            0 => {
                let function = self.random.below(16) as u16;
                self.set_function(c, function);
            }
            1 => {
                let same = self.now(function_address(c));
                self.write(function_address(c), same);
            }
            2 => {
                let word = self.random.word();
                self.write(function_address(c), word);
            }
            _ => self.write(function_address(c), 0xDDDD),
        }
    }

    fn strange_address(&mut self) {
        let address = match self.random.below(6) {
            0 => CIER + 2 * self.random.below(12) as u16 + 1,
            1 => PARAMETERS + 2 * self.random.below(128) as u16 + 1,
            // The numbers, odd addresses between them, and what lies beside.
            2 | 3 => LATE - 2 + self.random.below(36) as u16,
            4 => self.random.pick(&[
                0xE00, 0xE08, 0xE22, 0xEFE, 0x1000, 0x0000, 0xFFFE, 0x1E0A, 0x1E40,
            ]),
            _ => self.random.word(),
        };
        let value = self.random.word();
        if self.random.one_in(2) {
            self.read(address);
        } else {
            self.write(address, value);
        }
    }

    /// Any parameter, bound or not, missing or not.
    fn stray_word(&mut self) {
        let c = self.random.below(16) as usize;
        let w = self.random.below(8) as usize;
        let value = match self.random.below(3) {
            0 => self.random.word(),
            1 => self.unit.word(c, w),
            _ => self.random.pick(&PATTERNS),
        };
        self.set(c, w, value);
    }

    fn odd_advance(&mut self) {
        let (n, length) = match self.random.below(8) {
            0 => (4097, 4097),
            1 => (u32::MAX, 4096),
            2 => (self.random.between(4097, 70_000), 4100),
            3 => (1, 0),
            4 => {
                let n = self.random.between(1, 4096);
                (n, n as usize - 1)
            }
            5 => (0x1_0001, 4096),
            6 => (0, 0),
            _ => (0, 3),
        };
        self.planned.push_back(Call::Advance(n, length));
    }
}
