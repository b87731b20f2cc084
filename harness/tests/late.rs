//! Request #108: the numbers of boards on which they can be told beforehand, the
//! greatest that there are at one level, and that the watch finds wrong ones.

use harness::archive::Archive;
use harness::calls::{call_list, perform, Answer, Call, Lent};
use harness::compare::{first_difference, Depth};
use harness::plain::*;
use harness::unit::Phase;
use harness::watch::{Counts, Watch};

/// By TCR1 and by TCR2 a pattern that is the control word of an initialise.
const BY_ITSELF: [u16; 2] = [0x8081, 0x80E1];
const STEP: u16 = 3;

fn word_address(c: usize, w: usize) -> u16 {
    PARAMETERS + 16 * c as u16 + 2 * w as u16
}

fn late_address(c: usize) -> u16 {
    LATE + 2 * c as u16
}

/// Calls, and a unit that has had them.
#[derive(Default)]
struct List {
    calls: Vec<Call>,
    unit: Plain,
}

impl List {
    fn call(&mut self, call: Call) -> Answer {
        self.calls.push(call);
        perform(&mut self.unit, call, &mut Lent::default())
    }

    fn put(&mut self, address: u16, value: u16) {
        let answer = self.call(Call::Write(address, value));
        assert_eq!(answer, Answer::Done, "{address:X} {value:X}");
    }

    fn pass(&mut self, mut ticks: u32) {
        while ticks > 0 {
            let n = ticks.min(MAX_TICKS);
            self.call(Call::Advance(n, n as usize));
            ticks -= n;
        }
    }

    fn late(&mut self, c: usize) -> Answer {
        self.call(Call::Read(late_address(c)))
    }

    fn levels(&mut self, level: impl Fn(usize) -> u16) {
        let half = |low: usize| (0..8).fold(0, |word, c| word | level(low + c) << (2 * c));
        self.put(CPR0, half(8));
        self.put(CPR0 + 2, half(0));
    }

    /// All channels initialised; those of motors by either timer.
    fn set_up(motors: usize, slow: bool) -> List {
        let mut list = List::default();
        for c in 0..16 {
            let pattern = BY_ITSELF[usize::from(slow && c < 2 * motors)];
            list.put(CFSR0 + 2 * (c as u16 / 4), 0xDDDD);
            list.put(word_address(c, PIN_CONTROL), pattern);
            list.put(word_address(c, CHANNEL_CONTROL), pattern);
        }
        list.levels(|_| 3);
        list.put(HSRR0, 0xAAAA);
        list.put(HSRR0 + 2, 0xAAAA);
        list.pass(16);
        list
    }

    /// A motor of two channels sets out; the next tick serves its request.
    fn start(&mut self, c: usize, period: u16, steps: u16) {
        self.put(word_address(c, TARGET), steps);
        self.put(word_address(c, MOD_AND_RATE), 1);
        self.put(word_address(c, COUNT_AND_LAST), 0x0E00 | (c as u16 + 1));
        self.put(word_address(c + 1, STEP_CNTL1), period);
        self.put(HSRR0 + 2 * (1 - c as u16 / 8), STEP << (2 * (c % 8)));
    }

    /// What occurred. Both units do alike, and no watch finds a fault.
    fn counts(&self) -> Counts {
        let (mut plain, mut archive) = (Plain::default(), Archive::new());
        let found = first_difference(&mut plain, &mut archive, &self.calls, Depth::Whole);
        assert!(found.is_none(), "{found:?}");
        let mut counts = Counts::default();
        Watch::run(&self.calls, &mut counts);
        assert_eq!(counts.broken(), None);
        counts
    }
}

/// One step of 200 counts, begun in tick 17, where TCR2 is 2. Its match is
/// served so many counts late, by TCR2 in the last tick of a count.
#[test]
fn a_motor_switched_off() {
    for (slow, ticks_a_count) in [(false, 1), (true, 8)] {
        for counts in [
            0, 1, 10, 127, 128, 0x7FFF, 0x8000, 0xFFFF, 0x1_0000, 0x1_0080,
        ] {
            let mut list = List::set_up(1, slow);
            list.start(0, 200, 1);
            list.pass(1);
            list.levels(|_| 0);
            let to_match = if slow { 8 * 202 - 17 } else { 200 };
            list.pass(to_match - 1 + ticks_a_count * counts + (ticks_a_count - 1));
            assert_eq!(list.late(0), Answer::Word(0));
            list.levels(|_| 1);
            list.pass(1);
            assert_eq!(list.late(0), Answer::Word(counts as u16));
            assert_eq!(list.unit.phase(0), Phase::Resting);
            list.counts();
        }
    }
}

/// Eight motors with matches in one tick, a high slot, at three levels: two
/// high services, then a middle, a high and a low one; what is left goes to
/// the highest level. Where a count is eight ticks, nobody is late.
#[test]
fn eight_matches_in_one_tick() {
    let levels = [3, 1, 2, 3, 1, 2, 3, 1];
    let late = [0, 4, 2, 1, 6, 5, 3, 7];
    for slow in [false, true] {
        let mut list = List::set_up(8, slow);
        list.levels(|c| levels[c / 2]);
        for i in 0..8 {
            list.start(2 * i, 200 - if slow { 0 } else { i as u16 }, 3);
            list.pass(1);
        }
        list.pass(if slow { 1600 } else { 200 });
        for i in 0..8 {
            let late = if slow { 0 } else { late[i] };
            assert_eq!(list.late(2 * i), Answer::Word(late), "motor {i}");
        }
        list.pass(if slow { 1600 } else { 200 });
        for c in 0..16 {
            assert_eq!(list.late(c), Answer::Word(0), "channel {c}");
        }
        list.counts();
    }
}

/// A motor on a board with fourteen channels that ask in every tick. They have
/// another level until its match, so that its turn is over, and then that of
/// each slot.
fn busiest(level: u16, slow: bool) -> List {
    let mut list = List::set_up(1, slow);
    list.levels(|c| if c == 0 { level } else { 3 });
    list.start(0, 128, 12);
    let mut tick = 16;
    while list.unit.phase(0) != Phase::Resting {
        let mut words = [0; 2];
        for c in (2..16).filter(|&c| list.unit.request(c) == 0) {
            words[c / 8] |= 2 << (2 * (c % 8));
        }
        list.put(HSRR0 + 2, words[0]);
        list.put(HSRR0, words[1]);
        let waits = matches!(list.unit.phase(0), Phase::Matched { .. });
        let other = if level == 3 { 2 } else { 3 };
        let others = if waits { ROUND[tick % 7] } else { other };
        list.levels(|c| if c == 0 { level } else { others });
        list.pass(1);
        tick += 1;
    }
    list
}

/// Fifteen services of one level, which has one, two or four slots in seven.
#[test]
fn the_greatest_numbers() {
    for (level, by_tcr1) in [(3, 26), (2, 52), (1, 104)] {
        let counts = busiest(level, false).counts();
        assert_eq!(counts.numbers.most, [by_tcr1, 0]);
        assert_eq!(counts.slots.latest, u64::from(by_tcr1));
        let counts = busiest(level, true).counts();
        assert_eq!(counts.numbers.most, [0, by_tcr1 / 8]);
    }
}

#[test]
fn the_watch_finds_wrong_numbers() {
    for blunder in OF_NUMBERS {
        let found = (1..=40).any(|seed| {
            let mut counts = Counts::default();
            Watch::run_on(Plain::with(blunder), &call_list(seed, 300), &mut counts);
            counts.numbers.broken.is_some()
        });
        assert!(found, "{blunder:?}");
    }
}
