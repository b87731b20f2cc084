//! Request #107 on boards that are as busy as can be: every channel is to be
//! served in every slot. The waits there are the longest, and boards that serve
//! otherwise are found by the watch of the slots or by term 3.

use harness::archive::Archive;
use harness::calls::{perform, Call, Lent};
use harness::compare::{first_difference, Depth};
use harness::plain::*;
use harness::term3::{judge, Judged};
use harness::watch::{Counts, Watch};

/// Channel 0 keeps one level; it is a motor's primary, or is initialised again
/// and again like the others.
#[derive(Clone, Copy)]
struct Board {
    level: u16,
    motor: bool,
    /// The level of the others by that of the slot.
    others: fn(u16) -> u16,
}

const TICKS: usize = 2000;
/// The level that each slot looks at first, so that no other one is served.
const WITH_THE_SLOT: fn(u16) -> u16 = |slot| slot;
const ALWAYS_HIGH: fn(u16) -> u16 = |_| 3;
const ALWAYS_LOW: fn(u16) -> u16 = |_| 1;

fn word_address(c: usize, w: usize) -> u16 {
    PARAMETERS + 16 * c as u16 + 2 * w as u16
}

/// Calls, and a unit that has had them.
struct List {
    calls: Vec<Call>,
    unit: Plain,
}

impl List {
    fn call(&mut self, call: Call) {
        perform(&mut self.unit, call, &mut Lent::default());
        self.calls.push(call);
    }

    fn put(&mut self, address: u16, value: u16) {
        self.call(Call::Write(address, value));
    }

    /// A pattern that is the control word of every initialise.
    fn set_up(&mut self) {
        for c in 0..16 {
            self.put(CFSR0 + 2 * (c as u16 / 4), 0xDDDD);
            self.put(word_address(c, PIN_CONTROL), 0x8081);
            self.put(word_address(c, CHANNEL_CONTROL), 0x8081);
        }
    }

    /// On channels 0 and 1, from 0 to 12 in steps of 128 ticks.
    fn start_motor(&mut self, level: u16) {
        self.put(CPR0 + 2, level | 3 << 2);
        self.put(HSRR0 + 2, 0x000A);
        self.call(Call::Advance(2, 2));
        self.put(word_address(0, TARGET), 12);
        self.put(word_address(0, MOD_AND_RATE), 1);
        self.put(word_address(0, COUNT_AND_LAST), 0x0301);
        self.put(word_address(1, STEP_CNTL1), 128);
        self.put(HSRR0 + 2, 3);
    }

    /// A priority for channel 0 and one for all others.
    fn levels(&mut self, first: u16, others: u16) {
        self.put(CPR0, others * 0x5555);
        self.put(CPR0 + 2, (others * 0x5554) | first);
    }

    /// An initialise for whoever has no request, from this channel on.
    fn ask_again(&mut self, from: usize) {
        let free = (from..16).filter(|&c| self.unit.request(c) == 0);
        let mut words = [0; 2];
        free.for_each(|c| words[c / 8] |= 2 << (2 * (c % 8)));
        self.put(HSRR0 + 2, words[0]);
        self.put(HSRR0, words[1]);
    }
}

impl Board {
    /// What keeps this unit busy.
    fn calls(self, unit: Plain) -> Vec<Call> {
        let mut list = List {
            calls: Vec::new(),
            unit,
        };
        list.set_up();
        if self.motor {
            list.start_motor(self.level);
        }
        let begun: usize = if self.motor { 2 } else { 0 };
        for tick in begun..TICKS {
            list.ask_again(begun);
            list.levels(self.level, (self.others)(ROUND[tick % 7]));
            list.call(Call::Advance(1, 1));
        }
        list.calls
    }
}

fn counts(unit: Plain, calls: &[Call]) -> Counts {
    let mut counts = Counts::default();
    Watch::run_on(unit, calls, &mut counts);
    counts
}

/// Sixteen services of one level, which has one, two or four slots in seven.
#[test]
fn the_longest_waits() {
    for (level, longest) in [(3, 28), (2, 56), (1, 112)] {
        let board = Board {
            level,
            motor: false,
            others: WITH_THE_SLOT,
        };
        let calls = board.calls(Plain::default());
        let slots = counts(Plain::default(), &calls).slots;
        assert_eq!(slots.broken, None);
        assert_eq!(slots.longest[usize::from(3 - level)], longest);
        let (mut plain, mut archive) = (Plain::default(), Archive::new());
        let found = first_difference(&mut plain, &mut archive, &calls, Depth::Whole);
        assert!(found.is_none(), "{found:?}");
    }
}

/// Fourteen channels can be served before a primary: its secondary asks for
/// nothing.
#[test]
fn a_motor_on_the_busiest_board_arrives_in_time() {
    for level in 1..=3 {
        let board = Board {
            level,
            motor: true,
            others: WITH_THE_SLOT,
        };
        let calls = board.calls(Plain::default());
        let slots = counts(Plain::default(), &calls).slots;
        println!("level {level}: matches up to {} ticks late", slots.latest);
        assert_eq!(slots.broken, None);
        assert!(slots.late > 10);
        let mut judged = Judged::default();
        assert_eq!(judge(&mut Archive::new(), &calls, &mut judged), Ok(()));
        assert_eq!(judged.in_time, 1);
    }
}

/// By the watch of the slots, which also counts services.
#[test]
fn a_channel_that_starves_is_found() {
    let starved = [
        (Blunder::StarvesLow, ALWAYS_HIGH),
        (Blunder::SearchesFromZero, ALWAYS_LOW),
        (Blunder::ServesTwo, WITH_THE_SLOT),
    ];
    for (blunder, others) in starved {
        let board = Board {
            level: 1,
            motor: false,
            others,
        };
        let calls = board.calls(Plain::default());
        assert_eq!(counts(Plain::default(), &calls).slots.broken, None);
        let calls = board.calls(Plain::with(blunder));
        let broken = counts(Plain::with(blunder), &calls).slots.broken;
        assert!(broken.is_some(), "{blunder:?}");
    }
}

#[test]
fn term_3_finds_what_comes_too_late() {
    let late = [
        (Blunder::StarvesLow, ALWAYS_HIGH),
        (Blunder::CountsFromService, WITH_THE_SLOT),
    ];
    for (blunder, others) in late {
        let board = Board {
            level: 1,
            motor: true,
            others,
        };
        let calls = board.calls(Plain::with(blunder));
        let judged = judge(&mut Plain::with(blunder), &calls, &mut Judged::default());
        assert!(judged.is_err(), "{blunder:?}");
    }
}
