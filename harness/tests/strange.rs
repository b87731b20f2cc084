//! States that no history gives, straight from random words: what the archive
//! promises of them, and the plain unit's answers to the same.

use harness::archive::{self, Archive, WRONG_LENGTH};
use harness::calls::{call_list, perform, Answer, Call, Lent, MARK};
use harness::compare::{see, Depth, Difference, Seen};
use harness::packed::{lay, unmeant, unpack, WORDS};
use harness::plain::{Plain, CIER, HSRR0, LATE, PARAMETERS};
use harness::random::Random;
use harness::unit::Unit;
use harness::watch::QUESTIONS;

const SEED: u64 = 1;
const STATES: usize = 10_000;
const CALLS_EACH: usize = 6;

/// All words random, or a state of a history with some of its words changed.
fn strange_words(random: &mut Random) -> [u16; WORDS] {
    let mut words = [0; WORDS];
    if random.one_in(2) {
        words.fill_with(|| random.word());
        return words;
    }
    let mut unit = Archive::new();
    for call in call_list(random.bits(), 60) {
        perform(&mut unit, call, &mut Lent::default());
    }
    words = *unit.state();
    for _ in 0..random.between(1, 12) {
        words[random.below(WORDS as u32) as usize] = random.word();
    }
    words
}

fn address(random: &mut Random) -> u16 {
    match random.below(17) {
        0..=7 => PARAMETERS + 2 * random.below(128) as u16,
        8..=13 => CIER + 2 * random.below(12) as u16,
        14 => LATE + 2 * random.below(16) as u16,
        _ => random.word(),
    }
}

/// Any word, or one that is too high for a target.
fn value(random: &mut Random) -> u16 {
    if random.one_in(8) {
        0xFFFF - random.below(16) as u16
    } else {
        random.word()
    }
}

fn strange_call(random: &mut Random) -> Call {
    match random.below(80) {
        0..=9 => Call::Read(address(random)),
        10..=39 => Call::Write(address(random), value(random)),
        // A single request is refused less often than eight.
        40..=49 => {
            let request = random.between(2, 3) as u16;
            let half = HSRR0 + 2 * random.below(2) as u16;
            Call::Write(half, request << (2 * random.below(8)))
        }
        50..=62 => Call::Advance(random.below(40), 40),
        63..=77 => Call::Advance(random.below(3), 3),
        _ => Call::Advance(random.below(4200), random.between(4000, 4100) as usize),
    }
}

/// What is promised of any words: guards, refusals that change nothing, the
/// rest of the list kept, and what has no meaning left as it was: after a
/// write all of it, after ticks the other bits of the flags.
fn check_promises(before: &[u16; WORDS], after: &[u16; WORDS], call: Call, seen: &Seen) {
    assert!(seen.intact);
    let documented = match (call, seen.answer) {
        (Call::Read(_), Answer::Word(_) | Answer::Refused(1)) => true,
        (Call::Write(..), Answer::Done | Answer::Refused(1..=9 | 14)) => true,
        (Call::Advance(..), Answer::Done) => call.ticks().is_some(),
        (Call::Advance(..), Answer::Refused(10)) => call.ticks().is_none(),
        _ => false,
    };
    assert!(documented, "{call:?}: {:?}", seen.answer);
    let made = call.ticks().unwrap_or(0);
    let (list, rest) = seen.list.split_at(made as usize);
    assert!(rest.iter().all(|&word| word == MARK));
    if seen.answer == Answer::Done {
        let (old, new) = (unpack(before), unpack(after));
        assert_eq!(unmeant(after), unmeant(before));
        if made == 0 {
            let mut laid = *before;
            lay(&new, &mut laid);
            assert_eq!(*after, laid);
        }
        assert_eq!(new.tcr1, old.tcr1.wrapping_add(made as u16));
        let rises = (u32::from(old.tcr1) % 8 + made) / 8;
        assert_eq!(new.tcr2, old.tcr2.wrapping_add(rises as u16));
        let slot = match made {
            0 => u32::from(old.slots.slot),
            _ => (u32::from(old.slots.slot) + made) % 7,
        };
        assert_eq!(u32::from(new.slots.slot), slot);
        assert!(made > 0 || new.late == old.late);
        assert_eq!(new.pins, *list.last().unwrap_or(&old.pins));
    } else {
        assert_eq!(after, before);
    }
}

/// What differs if both units get this call in the state of these words.
fn difference(words: &[u16; WORDS], call: Call) -> Vec<String> {
    let one = see(
        &mut Plain::from_snapshot(&unpack(words)),
        call,
        Depth::Whole,
    );
    let other = see(&mut Archive::with(words), call, Depth::Whole);
    let place = 0;
    Difference { place, one, other }.lines()
}

/// The state with every word cleared that has no part in the difference.
fn tell(mut words: [u16; WORDS], call: Call) -> String {
    for i in 0..WORDS {
        let kept = std::mem::take(&mut words[i]);
        if difference(&words, call).is_empty() {
            words[i] = kept;
        }
    }
    let state = words.iter().enumerate().filter(|(_, &word)| word != 0);
    let state: Vec<String> = state.map(|(i, word)| format!("{i}: {word:04X}")).collect();
    let lines = difference(&words, call);
    format!("plain and archive on {call:X?} with words {state:?}: {lines:#?}")
}

#[test]
fn promises_and_the_plain_unit_hold_on_any_words() {
    let mut random = Random::new(SEED);
    let mut refused = [0; 15];
    for _ in 0..STATES {
        let mut unit = Archive::with(&strange_words(&mut random));
        for _ in 0..CALLS_EACH {
            let before = *unit.state();
            let call = strange_call(&mut random);
            let seen = see(&mut unit, call, Depth::Whole);
            check_promises(&before, unit.state(), call, &seen);
            let mut plain = Plain::from_snapshot(&unpack(&before));
            if see(&mut plain, call, Depth::Whole) != seen {
                panic!("{}", tell(before, call));
            }
            if let Answer::Refused(number) = seen.answer {
                refused[usize::from(number)] += 1;
            }
        }
    }
    println!("seed {SEED}, {STATES} states, refused by number: {refused:?}");
    assert!(QUESTIONS.iter().all(|&n| refused[n] > 0), "{refused:?}");
}

#[test]
fn other_lengths_are_refused() {
    assert_eq!(archive::state_words() as usize, WORDS);
    let mut random = Random::new(3);
    for length in [0, 1, WORDS - 1, WORDS + 1, 2 * WORDS] {
        let before: Vec<u16> = (0..length).map(|_| random.word()).collect();
        let (mut state, mut pins) = (before.clone(), [MARK; 4]);
        assert_eq!(archive::reset(&mut state), WRONG_LENGTH);
        let answer = archive::read(&state, CIER);
        assert_eq!(answer, u32::from(WRONG_LENGTH) << 16);
        assert_eq!(archive::write(&mut state, CIER, 1), WRONG_LENGTH);
        assert_eq!(archive::advance(&mut state, 4, &mut pins), WRONG_LENGTH);
        assert_eq!(archive::advance(&mut state, 5, &mut pins), WRONG_LENGTH);
        assert_eq!(archive::interrupt_line(&state), WRONG_LENGTH);
        assert_eq!((state, pins), (before, [MARK; 4]));
    }
}

#[test]
fn reset_is_all_zeros() {
    let mut random = Random::new(4);
    let mut unit = Archive::with(&strange_words(&mut random));
    unit.reset();
    assert_eq!(*unit.state(), [0; WORDS]);
    assert!(unit.is_intact());
}
