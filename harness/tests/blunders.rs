//! The harness finds the blunders of document 01, those of the timers of request
//! #106, of the slots of request #107 and of the numbers of request #108, each
//! made by the plain unit, and shortens the list of calls that shows it.

use harness::calls::{call_list, Call};
use harness::compare::{first_difference, Depth};
use harness::plain::{Blunder, Plain, OF_NUMBERS};
use harness::report::{self, Fault};
use harness::script::Script;
use harness::term3::{judge, Judged};

/// Each with whether term 3 forbids it. A pattern that is a step out changes
/// no position, rate or time: term 3 says nothing of it. Nor does it say when
/// a motor takes up speed: the steps that it promises are the same. It forbids
/// neither a motor that is too quick nor a group of both kinds. Of the slots it
/// says only that an arrival is not too late, for which these lists are seldom
/// busy enough: see the boards of `slots`. Two services in a tick can be two
/// steps of one motor. Of numbers it knows nothing, so those blunders are not
/// put to it.
const BLUNDERS: [(Blunder, bool); 22] = [
    (Blunder::CountsVisits, false),
    (Blunder::ComparesPlainly, true),
    (Blunder::TurnsWhileFast, true),
    (Blunder::KeepsTarget, true),
    (Blunder::LightsAtRequest, true),
    (Blunder::AcceleratesAtN, false),
    (Blunder::RisesInSeven, false),
    (Blunder::KindAtRequest, true),
    (Blunder::RefersToTcr1, true),
    (Blunder::AsksFirstKind, false),
    (Blunder::AsksLastKind, false),
    (Blunder::ServesTwo, true),
    (Blunder::SearchesFromZero, false),
    (Blunder::HandsToLowest, false),
    (Blunder::MovesLastOfSlot, false),
    (Blunder::StarvesLow, false),
    (Blunder::SlotRests, false),
    (Blunder::ChoosesFirst, false),
    (Blunder::CountsFromService, false),
    (Blunder::PinsAtService, false),
    (Blunder::TakesQuickRamps, false),
    (Blunder::AsksTargetFirst, false),
];

fn breaks_term_3(blunder: Blunder, calls: &[Call]) -> bool {
    judge(&mut Plain::with(blunder), calls, &mut Judged::default()).is_err()
}

#[test]
fn term_3_finds_what_it_forbids() {
    for (blunder, forbidden) in BLUNDERS {
        let found = (1..=20).any(|seed| breaks_term_3(blunder, &call_list(seed, 1000)));
        assert_eq!(found, forbidden, "{blunder:?}");
    }
}

#[test]
fn term_3_holds_of_plain() {
    let mut judged = Judged::default();
    for seed in 400..430 {
        let fault = report::breach(&mut Plain::default(), &call_list(seed, 1000), &mut judged);
        assert_eq!(fault, None, "seed {seed}");
    }
    for (name, count) in judged.named() {
        assert!(count > 0, "never: {name}");
    }
}

/// About the first short list that shows a fault.
fn first_fault(fault: impl FnMut(Vec<Call>) -> Option<Fault>) -> Fault {
    (1..=200)
        .map(|seed| call_list(seed, 300))
        .find_map(fault)
        .expect("a fault")
}

fn check_shortest(list: &[Call], shows: impl Fn(&[Call]) -> bool) {
    assert!(list.len() <= 45, "{} calls", list.len());
    assert!(shows(list));
    for i in 0..list.len() {
        let without = [&list[..i], &list[i + 1..]].concat();
        assert!(!shows(&without));
    }
}

/// What the script program prints over this unit.
fn printed(unit: Plain, script: &str) -> String {
    let mut out = Vec::new();
    let run = Script::new(unit).run(script.as_bytes(), &mut out);
    run.expect("writing to memory");
    String::from_utf8(out).expect("text")
}

#[test]
fn comparison_finds_each_and_tells_how() {
    let others = BLUNDERS.map(|(blunder, _)| blunder);
    for blunder in others.into_iter().chain(OF_NUMBERS) {
        let fault = first_fault(|calls| {
            let (mut right, mut wrong) = (Plain::default(), Plain::with(blunder));
            // Where no more than a timer differs, a script has nothing to show.
            first_difference(&mut right, &mut wrong, &calls, Depth::Shown)?;
            report::difference(&mut right, &mut wrong, &calls)
        });
        let script = report::script(&fault.calls);
        let right = printed(Plain::default(), &script);
        assert!(right.lines().all(|line| line != "E"), "{fault}");
        assert_ne!(right, printed(Plain::with(blunder), &script), "{fault}");
        let is_read = |call: &&Call| matches!(call, Call::Read(_));
        let reads = fault.calls.iter().rev().take_while(is_read).count();
        let list = &fault.calls[..fault.calls.len() - reads];
        check_shortest(list, |list| {
            let (mut right, mut wrong) = (Plain::default(), Plain::with(blunder));
            first_difference(&mut right, &mut wrong, list, Depth::Shown).is_some()
        });
    }
}

#[test]
fn a_breach_of_term_3_is_shortened() {
    for blunder in [Blunder::TurnsWhileFast, Blunder::LightsAtRequest] {
        let fault = first_fault(|calls| {
            report::breach(&mut Plain::with(blunder), &calls, &mut Judged::default())
        });
        check_shortest(&fault.calls, |list| breaks_term_3(blunder, list));
    }
}
