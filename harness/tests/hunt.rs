//! The archive and the plain unit on the same random calls. `hunt` is the same
//! with other seeds and longer lists.

use harness::hunt::Hunt;

const LISTS: u64 = 100;
const CALLS: usize = 1000;

#[test]
fn archive_and_plain_do_alike() {
    let mut hunt = Hunt::default();
    println!("seeds 1 to {LISTS}, {CALLS} calls each");
    for seed in 1..=LISTS {
        if let Err(text) = hunt.list(seed, CALLS) {
            panic!("{text}");
        }
    }
    print!("{hunt}");
    assert_eq!(hunt.missing(), None, "never occurred");
    assert!(hunt.counts.calls >= 100_000);
    assert!(hunt.counts.ticks >= 10_000_000);
}
