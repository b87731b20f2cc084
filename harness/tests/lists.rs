//! Things that must hold of either unit after every call of a random list.

use harness::archive::Archive;
use harness::calls::{call_list, perform, Answer, Call, Lent, MARK};
use harness::compare::{first_difference, Depth};
use harness::plain::{Plain, CHANNEL_CONTROL, COUNT_AND_LAST, MOD_AND_RATE, PIN_CONTROL};
use harness::unit::{Phase, Snapshot, Unit};

/// A unit with each advance made of single ticks.
struct TickByTick<U>(U);

impl<U: Unit> Unit for TickByTick<U> {
    fn reset(&mut self) {
        self.0.reset();
    }

    fn read(&self, address: u16) -> Result<u16, u8> {
        self.0.read(address)
    }

    fn write(&mut self, address: u16, value: u16) -> Result<(), u8> {
        self.0.write(address, value)
    }

    fn advance(&mut self, n: u32, pins: &mut [u16]) -> Result<(), u8> {
        if n > 4096 || n as usize > pins.len() {
            return self.0.advance(n, pins);
        }
        for i in 0..n as usize {
            self.0.advance(1, &mut pins[i..])?;
        }
        Ok(())
    }

    fn interrupt_line(&self) -> bool {
        self.0.interrupt_line()
    }

    fn snapshot(&self) -> Snapshot {
        self.0.snapshot()
    }
}

#[test]
fn same_seed_same_list() {
    assert_eq!(call_list(7, 500), call_list(7, 500));
    assert_ne!(call_list(7, 500), call_list(8, 500));
}

#[test]
fn an_advance_is_its_ticks() {
    for seed in 100..120 {
        let calls = call_list(seed, 500);
        let mut plain = TickByTick(Plain::default());
        let found = first_difference(&mut Plain::default(), &mut plain, &calls, Depth::Whole);
        assert!(found.is_none(), "seed {seed}, plain: {found:?}");
        let mut archive = TickByTick(Archive::new());
        let found = first_difference(&mut Archive::new(), &mut archive, &calls, Depth::Whole);
        assert!(found.is_none(), "seed {seed}, archive: {found:?}");
    }
}

/// Nor does a read, and an advance leaves the rest of the list.
fn refused_changes_nothing(unit: &mut dyn Unit, calls: &[Call]) {
    let mut lent = Lent::default();
    for &call in calls {
        let before = unit.snapshot();
        let answer = perform(unit, call, &mut lent);
        let only_looks = matches!(call, Call::Read(_));
        let mut kept = lent.list();
        if only_looks || matches!(answer, Answer::Refused(_)) {
            assert_eq!(before, unit.snapshot());
        } else {
            kept = &kept[call.ticks().unwrap_or(0) as usize..];
        }
        assert!(kept.iter().all(|&word| word == MARK));
        assert!(unit.is_intact() && lent.is_intact());
    }
}

#[test]
fn refused_calls_change_nothing() {
    for seed in 200..220 {
        let calls = call_list(seed, 500);
        refused_changes_nothing(&mut Plain::default(), &calls);
        refused_changes_nothing(&mut Archive::new(), &calls);
    }
}

/// Bound as worked out from the groups on their way.
fn in_a_group(unit: &Plain, c: usize) -> bool {
    (0..=c).any(|p| {
        let last = usize::from(unit.word(p, COUNT_AND_LAST) & 15);
        unit.phase(p) != Phase::Resting && last >= c
    })
}

#[test]
fn groups_stay_in_order() {
    for seed in 300..340 {
        let mut unit = Plain::default();
        let mut lent = Lent::default();
        for call in call_list(seed, 500) {
            perform(&mut unit, call, &mut lent);
            for c in 0..16 {
                assert_eq!(unit.is_bound(c), in_a_group(&unit, c));
                let view = unit.view(c);
                let control = unit.word(c, CHANNEL_CONTROL);
                if view.initialised && !unit.is_bound(c) {
                    assert_eq!(unit.pins() >> c & 1, control >> 15);
                }
                if view.phase != Phase::Resting {
                    check_pattern(&unit, c);
                }
            }
        }
    }
}

fn check_pattern(unit: &Plain, primary: usize) {
    let last = usize::from(unit.word(primary, COUNT_AND_LAST) & 15);
    let places = u32::from(unit.word(primary, MOD_AND_RATE) >> 8);
    for g in primary..=last {
        let turned = unit.word(g, PIN_CONTROL).rotate_right(places);
        assert_eq!(unit.word(g, CHANNEL_CONTROL), turned);
        assert!(unit.view(g).initialised);
        assert_eq!(unit.view(g).slow, unit.view(primary).by_tcr2);
    }
}
