//! The boards that document 01's conditions of acceptance shut out, made of
//! the plain unit: the comparison finds each of them. The one that sets the
//! arrival bit too early is among the blunders.

use harness::calls::{call_list, Call};
use harness::compare::{first_difference, Depth};
use harness::plain::{Plain, HSRR0, POSITION, TARGET};
use harness::term3::{judge, Judged};
use harness::unit::{Phase, Snapshot, Unit};

#[derive(Clone, Copy, Debug, PartialEq)]
enum Wrong {
    /// All steps in the first tick.
    StepsAtOnce,
    /// Positions count, no match moves a pin.
    PinsRest,
    /// Once a motor is to move, nothing but the clock does.
    LetsTimePass,
    /// One pin word for ever.
    SamePins,
    TakesNoRequest,
}

const BOARDS: [Wrong; 5] = [
    Wrong::StepsAtOnce,
    Wrong::PinsRest,
    Wrong::LetsTimePass,
    Wrong::SamePins,
    Wrong::TakesNoRequest,
];

struct Board {
    wrong: Wrong,
    unit: Plain,
}

impl Board {
    fn new(wrong: Wrong) -> Board {
        let unit = Plain::default();
        Board { wrong, unit }
    }

    /// One tick of the right unit, and what the board makes of it.
    fn tick(&mut self) {
        let before = self.unit.snapshot();
        self.unit.advance(1, &mut [0]).expect("a tick");
        let mut after = self.unit.snapshot();
        match self.wrong {
            Wrong::StepsAtOnce => step_at_once(&before, &mut after),
            Wrong::PinsRest if is_moving(&before) => after.pins = before.pins,
            Wrong::LetsTimePass if is_moving(&before) => {
                after = Snapshot {
                    tcr1: after.tcr1,
                    tcr2: after.tcr2,
                    slots: after.slots,
                    ..before
                };
            }
            Wrong::SamePins => after.pins = 0,
            _ => return,
        }
        self.unit = Plain::from_snapshot(&after);
    }
}

fn is_moving(state: &Snapshot) -> bool {
    state.channels.iter().any(|c| c.phase != Phase::Resting)
}

fn step_at_once(before: &Snapshot, after: &mut Snapshot) {
    for c in 0..16 {
        if before.words[8 * c + POSITION] != after.words[8 * c + POSITION] {
            after.words[8 * c + POSITION] = after.words[8 * c + TARGET];
        }
    }
}

impl Unit for Board {
    fn reset(&mut self) {
        self.unit.reset();
    }

    fn read(&self, address: u16) -> Result<u16, u8> {
        self.unit.read(address)
    }

    fn write(&mut self, address: u16, value: u16) -> Result<(), u8> {
        let requests = address & !2 == HSRR0 && value & 0xAAAA != 0;
        if self.wrong == Wrong::TakesNoRequest && requests {
            return Err(2);
        }
        self.unit.write(address, value)
    }

    fn advance(&mut self, n: u32, pins: &mut [u16]) -> Result<(), u8> {
        if Call::Advance(n, pins.len()).ticks().is_none() {
            return Err(10);
        }
        for word in &mut pins[..n as usize] {
            self.tick();
            *word = self.unit.pins();
        }
        Ok(())
    }

    fn interrupt_line(&self) -> bool {
        self.unit.interrupt_line()
    }

    fn snapshot(&self) -> Snapshot {
        self.unit.snapshot()
    }
}

#[test]
fn comparison_finds_each_board() {
    for wrong in BOARDS {
        let found = (1..=10).any(|seed| {
            let calls = call_list(seed, 300);
            let (mut right, mut board) = (Plain::default(), Board::new(wrong));
            first_difference(&mut right, &mut board, &calls, Depth::Shown).is_some()
        });
        assert!(found, "{wrong:?}");
    }
}

/// Of what stands still or jumps, term 3 alone says enough; where no request
/// is taken it has nothing to judge.
#[test]
fn term_3_finds_some() {
    let calls = |seed| call_list(seed, 300);
    for wrong in [Wrong::StepsAtOnce, Wrong::LetsTimePass] {
        let mut board = Board::new(wrong);
        let found =
            (1..=10).any(|seed| judge(&mut board, &calls(seed), &mut Judged::default()).is_err());
        assert!(found, "{wrong:?}");
    }
    let mut judged = Judged::default();
    let mut board = Board::new(Wrong::TakesNoRequest);
    for seed in 1..=10 {
        assert_eq!(judge(&mut board, &calls(seed), &mut judged), Ok(()));
    }
    assert_eq!(judged.counts, 0);
}
