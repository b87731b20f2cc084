//! Two implementations side by side on the same calls.

use crate::calls::{perform, Answer, Call, Lent};
use crate::plain::{CIER, LATE, PARAMETERS};
use crate::unit::{Snapshot, Unit};
use std::fmt::{self, Debug, Display};

/// What was seen after a call: the answer, the lent list, the line, the state.
#[derive(Clone, Debug, PartialEq, Eq)]
pub struct Seen {
    pub answer: Answer,
    pub list: Vec<u16>,
    pub line: bool,
    pub state: Snapshot,
    /// Nothing around the lent words was touched.
    pub intact: bool,
}

/// How much of the state is compared.
#[derive(Clone, Copy, Debug, PartialEq, Eq)]
pub enum Depth {
    Whole,
    /// Pins and every word that a read gives: what calls show at once.
    Shown,
}

pub fn see(unit: &mut dyn Unit, call: Call, depth: Depth) -> Seen {
    let mut lent = Lent::default();
    let answer = perform(unit, call, &mut lent);
    let mut state = unit.snapshot();
    if depth == Depth::Shown {
        state.tcr1 = 0;
        state.tcr2 = 0;
        state.channels = Default::default();
        state.slots = Default::default();
    }
    Seen {
        answer,
        list: lent.list().to_vec(),
        line: unit.interrupt_line(),
        state,
        intact: unit.is_intact() && lent.is_intact(),
    }
}

/// What was seen of two units where they differ first, or where one of them
/// touched what it was not lent.
#[derive(Clone, Debug, PartialEq, Eq)]
pub struct Difference {
    /// The place of the call in its list.
    pub place: usize,
    pub one: Seen,
    pub other: Seen,
}

/// Runs the calls on both, from reset.
pub fn first_difference(
    one: &mut dyn Unit,
    other: &mut dyn Unit,
    calls: &[Call],
    depth: Depth,
) -> Option<Difference> {
    one.reset();
    other.reset();
    for (place, &call) in calls.iter().enumerate() {
        let (one, other) = (see(one, call, depth), see(other, call, depth));
        if one != other || !one.intact {
            return Some(Difference { place, one, other });
        }
    }
    None
}

impl Difference {
    /// One line for each thing that differs.
    pub fn lines(&self) -> Vec<String> {
        let (one, other) = (&self.one, &self.other);
        let mut lines = Vec::new();
        note(&mut lines, "answer", &one.answer, &other.answer);
        let lists = one.list.iter().zip(&other.list).enumerate();
        for (i, (a, b)) in lists.filter(|(_, (a, b))| a != b).take(1) {
            note(&mut lines, format!("lent word {i}"), Hex(*a), Hex(*b));
        }
        note(&mut lines, "interrupt line", one.line, other.line);
        note(&mut lines, "guard words kept", one.intact, other.intact);
        let (one, other) = (&one.state, &other.state);
        for address in self.addresses() {
            let (a, b) = (one.at(address), other.at(address));
            note(&mut lines, format!("${address:03X}"), Hex(a), Hex(b));
        }
        note(&mut lines, "TCR1", Hex(one.tcr1), Hex(other.tcr1));
        note(&mut lines, "TCR2", Hex(one.tcr2), Hex(other.tcr2));
        note(&mut lines, "pins", Hex(one.pins), Hex(other.pins));
        for (c, (a, b)) in one.channels.iter().zip(&other.channels).enumerate() {
            note(&mut lines, format!("channel {c}"), a, b);
        }
        note(&mut lines, "slots", one.slots, other.slots);
        lines
    }

    /// Where a read gives another word.
    pub fn addresses(&self) -> Vec<u16> {
        let registers = (0..12).map(|i| CIER + 2 * i);
        let late = (0..16).map(|c| LATE + 2 * c);
        let parameters = (0..128).map(|i| PARAMETERS + 2 * i);
        registers
            .chain(late)
            .chain(parameters)
            .filter(|&address| self.one.state.at(address) != self.other.state.at(address))
            .collect()
    }
}

/// A word that is printed as four digits.
#[derive(PartialEq)]
struct Hex(u16);

impl Debug for Hex {
    fn fmt(&self, f: &mut fmt::Formatter) -> fmt::Result {
        write!(f, "{:04X}", self.0)
    }
}

fn note<T: Debug + PartialEq>(lines: &mut Vec<String>, what: impl Display, one: T, other: T) {
    if one != other {
        lines.push(format!("{what}: {one:?} and {other:?}"));
    }
}
