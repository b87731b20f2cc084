//! What a fitter is told about a fault: the shortest list of calls found that
//! shows it, as a script, and what was seen.

use crate::calls::Call;
use crate::compare::{first_difference, Depth};
use crate::script::line;
use crate::shrink::shortest;
use crate::term3::{judge, Judged};
use crate::unit::Unit;
use std::fmt;

#[derive(Clone, Debug, PartialEq, Eq)]
pub struct Fault {
    what: &'static str,
    /// The calls that show it, then reads of the words that differ.
    pub calls: Vec<Call>,
    seen: Vec<String>,
}

impl fmt::Display for Fault {
    fn fmt(&self, f: &mut fmt::Formatter) -> fmt::Result {
        writeln!(f, "{}; the shortest list found that shows it:", self.what)?;
        write!(f, "{}", script(&self.calls))?;
        self.seen.iter().try_for_each(|line| writeln!(f, "{line}"))
    }
}

/// A script for the calls. A call that a script has no line for stands there
/// after a mark; the script program answers such a line with `E`.
pub fn script(calls: &[Call]) -> String {
    let lines = calls.iter().map(|&call| match line(call) {
        Some(line) => line + "\n",
        None => format!("# {call:X?}\n"),
    });
    lines.collect()
}

/// Nothing if the two do alike in all calls.
pub fn difference(one: &mut dyn Unit, other: &mut dyn Unit, calls: &[Call]) -> Option<Fault> {
    first_difference(one, other, calls, Depth::Whole)?;
    // What lies hidden in a state may come to light once TCR1 has gone round.
    let mut calls = calls.to_vec();
    calls.extend([Call::Advance(4096, 4096); 17]);
    let depth = match first_difference(one, other, &calls, Depth::Shown) {
        Some(_) => Depth::Shown,
        None => Depth::Whole,
    };
    let mut list = shortest(&calls, |list| {
        first_difference(one, other, list, depth).is_some()
    });
    let found = first_difference(one, other, &list, depth)?;
    list.extend(found.addresses().into_iter().map(Call::Read));
    Some(Fault {
        what: "the two differ",
        calls: list,
        seen: found.lines(),
    })
}

/// Nothing if term 3 holds of the unit in all calls.
pub fn breach(unit: &mut dyn Unit, calls: &[Call], judged: &mut Judged) -> Option<Fault> {
    judge(unit, calls, judged).err()?;
    let list = shortest(calls, |list| {
        judge(unit, list, &mut Judged::default()).is_err()
    });
    let found = judge(unit, &list, &mut Judged::default()).err()?;
    Some(Fault {
        what: "term 3 does not hold",
        calls: list,
        seen: vec![format!("channel {}: not so: {}", found.channel, found.what)],
    })
}
