//! The hunt for differences between the archive and the plain unit.

use crate::archive::Archive;
use crate::calls::{call_list, Call};
use crate::plain::{Plain, CIER, CISR, LATE, PARAMETERS};
use crate::report;
use crate::term3::Judged;
use crate::watch::{Counts, Watch};
use std::fmt;

/// What the lists of a hunt had in them.
#[derive(Clone, Default)]
pub struct Hunt {
    pub counts: Counts,
    pub judged: Judged,
}

impl Hunt {
    /// Runs the list of the seed, and then a read of every word, on both units
    /// and judges the archive by term 3; the error is a text for the fitter.
    pub fn list(&mut self, seed: u64, length: usize) -> Result<(), String> {
        let mut calls = call_list(seed, length);
        let registers = (CIER..=CISR).step_by(2);
        let late = (LATE..=LATE + 0x1E).step_by(2);
        let parameters = (PARAMETERS..=PARAMETERS + 0xFE).step_by(2);
        calls.extend(registers.chain(late).chain(parameters).map(Call::Read));
        Watch::run(&calls, &mut self.counts);
        if let Some(rule) = self.counts.broken() {
            return Err(format!("seed {seed}: plain: not so: {rule}"));
        }
        let (mut plain, mut archive) = (Plain::default(), Archive::new());
        let fault = report::difference(&mut plain, &mut archive, &calls)
            .or_else(|| report::breach(&mut archive, &calls, &mut self.judged));
        match fault {
            Some(text) => Err(format!("seed {seed}: plain and archive: {text}")),
            None => Ok(()),
        }
    }

    /// The first thing that never occurred, if there is one.
    pub fn missing(&self) -> Option<String> {
        let judged = self.judged.named().map(|(n, count)| (n.to_string(), count));
        let mut all = self.counts.named().into_iter().chain(judged);
        all.find(|(_, count)| *count == 0).map(|(name, _)| name)
    }
}

impl fmt::Display for Hunt {
    fn fmt(&self, f: &mut fmt::Formatter) -> fmt::Result {
        write!(f, "{}{}", self.counts, self.judged)
    }
}
