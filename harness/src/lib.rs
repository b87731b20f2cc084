//! Test harness for the timer unit of document 01.
//!
//! `plain` is a second implementation, written from the paper; `archive` is the
//! proved one. `calls` makes random call lists with a use, `watch` counts what
//! happened while they ran, `turns` whose slots it were and `lateness` how late
//! matches were served, `compare` runs two units side by side, `term3` judges a
//! unit by term 3, `shrink` shortens a list that shows a fault, and `report`
//! tells of it; `hunt` puts these together. `script` is the script program over
//! any unit. `ramp` is a second implementation of the ramp program of change
//! request #101, and makes lines for it.

pub mod archive;
pub mod calls;
pub mod compare;
pub mod hunt;
pub mod lateness;
pub mod packed;
pub mod plain;
pub mod ramp;
pub mod random;
pub mod report;
pub mod script;
pub mod shrink;
pub mod term3;
pub mod turns;
pub mod unit;
pub mod watch;
