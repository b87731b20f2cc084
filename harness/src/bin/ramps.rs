//! The ramp program over the plain model: standard input to standard output.

use harness::ramp::run;
use std::io;

fn main() -> io::Result<()> {
    let out = io::BufWriter::new(io::stdout().lock());
    run(io::stdin().lock(), out)
}
