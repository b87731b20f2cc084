//! The script program over the plain unit: standard input to standard output.

use harness::plain::Plain;
use harness::script::Script;
use std::io;

fn main() -> io::Result<()> {
    let out = io::BufWriter::new(io::stdout().lock());
    Script::new(Plain::default()).run(io::stdin().lock(), out)
}
