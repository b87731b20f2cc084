//! Random lines for the ramp program, good and bad: `sheets SEED COUNT`.

use harness::ramp::random_line;
use harness::random::Random;
use std::io::{self, Write};

fn main() -> io::Result<()> {
    let numbers: Vec<u64> = std::env::args().skip(1).flat_map(|a| a.parse()).collect();
    let [seed, count] = numbers[..] else {
        eprintln!("usage: sheets SEED COUNT");
        std::process::exit(2);
    };
    let mut random = Random::new(seed);
    let mut out = io::BufWriter::new(io::stdout().lock());
    for _ in 0..count {
        out.write_all(&random_line(&mut random))?;
        out.write_all(b"\n")?;
    }
    out.flush()
}
