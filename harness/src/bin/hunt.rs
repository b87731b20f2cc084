//! Runs random call lists on the archive and on the plain unit, judges the
//! archive by term 3, and prints what occurred:
//! `hunt [--seeds FIRST..END] [--calls CALLS_OF_A_LIST]`.

use harness::hunt::Hunt;
use std::ops::Range;
use std::process::ExitCode;
use std::time::Instant;

struct Wanted {
    seeds: Range<u64>,
    calls: usize,
}

fn wanted() -> Option<Wanted> {
    let mut wanted = Wanted {
        seeds: 1..101,
        calls: 1000,
    };
    let mut arguments = std::env::args().skip(1);
    while let Some(name) = arguments.next() {
        let value = arguments.next()?;
        match name.as_str() {
            "--seeds" => {
                let (first, end) = value.split_once("..")?;
                wanted.seeds = first.parse().ok()?..end.parse().ok()?;
            }
            "--calls" => wanted.calls = value.parse().ok()?,
            _ => return None,
        }
    }
    Some(wanted)
}

fn main() -> ExitCode {
    let Some(Wanted { seeds, calls }) = wanted() else {
        eprintln!("usage: hunt [--seeds FIRST..END] [--calls CALLS_OF_A_LIST]");
        return ExitCode::from(2);
    };
    println!("seeds {seeds:?}, {calls} calls each");
    let start = Instant::now();
    let mut hunt = Hunt::default();
    for seed in seeds {
        if let Err(text) = hunt.list(seed, calls) {
            println!("{text}");
            return ExitCode::FAILURE;
        }
    }
    print!("{hunt}");
    println!("{:>12.1} seconds", start.elapsed().as_secs_f64());
    match hunt.missing() {
        Some(name) => {
            println!("never: {name}");
            ExitCode::FAILURE
        }
        None => ExitCode::SUCCESS,
    }
}
