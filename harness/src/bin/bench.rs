//! Ticks and calls a second of the archive ("ours") and the plain unit, in one
//! run: `bench`. For a count of instructions: `bench --one CASE ours|plain TICKS`.

use harness::archive::Archive;
use harness::plain::*;
use harness::unit::Unit;
use std::hint::black_box;
use std::process::ExitCode;
use std::time::{Duration, Instant};

const CHUNK: u32 = MAX_TICKS;
const ROUND: Duration = Duration::from_millis(200);
const ROUNDS: u32 = 3;

/// Motors side by side over all channels.
#[derive(Clone, Copy)]
struct Motors {
    /// Channels of each.
    size: usize,
    period: u16,
    /// By TCR2.
    slow: bool,
    /// At high, middle and low level in turn, not all at high.
    mixed: bool,
}

struct Case {
    name: &'static str,
    what: &'static str,
    /// None at rest.
    motors: Option<Motors>,
    pace: Pace,
}

/// How the ticks come.
#[derive(PartialEq)]
enum Pace {
    /// In advances of 4,096.
    Chunks,
    /// One by one.
    Ticks,
    /// One by one, with targets and a request in every tick.
    Busy,
}

const FOUR: Motors = Motors {
    size: 4,
    period: 128,
    slow: false,
    mixed: false,
};
const EIGHT: Motors = Motors { size: 2, ..FOUR };

const CASES: [Case; 9] = [
    Case {
        name: "rest",
        what: "all at rest",
        motors: None,
        pace: Pace::Chunks,
    },
    Case {
        name: "four-400",
        what: "4 motors of 4 channels, period 400",
        motors: Some(Motors {
            period: 400,
            ..FOUR
        }),
        pace: Pace::Chunks,
    },
    Case {
        name: "four-128",
        what: "4 motors of 4 channels, period 128",
        motors: Some(FOUR),
        pace: Pace::Chunks,
    },
    Case {
        name: "four-mixed",
        what: "4 motors of 4 channels, period 128, mixed levels",
        motors: Some(Motors {
            mixed: true,
            ..FOUR
        }),
        pace: Pace::Chunks,
    },
    Case {
        name: "slow-128",
        what: "4 motors of 4 channels by TCR2, period 128",
        motors: Some(Motors { slow: true, ..FOUR }),
        pace: Pace::Chunks,
    },
    Case {
        name: "eight-128",
        what: "8 motors of 2 channels, period 128",
        motors: Some(EIGHT),
        pace: Pace::Chunks,
    },
    Case {
        name: "eight-mixed",
        what: "8 motors of 2 channels, period 128, mixed levels",
        motors: Some(Motors {
            mixed: true,
            ..EIGHT
        }),
        pace: Pace::Chunks,
    },
    Case {
        name: "eight-ticks",
        what: "8 motors of 2 channels, period 128, tick by tick",
        motors: Some(EIGHT),
        pace: Pace::Ticks,
    },
    Case {
        name: "busy",
        what: "4 motors, a request and targets in every tick",
        motors: Some(FOUR),
        pace: Pace::Busy,
    },
];

fn put(unit: &mut dyn Unit, address: u16, value: u16) {
    unit.write(address, value).expect("a write that is taken");
}

fn word_address(c: usize, w: usize) -> u16 {
    PARAMETERS + 16 * c as u16 + 2 * w as u16
}

impl Motors {
    fn primaries(self) -> impl Iterator<Item = usize> {
        (0..16).step_by(self.size)
    }

    fn priority(self, c: usize) -> u16 {
        match c / self.size % 3 {
            turn if self.mixed => 3 - turn as u16,
            _ => 3,
        }
    }

    /// Every channel initialised.
    fn initialise(self, unit: &mut dyn Unit) {
        let control = if self.slow { 0x00E1 } else { 0x0081 };
        let mut levels = [0; 2];
        for c in 0..16 {
            put(unit, CFSR0 + 2 * (c as u16 / 4), 0xDDDD);
            put(unit, word_address(c, PIN_CONTROL), 0xCCCC);
            put(unit, word_address(c, CHANNEL_CONTROL), control);
            levels[1 - c / 8] |= self.priority(c) << (2 * (c % 8));
        }
        put(unit, CPR0, levels[0]);
        put(unit, CPR0 + 2, levels[1]);
        put(unit, HSRR0, 0xAAAA);
        put(unit, HSRR0 + 2, 0xAAAA);
        unit.advance(16, &mut [0; 16]).expect("a tick a channel");
    }

    /// On their way from the middle.
    fn start(self, unit: &mut dyn Unit) {
        self.initialise(unit);
        for c in self.primaries() {
            let last = (c + self.size - 1) as u16;
            put(unit, word_address(c, POSITION), 0x8000);
            put(unit, word_address(c, TARGET), 0xC000);
            put(unit, word_address(c, MOD_AND_RATE), 1);
            put(unit, word_address(c, COUNT_AND_LAST), 0x0300 | last);
            put(unit, word_address(c + 1, STEP_CNTL1), self.period);
            request(unit, c).expect("a request that is taken");
        }
    }

    /// A target for each motor; how many that were.
    fn send(self, unit: &mut dyn Unit, target: u16) -> u64 {
        for c in self.primaries() {
            put(unit, word_address(c, TARGET), target);
        }
        self.primaries().count() as u64
    }
}

fn request(unit: &mut dyn Unit, c: usize) -> Result<(), u8> {
    unit.write(HSRR0 + 2 * (1 - c as u16 / 8), 3 << (2 * (c % 8)))
}

/// Targets far enough apart that no motor arrives between two of them.
fn there_and_back(i: u32) -> u16 {
    if i & 1 == 0 {
        0x2000
    } else {
        0xE000
    }
}

impl Case {
    fn begin(&self, unit: &mut dyn Unit) {
        unit.reset();
        if let Some(motors) = self.motors {
            motors.start(unit);
        }
    }

    /// Four chunks, or as many ticks one by one; the calls that it took.
    fn go(&self, unit: &mut dyn Unit, i: u32, list: &mut [u16]) -> u64 {
        let mut calls = 0;
        if let (Pace::Busy, Some(motors)) = (&self.pace, self.motors) {
            for tick in 0..CHUNK {
                calls += motors.send(unit, there_and_back(tick));
                unit.advance(1, list).expect("a tick");
                // Refused where a match went before the motor's latest one.
                let _ = request(unit, motors.size * (tick as usize % 4));
                calls += 2;
            }
            return calls;
        }
        if let Some(motors) = self.motors {
            calls += motors.send(unit, there_and_back(i));
        }
        let (times, chunk) = match self.pace {
            Pace::Chunks => (4, CHUNK),
            _ => (CHUNK, 1),
        };
        for _ in 0..times {
            unit.advance(chunk, list).expect("ticks");
        }
        calls + u64::from(times)
    }

    fn ticks(&self) -> u64 {
        u64::from(if self.pace == Pace::Chunks {
            4 * CHUNK
        } else {
            CHUNK
        })
    }
}

/// In millions a second.
#[derive(Clone, Copy, Default)]
struct Speed {
    ticks: f64,
    calls: f64,
}

/// The best of some rounds, since others use the machine too.
fn best(mut round: impl FnMut() -> (u64, u64)) -> Speed {
    let mut best = Speed::default();
    for _ in 0..ROUNDS {
        let start = Instant::now();
        let (mut ticks, mut calls) = (0, 0);
        while start.elapsed() < ROUND {
            let more = round();
            ticks += more.0;
            calls += more.1;
        }
        let microseconds = start.elapsed().as_secs_f64() * 1e6;
        best.ticks = best.ticks.max(ticks as f64 / microseconds);
        best.calls = best.calls.max(calls as f64 / microseconds);
    }
    best
}

fn measure(case: &Case, unit: &mut dyn Unit) -> Speed {
    let mut list = vec![0; CHUNK as usize];
    let mut i = 0;
    case.begin(unit);
    best(|| {
        let calls = case.go(unit, i, &mut list);
        i += 1;
        (case.ticks(), calls)
    })
}

fn measure_fill() -> Speed {
    let mut list = vec![0u16; CHUNK as usize];
    best(|| {
        for word in 0..64 {
            black_box(&mut list[..]).fill(black_box(word));
        }
        (64 * u64::from(CHUNK), 0)
    })
}

fn table() {
    println!("million ticks, and thousand calls, a second");
    println!(
        "{:<52}{:>10}{:>10}{:>8}{:>12}{:>12}",
        "", "ours", "plain", "ratio", "ours calls", "plain calls"
    );
    for case in &CASES {
        let ours = measure(case, &mut Archive::new());
        let plain = measure(case, &mut Plain::default());
        println!(
            "{:<52}{:>10.2}{:>10.2}{:>8.2}{:>12.1}{:>12.1}",
            case.what,
            ours.ticks,
            plain.ticks,
            ours.ticks / plain.ticks,
            ours.calls * 1e3,
            plain.calls * 1e3
        );
    }
    let fill = measure_fill();
    println!(
        "{:<52}{:>10}{:>10.1}",
        "slice.fill of the list, for the rest", "", fill.ticks
    );
}

fn one(arguments: &[String]) -> Option<()> {
    let [name, side, ticks] = arguments else {
        return None;
    };
    let case = CASES.iter().find(|case| case.name == name)?;
    let ticks: u64 = ticks.parse().ok()?;
    let (mut ours, mut plain) = (Archive::new(), Plain::default());
    let unit: &mut dyn Unit = match side.as_str() {
        "ours" => &mut ours,
        "plain" => &mut plain,
        _ => return None,
    };
    let mut list = vec![0; CHUNK as usize];
    case.begin(unit);
    let rounds = ticks.div_ceil(case.ticks());
    let calls: u64 = (0..rounds)
        .map(|i| case.go(unit, i as u32, &mut list))
        .sum();
    println!("{} ticks, {calls} calls", rounds * case.ticks());
    Some(())
}

fn main() -> ExitCode {
    let arguments: Vec<String> = std::env::args().skip(1).collect();
    match arguments.split_first() {
        None => table(),
        Some((flag, rest)) if flag == "--one" && one(rest).is_some() => {}
        Some(_) => {
            let names = CASES.map(|case| case.name).join("|");
            eprintln!("usage: bench, or bench --one {names} ours|plain TICKS");
            return ExitCode::from(2);
        }
    }
    ExitCode::SUCCESS
}
