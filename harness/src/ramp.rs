//! The ramp program of change request #101: from a motor sheet to the two
//! words of a ramp. Written from the papers only, in whole numbers wherever
//! the papers do not ask for a float.

use crate::random::Random;
use std::io::{self, BufRead, Write};

/// What the sheet says: the slowest period and the difference between
/// neighbours, or the slowest and the fastest speed.
#[derive(Clone, Copy, Debug, PartialEq)]
pub enum Ramp {
    Periods(f64, f64),
    Speeds(f64, f64),
}

/// The longest period, and the largest difference, in counts.
const LONGEST: i64 = 0x7FFF;

/// STEP_CNTL0 and STEP_CNTL1, or nothing for a ramp that is refused.
pub fn from_sheet(ramp: Ramp, tick: f64, n: u8) -> Option<(u16, u16)> {
    if !(1..=14).contains(&n) || !is_size(tick) {
        return None;
    }
    let gaps = i64::from(n) - 1;
    let (first, difference) = match ramp {
        Ramp::Periods(slowest, difference) => {
            if !is_size(slowest) || !(is_size(difference) || difference == 0.0) {
                return None;
            }
            (period(slowest, tick)?, nearest(difference / tick)?)
        }
        Ramp::Speeds(slowest, fastest) => {
            if !is_size(slowest) || !is_size(fastest) || fastest < slowest {
                return None;
            }
            let first = period(1000.0 / slowest, tick)?;
            let last = period(1000.0 / fastest, tick)?;
            match gaps {
                0 => (first, 0),
                _ => (first, (2 * (first - last) + gaps) / (2 * gaps)),
            }
        }
    };
    let start = first + 2 * difference;
    let last = first - gaps * difference;
    if difference > LONGEST || start > 0xFFFF || last < 1 {
        return None;
    }
    Some((difference as u16, start as u16))
}

/// Finite and above zero.
fn is_size(number: f64) -> bool {
    number > 0.0 && number < f64::INFINITY
}

/// A period in counts, if the unit has room for it.
fn period(milliseconds: f64, tick: f64) -> Option<i64> {
    nearest(milliseconds / tick).filter(|count| (1..=LONGEST).contains(count))
}

/// The whole number nearest to a quotient that is not negative, halves upward.
/// Nothing from 2 to the 53rd on, which is above every limit.
fn nearest(quotient: f64) -> Option<i64> {
    let bits = quotient.to_bits();
    let fraction = bits & ((1 << 52) - 1);
    // The quotient is the mantissa, halved so many times.
    let (mantissa, halvings) = match (bits >> 52) & 0x7FF {
        0 => (fraction, 1074),
        exponent => (fraction | 1 << 52, 1075 - exponent as i64),
    };
    match halvings {
        ..=0 => None,
        1..=53 => Some(((mantissa + (1 << (halvings - 1))) >> halvings) as i64),
        _ => Some(0),
    }
}

/// The answer to a line, either without its LF.
pub fn answer(line: &[u8]) -> String {
    let Some((ramp, tick, n)) = parse(line) else {
        return "E".to_string();
    };
    let Some((difference, start)) = from_sheet(ramp, tick, n) else {
        return "N 11".to_string();
    };
    let letter = line[0] as char;
    let mut text = format!("{letter} {difference:04X} {start:04X}");
    for r in 1..=i32::from(n) {
        let period = i32::from(start) - i32::from(difference) * (1 + r);
        text += &format!(" {period}");
    }
    text
}

/// Reads to the end of the input and answers line by line.
pub fn run(mut input: impl BufRead, mut out: impl Write) -> io::Result<()> {
    let mut line = Vec::new();
    while input.read_until(b'\n', &mut line)? > 0 {
        let bare = line.strip_suffix(b"\n").unwrap_or(&line);
        writeln!(out, "{}", answer(bare))?;
        line.clear();
    }
    out.flush()
}

fn parse(line: &[u8]) -> Option<(Ramp, f64, u8)> {
    let fields: Vec<&[u8]> = line.split(|&byte| byte == b' ').collect();
    let [letter, one, two, tick, n] = fields[..] else {
        return None;
    };
    let (one, two, tick) = (decimal(one)?, decimal(two)?, decimal(tick)?);
    let ramp = match letter {
        b"P" => Ramp::Periods(one, two),
        b"S" => Ramp::Speeds(one, two),
        _ => return None,
    };
    let number = || n.iter().fold(0, |n, digit| 10 * n + (digit - b'0'));
    (is_digits(n) && n.len() <= 2).then(|| (ramp, tick, number()))
}

fn decimal(text: &[u8]) -> Option<f64> {
    let (whole, digits) = match text.iter().position(|&byte| byte == b'.') {
        None => (text, text.len()),
        Some(at) if is_digits(&text[at + 1..]) => (&text[..at], text.len() - 1),
        Some(_) => return None,
    };
    if !is_digits(whole) || digits > 15 {
        return None;
    }
    std::str::from_utf8(text).ok()?.parse().ok()
}

/// One digit at least, and nothing else.
fn is_digits(text: &[u8]) -> bool {
    !text.is_empty() && text.iter().all(u8::is_ascii_digit)
}

/// A line of use, without its LF: mostly a ramp, taken or refused.
pub fn random_line(random: &mut Random) -> Vec<u8> {
    let n = match random.below(12) {
        0 => random.below(100),
        1 => random.pick(&[0, 1, 14, 15]),
        _ => random.between(1, 14),
    };
    let tick = match random.below(6) {
        0 => f64::from(random.between(1, 99_999)) / 1e5,
        _ => random.pick(&[0.01, 0.001, 0.016, 0.25, 0.004, 5e-4, 0.003, 0.1]),
    };
    let periods = random.one_in(2);
    let (scales, shares) = match periods {
        true => ([0.001, 0.01, 0.1], [0.0, 0.01, 0.05, 0.1, 1.0]),
        false => ([0.1, 1.0, 10.0], [0.9, 1.0, 1.25, 1.5, 3.0]),
    };
    let (one, two) = if random.one_in(4) {
        let slowest = f64::from(random.between(1, 4000)) * random.pick(&scales);
        (slowest, slowest * random.pick(&shares))
    } else if periods {
        let slowest = count(random);
        (
            slowest * tick,
            difference(slowest, n, random).max(0.0) * tick,
        )
    } else {
        let slowest = count(random).max(0.125);
        let fastest = match random.below(8) {
            0 => slowest,
            1 => count(random).max(0.125),
            2 => f64::from(random.between(1, 6)) * 0.4,
            _ => slowest * f64::from(random.between(1, 100)) / 100.0,
        };
        (1000.0 / (slowest * tick), 1000.0 / (fastest * tick))
    };
    let (one, two) = (written(one, random), written(two, random));
    let letter = if periods { "P" } else { "S" }.to_string();
    let fields = vec![letter, one, two, tick.to_string(), n.to_string()];
    match random.below(10) {
        0 => spoilt(fields, random),
        _ => fields.join(" ").into_bytes(),
    }
}

/// A period in counts: any, a short one or one at a limit; often near a half.
fn count(random: &mut Random) -> f64 {
    let whole = match random.below(6) {
        0 => random.pick(&[0, 1, 2, 0x7FFE, 0x7FFF, 0x7FFF, 0x8000, 0xFFFF]),
        1 | 2 => random.between(1, 40),
        _ => random.between(1, 0x7FFF),
    };
    let more = random.pick(&[0.0, 0.0, -0.5, 0.5, 0.4999999, -0.5000001]);
    (f64::from(whole) + more).max(0.0)
}

/// A difference in counts: any, none, or one about the limit of P(N) or of STEP_CNTL1.
fn difference(slowest: f64, n: u32, random: &mut Random) -> f64 {
    let largest = (slowest - 1.0) / f64::from(n.max(2) - 1);
    let near = random.pick(&[-1.0, -0.5, 0.0, 0.5, 1.0]);
    match random.below(8) {
        0 => count(random),
        1 => largest.floor() + near,
        2 => (32767.5 - slowest / 2.0).floor() + near,
        _ => (largest * f64::from(random.below(100)) / 100.0).floor(),
    }
}

/// A number in at most 15 digits, often in all of them.
fn written(value: f64, random: &mut Random) -> String {
    let room = 15 - format!("{value:.0}").len();
    let text = format!("{value:.*}", random.pick(&[2, 3, 6, 15, 15]).min(room));
    match random.below(16) {
        0 if text.len() < 14 => format!("00{text}"),
        1..=8 if text.contains('.') => text.trim_end_matches('0').trim_end_matches('.').into(),
        _ => text,
    }
}

#[rustfmt::skip]
const WRONG: [&str; 34] = [
    "", "+1", "-1", "-0", "1e3", "1E0", ".5", "5.", ".", "1.2.3", "1..2", "1,5", "1_0", "0x1", "inf", "NaN", "p", "s", "Q", "PS", "007",
    "100", "3.0", "1\t", "1\r", "\u{b5}", "\u{661}", "1\0", "1234567890.123456", "0000000000000001", "0.000000000000001", "0", "0.0", "1/2",
];

/// A line with something wrong, or once in a while with nothing.
fn spoilt(mut fields: Vec<String>, random: &mut Random) -> Vec<u8> {
    let (kind, field) = (random.below(18), random.below(5) as usize);
    match kind {
        0..=4 => fields[field] = random.pick(&WRONG).to_string(),
        5 => fields.insert(field, random.pick(&["", "1", "P"]).to_string()),
        6 => drop(fields.remove(field)),
        _ => {}
    }
    let between = [" ", "  ", "\t", ","][kind.max(14) as usize - 14];
    let mut line = fields.join(between).into_bytes();
    let place = random.below(line.len() as u32) as usize;
    let byte = random.below(256) as u8;
    match kind {
        7 => line.insert(0, b' '),
        8 => line.push(random.pick(b" \r\t.0")),
        9 => line.insert(place, byte),
        10 => line[place] = byte,
        11 => drop(line.remove(place)),
        12 => line.truncate(place),
        13 => line.make_ascii_lowercase(),
        14 => line = line.repeat(random.between(2, 40) as usize),
        _ => {}
    }
    line.retain(|&byte| byte != b'\n');
    line
}
