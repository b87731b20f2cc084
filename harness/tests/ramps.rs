//! The plain model of the ramp program, by itself.

use harness::ramp::{answer, from_sheet, random_line, run, Ramp, Ramp::*};
use harness::random::Random;
use std::fs;
use std::path::Path;

const LINES: usize = 100_000;

/// The next float below 0.5.
const BELOW_HALF: f64 = 0.499_999_999_999_999_94;

fn refused(ramp: Ramp, tick: f64, n: u8) {
    assert_eq!(from_sheet(ramp, tick, n), None, "{ramp:?} {tick} {n}");
}

fn taken(ramp: Ramp, tick: f64, n: u8, words: (u16, u16)) {
    assert_eq!(
        from_sheet(ramp, tick, n),
        Some(words),
        "{ramp:?} {tick} {n}"
    );
}

#[test]
fn examples() {
    taken(Periods(4.0, 0.2), 0.01, 10, (20, 440));
    taken(Speeds(30.0, 42.9), 0.01, 14, (77, 3487));
    assert_eq!(
        answer(b"P 4.0 0.2 0.01 10"),
        "P 0014 01B8 400 380 360 340 320 300 280 260 240 220"
    );
    assert_eq!(
        answer(b"S 30.0 42.9 0.01 14"),
        "S 004D 0D9F 3333 3256 3179 3102 3025 2948 2871 2794 2717 2640 2563 2486 2409 2332"
    );
}

#[test]
fn n_is_from_1_to_14() {
    for n in 0..=255 {
        let words = (1..=14).contains(&n).then_some((0, 400));
        assert_eq!(from_sheet(Periods(4.0, 0.0), 0.01, n), words);
        assert_eq!(from_sheet(Speeds(250.0, 250.0), 0.01, n), words);
    }
}

#[test]
fn numbers_are_finite_and_above_zero() {
    let smallest = f64::from_bits(1);
    for bad in [f64::NAN, f64::INFINITY, -f64::INFINITY, -4.0, 0.0, -0.0] {
        refused(Periods(bad, 0.2), 0.01, 10);
        refused(Periods(4.0, 0.2), bad, 10);
        refused(Periods(4.0, 0.0), bad, 1);
        refused(Speeds(bad, 42.9), 0.01, 14);
        refused(Speeds(30.0, bad), 0.01, 14);
        refused(Speeds(30.0, bad), 0.01, 1);
        refused(Speeds(bad, bad), 0.01, 1);
        refused(Speeds(30.0, 42.9), bad, 14);
        if bad != 0.0 {
            refused(Periods(4.0, bad), 0.01, 1);
        }
    }
    refused(Periods(4.0, -smallest), 0.01, 1);
    taken(Periods(4.0, smallest), 0.01, 1, (0, 400));
    taken(Periods(4.0, 0.0), 0.01, 14, (0, 400));
    taken(Periods(4.0, -0.0), 0.01, 14, (0, 400));
    taken(Periods(smallest, 0.0), smallest, 1, (0, 1));
}

#[test]
fn top_speed_is_not_below_the_slowest() {
    taken(Speeds(250.0, 250.0), 0.01, 14, (0, 400));
    refused(Speeds(250.0, 249.999_999_999_999_97), 0.01, 14);
    refused(Speeds(250.0, 249.999_999_999_999_97), 0.01, 1);
}

#[test]
fn periods_fit() {
    taken(Periods(0.5, 0.0), 1.0, 14, (0, 1));
    refused(Periods(BELOW_HALF, 0.0), 1.0, 1);
    taken(Periods(32767.0, 0.0), 1.0, 14, (0, 0x7FFF));
    taken(Periods(32_767.499_999_999_996, 0.0), 1.0, 1, (0, 0x7FFF));
    refused(Periods(32767.5, 0.0), 1.0, 1);
    refused(Periods(1e300, 0.0), 1e-300, 1);
    refused(Periods(2f64.powi(64), 0.0), 1.0, 1);
    // Both speeds count, even where only one matters for the words.
    taken(Speeds(250.0, 2000.0), 1.0, 1, (0, 4));
    refused(Speeds(250.0, 2001.0), 1.0, 1);
    refused(Speeds(100.0, 2001.0), 1.0, 4);
    refused(Speeds(1000.0 / 32767.75, 1.0), 1.0, 1);
    taken(Speeds(1000.0 / 32767.25, 1.0), 1.0, 1, (0, 0x7FFF));
    refused(Speeds(1000.0 / 32769.0, 1000.0 / 32768.0), 1.0, 1);
    refused(Speeds(f64::from_bits(1), 250.0), 1.0, 1);
    refused(Speeds(250.0, f64::MAX), 1.0, 1);
}

#[test]
fn difference_and_start_fit() {
    taken(Periods(1.0, 32767.0), 1.0, 1, (0x7FFF, 0xFFFF));
    refused(Periods(1.0, 32768.0), 1.0, 1);
    refused(Periods(1.0, 1e300), 1e-300, 1);
    refused(Periods(2.0, 32767.0), 1.0, 1);
    taken(Periods(32767.0, 16384.0), 1.0, 1, (0x4000, 0xFFFF));
    refused(Periods(32767.0, 16385.0), 1.0, 1);
    taken(Periods(29999.0, 17768.0), 1.0, 2, (17768, 0xFFFF));
    refused(Periods(30000.0, 17768.0), 1.0, 2);
    refused(Speeds(1000.0 / 30000.0, 0.1), 1.0, 2);
}

#[test]
fn last_period_is_at_least_1() {
    taken(Periods(41.0, 20.0), 1.0, 3, (20, 81));
    refused(Periods(40.0, 20.0), 1.0, 3);
    // Periods 5 and 2, then 4 and 1: the difference of 1.5 becomes 2.
    taken(Speeds(200.0, 500.0), 1.0, 3, (2, 9));
    refused(Speeds(250.0, 1000.0), 1.0, 3);
}

#[test]
fn halves_go_upward() {
    taken(Periods(10.5, 1.5), 1.0, 3, (2, 15));
    taken(Periods(10.499_999_999_999_998, BELOW_HALF), 1.0, 3, (0, 10));
    // A float that falls below the half that the decimals have.
    taken(Periods(0.145, 0.0), 0.01, 1, (0, 14));
    taken(Periods(0.035, 0.0), 0.01, 1, (0, 4));
}

#[test]
fn lines_in_form() {
    for line in ["P 4 0 1 5", "P 04.000 0.0 1.0 05", "S 250 250 1 5"] {
        assert!(answer(line.as_bytes()).ends_with(" 0000 0004 4 4 4 4 4"));
    }
    for line in ["P 4 0 1 15", "P 4 0 1 0", "S 250 250 0 99", "P 0 0 0 00"] {
        assert_eq!(answer(line.as_bytes()), "N 11", "{line}");
    }
    for line in ["", "P", "P 4 0 1", "P 4 0 1 ", "P 4 0 1 100", "P 4 0 1 5\r"] {
        assert_eq!(answer(line.as_bytes()), "E", "{line}");
    }
    let mut out = Vec::new();
    run(&b"\nP 4 0 1 1\n\nP 4 0 1 1"[..], &mut out).expect("writing to memory");
    assert_eq!(out, b"E\nP 0000 0004 4\nE\nP 0000 0004 4\n");
}

#[test]
fn random_lines_meet_every_answer() {
    let mut random = Random::new(1);
    let (mut p, mut s, mut n, mut e) = (0, 0, 0, 0);
    for _ in 0..LINES {
        match answer(&random_line(&mut random)).as_bytes()[0] {
            b'P' => p += 1,
            b'S' => s += 1,
            b'N' => n += 1,
            _ => e += 1,
        }
    }
    println!("seed 1, {LINES} lines: {p} P, {s} S, {n} N 11, {e} E");
    assert!([p, s, n, e].iter().all(|&count| count > LINES / 20));
}

#[test]
fn files_give_their_answers() {
    let folder = Path::new(env!("CARGO_MANIFEST_DIR")).join("../tests/ramps");
    let mut files = 0;
    for entry in fs::read_dir(&folder).expect("folder of ramps") {
        let path = entry.expect("entry").path();
        if path.extension().is_some_and(|e| e == "in") {
            let input = fs::read(&path).expect("input");
            let mut out = Vec::new();
            run(&input[..], &mut out).expect("writing to memory");
            let expected = fs::read(path.with_extension("out")).expect("answer");
            assert!(out == expected, "{} differs", path.display());
            files += 1;
        }
    }
    assert!(files > 0, "no files");
}
