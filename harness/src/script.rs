//! The script program of document 01, over any unit.

use crate::calls::Call;
use crate::unit::Unit;
use std::io::{self, BufRead, Write};

/// The line that asks for this call, if there is one: a script has three
/// digits for an address, and lends a list that is long enough.
pub fn line(call: Call) -> Option<String> {
    match call {
        Call::Read(address) if address <= 0xFFF => Some(format!("R {address:03X}")),
        Call::Write(address, value) if address <= 0xFFF => {
            Some(format!("W {address:03X} {value:04X}"))
        }
        Call::Advance(n, length) if n <= 9999 && n as usize <= length => Some(format!("T {n}")),
        _ => None,
    }
}

/// One line that means something.
enum Line {
    Write(u16, u16),
    Read(u16),
    Ticks(u32),
}

/// A unit with what the program remembers between lines.
pub struct Script<U> {
    unit: U,
    ticks: u64,
    pins: u16,
    list: Vec<u16>,
}

impl<U: Unit> Script<U> {
    /// The unit must be in the reset state.
    pub fn new(unit: U) -> Script<U> {
        Script {
            unit,
            ticks: 0,
            pins: 0,
            list: vec![0; 10_000],
        }
    }

    /// Reads to the end of the input and answers line by line.
    pub fn run(&mut self, mut input: impl BufRead, mut out: impl Write) -> io::Result<()> {
        let mut line = Vec::new();
        while input.read_until(b'\n', &mut line)? > 0 {
            if line.last() == Some(&b'\n') {
                line.pop();
            }
            self.answer(&line, &mut out)?;
            line.clear();
        }
        out.flush()
    }

    fn answer(&mut self, line: &[u8], out: &mut impl Write) -> io::Result<()> {
        let refused = match parse(line) {
            None => return writeln!(out, "E"),
            Some(Line::Write(address, value)) => match self.unit.write(address, value) {
                Ok(()) => return writeln!(out, "W"),
                Err(number) => number,
            },
            Some(Line::Read(address)) => match self.unit.read(address) {
                Ok(word) => return writeln!(out, "R {word:04X}"),
                Err(number) => number,
            },
            Some(Line::Ticks(n)) => match self.unit.advance(n, &mut self.list) {
                Ok(()) => return self.report_ticks(n, out),
                Err(number) => number,
            },
        };
        writeln!(out, "N {refused}")
    }

    fn report_ticks(&mut self, n: u32, out: &mut impl Write) -> io::Result<()> {
        for &word in &self.list[..n as usize] {
            self.ticks += 1;
            if word != self.pins {
                writeln!(out, "P {} {:04X}", self.ticks, word)?;
                self.pins = word;
            }
        }
        writeln!(out, "T {n}")
    }
}

fn parse(line: &[u8]) -> Option<Line> {
    let rest = line.get(2..)?;
    match &line[..2] {
        b"W " if rest.len() == 8 && rest[3] == b' ' => Some(Line::Write(
            hexadecimal(&rest[..3])?,
            hexadecimal(&rest[4..])?,
        )),
        b"R " if rest.len() == 3 => Some(Line::Read(hexadecimal(rest)?)),
        b"T " if (1..=4).contains(&rest.len()) => Some(Line::Ticks(decimal(rest)?)),
        _ => None,
    }
}

/// At most four digits, upper case.
fn hexadecimal(digits: &[u8]) -> Option<u16> {
    let mut number = 0;
    for &digit in digits {
        let value = match digit {
            b'0'..=b'9' => digit - b'0',
            b'A'..=b'F' => digit - b'A' + 10,
            _ => return None,
        };
        number = number << 4 | u16::from(value);
    }
    Some(number)
}

fn decimal(digits: &[u8]) -> Option<u32> {
    let mut number = 0;
    for &digit in digits {
        if !digit.is_ascii_digit() {
            return None;
        }
        number = number * 10 + u32::from(digit - b'0');
    }
    Some(number)
}
