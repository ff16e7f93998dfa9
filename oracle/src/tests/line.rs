//! The input lines of docs/replay-format.md.

use std::fmt;

use super::configuration::{FIELDS, largest};

/// NUMBER, KIND and VALUE, then LF.
pub(super) const LINE_BYTES: usize = 27;

/// Decimal digits right-justified in `column`, blanks in front, no leading zeros.
fn column(column: &[u8]) -> Option<u64> {
    let digits = column.trim_ascii_start();
    // `trim_ascii_start` takes other blanks than the space too.
    let blanks = &column[..column.len() - digits.len()];
    let plain = digits.iter().all(u8::is_ascii_digit) && blanks.iter().all(|&b| b == b' ');
    let leading_zero = digits.len() > 1 && digits[0] == b'0';
    if !plain || leading_zero {
        return None;
    }
    // An empty column and a number from 2^64 on fail here.
    std::str::from_utf8(digits).ok()?.parse().ok()
}

/// One line of input.
#[derive(Clone, Copy, Debug, PartialEq, Eq)]
pub(super) struct Line {
    pub(super) number: u64,
    pub(super) kind: u8,
    pub(super) value: u16,
}

impl Line {
    /// The line of `bytes`; `None` when it is none of the format's.
    pub(super) fn parse(bytes: &[u8]) -> Option<Line> {
        if bytes.len() != LINE_BYTES || bytes[LINE_BYTES - 1] != b'\n' {
            return None;
        }
        let line = Line {
            number: column(&bytes[0..20])?,
            kind: u8::try_from(column(&bytes[20..22])?).ok()?,
            value: u16::try_from(column(&bytes[22..26])?).ok()?,
        };
        line.is_listed().then_some(line)
    }

    /// Whether the columns shown as 0 are 0 and every number fits its field.
    fn is_listed(self) -> bool {
        let Line {
            number,
            kind,
            value,
        } = self;
        match kind {
            1 | 2 => value <= 255,
            4 => value <= 1,
            3 | 5 | 6 | 8 => value == 0,
            7 | 13 | 14 | 17 | 18 => number == 0 && value == 0,
            9 => number <= u64::from(u16::MAX) && value == 0,
            10 => number == 0,
            11 => usize::from(value) < FIELDS && number <= largest(usize::from(value)),
            12 => number <= 255,
            15 => longest(value).is_some_and(|most| number <= most),
            16 => largest_of_state(value).is_some_and(|most| number <= most),
            _ => false,
        }
    }
}

/// The longest that the port's buffer `buffer` is lent (kind 15).
pub(super) fn longest(buffer: u16) -> Option<u64> {
    match buffer {
        0..=2 => Some(652_800),
        3 | 4 => Some(81_601),
        5 => Some(680),
        6 => Some(16_385),
        7 => Some(10_000),
        8 => Some(257),
        _ => None,
    }
}

/// The largest number that field `field` of a state handed to the port holds (kind 16).
pub(super) fn largest_of_state(field: u16) -> Option<u64> {
    match field {
        0..=11 => Some(u64::from(u16::MAX)),
        12 | 13 => Some(u64::from(u8::MAX)),
        14..=30 => Some(u64::MAX),
        31 => Some(u64::from(u32::MAX)),
        _ => None,
    }
}

impl fmt::Display for Line {
    fn fmt(&self, f: &mut fmt::Formatter<'_>) -> fmt::Result {
        writeln!(f, "{:20}{:2}{:4}", self.number, self.kind, self.value)
    }
}
