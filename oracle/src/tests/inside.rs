//! What the reference's modules keep private even from this one (the states of the glass, the LUT
//! of every pixel, the parts of a decoded waveform), read from the text its derived `Debug` writes.
//! The text holds every field, so nothing is computed a second time here.

use std::fmt::{self, Debug, Write};
use std::str::FromStr;

use crate::glass::Transfer;
use crate::ssd1677::panel::{Display, Panel};
use crate::ssd1677::waveform::Waveform;

/// Text that is written up to a word, if one is given, and no further.
struct Text {
    text: String,
    stop: Option<&'static str>,
}

impl Write for Text {
    fn write_str(&mut self, piece: &str) -> fmt::Result {
        if Some(piece) == self.stop {
            return Err(fmt::Error);
        }
        self.text.push_str(piece);
        Ok(())
    }
}

/// The text of `value`, up to the field named `stop` (one that is large and not asked for).
fn text(value: &impl Debug, stop: Option<&'static str>) -> String {
    let text = String::new();
    let mut out = Text { text, stop };
    // The error that stops the writing is ours.
    let _ = write!(out, "{value:?}");
    out.text
}

/// The numbers of `text` in their order; digits within a name are none.
fn numbers(text: &str) -> Vec<i128> {
    let words = text.split(|c: char| !(c.is_ascii_alphanumeric() || c == '_' || c == '-'));
    words.filter_map(|word| word.parse().ok()).collect()
}

/// What stands in `text` after the first `from` and before the next `to` (or the end).
fn between<'a>(text: &'a str, from: &str, to: &str) -> &'a str {
    let rest = text.split_once(from).map_or("", |(_, rest)| rest);
    rest.split_once(to).map_or(rest, |(part, _)| part)
}

/// A number as the reference writes it.
fn number<T: FromStr>(text: &str) -> T {
    let Ok(number) = text.parse() else {
        panic!("no number: {text}");
    };
    number
}

/// The numbers of a list, separated by a comma and a blank; no list read here is empty.
fn list<T: FromStr>(text: &str) -> Vec<T> {
    text.split(", ").map(number).collect()
}

/// The private fields of the glass.
pub(super) struct Glass {
    pub(super) swing: i64,
    pub(super) gate_of_row: Vec<u16>,
    pub(super) states: Vec<i64>,
    pub(super) border: i64,
}

pub(super) fn glass(panel: &Panel) -> Glass {
    let text = text(panel, Some("image"));
    Glass {
        swing: number(between(&text, "}, swing: ", ",")),
        gate_of_row: list(between(&text, "gate_of_row: [", "]")),
        states: list(between(&text, "states: [", "]")),
        border: number(between(&text, "], border: ", ",")),
    }
}

/// The LUT of every pixel of a running refresh, 255 for an undriven one.
pub(super) fn luts(display: &Display) -> Vec<u8> {
    list(between(&text(display, None), "luts: [", "]"))
}

/// The fields of a transfer: add, lo, hi.
pub(super) fn transfer(transfer: Transfer) -> [i64; 3] {
    let found = numbers(&text(&transfer, None));
    std::array::from_fn(|field| i64::try_from(found[field]).unwrap_or(0))
}

/// The numbers of a decoded waveform, in the order of its fields.
pub(super) fn waveform(waveform: &Waveform) -> Vec<i128> {
    numbers(&text(waveform, None))
}
