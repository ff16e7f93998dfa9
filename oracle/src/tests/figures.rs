//! SCOPE's checked figures and its listing example, asked of the reference.

use std::io::{self, Write};

use super::{leaf, listing};
use crate::ssd1677::reference::gdeq0426t82_otp;

/// A question to a single function, and SCOPE's answer.
const QUESTIONS: [(&str, &str); 14] = [
    ("source_millivolts 75", "1 17000"),
    ("source_millivolts 76", "0 0"),
    ("vsl_millivolts 58", "1 -17000"),
    ("vsl_millivolts 59", "0 0"),
    ("vcom_millivolts 8", "1 -200"),
    ("vcom_millivolts 4", "0 0"),
    ("from_register 2048", "-2048"),
    ("from_register 2047", "2047"),
    ("ten_bits 679 0 0", "512"),
    ("ten_bits 512 1 255", "768"),
    // The whole RAM but for the x window: y steps from 0 to 1.
    ("advance 16 0 13 23 0 679 3", "13 1"),
    ("ram_row_of_gate 5 1 0 680", "1 342"),
    ("ram_row_of_gate 680 1 0 680", "0 0"),
    ("ram_row_of_gate 4 0 1 5", "0 0"),
];

const SWING: &str = "6000000000000";

/// The cut, the state after it and its grey, from white under LUT 2 of the Mode Two setting.
const STATES: [(&str, &str, &str); 4] = [
    ("0 0", "300000000000", "13"),
    ("1 100000000", "4500000000000", "191"),
    ("1 99999999", "4800000000000", "204"),
    ("1 0", SWING, "255"),
];

const LISTING: &str = "  0  0  19   1 20000000      0 -15000  15000      0
  0  1   6   1 20000000      0      0      0      0
           500000000
";

/// Writes each figure with what the reference says; whether all agree.
pub(super) fn run(out: &mut impl Write) -> io::Result<bool> {
    let mut agreed = true;
    let mut figure = |question: &str, expected: &str, answer: &str| {
        let verdict = if answer == expected {
            "agrees"
        } else {
            "DIFFERS"
        };
        agreed &= answer == expected;
        writeln!(
            out,
            "{verdict}: {question}: {expected}, the reference {answer}"
        )
    };
    let ask = |question: &str| leaf::answer(question).unwrap_or_else(|| "bad question".to_owned());
    for (question, expected) in QUESTIONS {
        figure(question, expected, &ask(question))?;
    }
    let setting = gdeq0426t82_otp()[2].setting;
    let bytes: Vec<String> = setting.iter().map(u8::to_string).collect();
    let waveform = format!("{} {}", ["20000000"; 16].join(" "), bytes.join(" "));
    for (cut, state, grey) in STATES {
        let transfer = ask(&format!("transfer 0 2 {SWING} 1 {cut} {waveform}"));
        let reached = ask(&format!("apply {transfer} {SWING}"));
        figure(&format!("Mode Two, LUT 2, cut {cut}"), state, &reached)?;
        let shown = ask(&format!("gray {reached} {SWING}"));
        figure(&format!("gray {reached} {SWING}"), grey, &shown)?;
    }
    let text = listing::listing(&setting);
    figure("the listing example", LISTING, &text)?;
    figure(
        "the listing of 111 bytes",
        " 41\n",
        &listing::listing(&setting[1..]),
    )?;
    Ok(agreed)
}
