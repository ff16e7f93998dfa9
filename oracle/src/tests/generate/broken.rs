//! Runs that end at a bad line: two good lines, the bad one, and a good one that must not be read.

use crate::ssd1677::tests::configuration::{FIELDS, largest};
use crate::ssd1677::tests::line::{largest_of_state, longest};

fn line(number: u128, kind: u32, value: u32) -> String {
    format!("{number:20}{kind:2}{value:4}\n")
}

/// Numbers that are too large, columns that are not 0 and kinds that there are none of.
fn numbers() -> Vec<String> {
    let mut lines = vec![
        line(0, 1, 256),
        line(0, 2, 256),
        line(0, 4, 2),
        line(65_536, 9, 0),
        line(256, 12, 0),
        line(1 << 64, 5, 0),
        line(99_999_999_999_999_999_999, 5, 0),
        line(0, 11, FIELDS as u32),
    ];
    lines.extend([0, 19, 20, 99].map(|kind| line(0, kind, 0)));
    lines.extend([3, 5, 6, 7, 8, 9, 13, 14, 17, 18].map(|kind| line(0, kind, 1)));
    lines.extend([7, 10, 13, 14, 17, 18].map(|kind| line(1, kind, 0)));
    for field in 0..FIELDS {
        if largest(field) < u64::MAX {
            let number = u128::from(largest(field)) + 1;
            lines.push(line(number, 11, field as u32));
        }
    }
    for value in 0..=32 {
        let buffer = longest(value).map_or(0, |most| u128::from(most) + 1);
        let field = largest_of_state(value).map_or(0, |most| u128::from(most) + 1);
        lines.push(line(buffer, 15, value.into()));
        lines.push(line(field, 16, value.into()));
    }
    lines
}

/// Lines that are not of 26 bytes and LF, and columns that are no such number.
fn forms() -> Vec<String> {
    let good = line(12, 5, 0);
    let without_line_feed = good.trim_end().to_owned();
    let mut lines = vec![
        without_line_feed.clone(),
        format!("{without_line_feed}\r\n"),
        format!(" {good}"),
        good[1..].to_owned(),
        "\n".to_owned(),
        good.replace('\n', " ") + "\n",
        " ".repeat(26) + "\n",
        good[..20].to_owned(),
    ];
    let columns = [
        ("                    ", " 5", "   0"),
        ("                  12", "  ", "   0"),
        ("                  12", " 5", "    "),
        ("                 012", " 5", "   0"),
        ("00000000000000000012", " 5", "   0"),
        ("                  12", "05", "   0"),
        ("                  12", " 5", "  00"),
        ("12                  ", " 5", "   0"),
        ("                 1 2", " 5", "   0"),
        ("                  12", "5 ", "   0"),
        ("                  12", " 5", "0   "),
        ("                 +12", " 5", "   0"),
        ("                 -12", " 5", "   0"),
        ("                 -00", " 5", "   0"),
        ("                  1x", " 5", "   0"),
        ("                 0x1", " 5", "   0"),
        ("\t                 12", " 5", "   0"),
        ("                \n 12", " 5", "   0"),
        ("                  12", "\t5", "   0"),
        ("                  12", " 5", "  -0"),
        ("                  12", " 5", "  +0"),
        ("                  12", " 5", " 1.0"),
    ];
    lines.extend(columns.map(|(number, kind, value)| format!("{number}{kind}{value}\n")));
    lines
}

/// The run with bad line number `way`; `None` past the last.
pub(super) fn run(way: usize) -> Option<String> {
    let bad = numbers().into_iter().chain(forms()).nth(way)?;
    let case = line(0, 10, 1);
    // A last line without LF is bad only when it is the last.
    let after = if bad.ends_with('\n') { &case } else { "" };
    Some(format!("{case}{}{bad}{after}", line(1, 11, 0)))
}
