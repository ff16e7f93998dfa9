//! Drive sheets (docs/drive-sheet.md, #104): texts and settings for `sheet_cases`, and what they
//! must be answered with. A setting written here is read back by the reference's own decoder.

use std::fmt::Write as _;
use std::io::{self, Write};

use super::random::Random;
use super::{inside, settings};
use crate::ssd1677::LUT_BYTES;
use crate::ssd1677::reference::gdeq0426t82_otp;
use crate::ssd1677::waveform::{Waveform, source_millivolts, vcom_millivolts, vsl_millivolts};

const GROUPS: usize = 10;
/// Bytes of a group's line and of a text.
const LINE: usize = 52;
const TEXT: usize = 580;
/// Bytes of a case after its first three.
const BODY: usize = TEXT + 1;

const NAMES: [&str; 4] = ["VSH1", "VSH2", "VSL ", "VCOM"];

#[derive(Clone, Debug, PartialEq, Eq)]
struct Group {
    frames: [i64; 4],
    repeats: i64,
    rate: i64,
    codes: [i64; 20],
}

#[derive(Clone, Debug, PartialEq, Eq)]
struct Sheet {
    groups: [Group; GROUPS],
    gate: i64,
    millivolts: [i64; 4],
}

/// What the reference lists for a code of VSH1, VSH2, VSL or VCOM.
fn listed(supply: usize, code: u8) -> Option<i64> {
    match supply {
        0 | 1 => source_millivolts(code),
        2 => vsl_millivolts(code),
        _ => vcom_millivolts(code),
    }
}

fn code_of(supply: usize, millivolts: i64) -> Option<u8> {
    if millivolts == 0 {
        return Some(0);
    }
    (0..=u8::MAX).find(|&code| listed(supply, code) == Some(millivolts))
}

impl Sheet {
    /// What the reference decodes; with the periods 0 to 15 a group's period is its code.
    fn decoded(setting: &[u8; LUT_BYTES]) -> Sheet {
        let codes = std::array::from_fn(|code| code as u64);
        let numbers = inside::waveform(&Waveform::from_setting(setting, &codes));
        let number = |place: usize| i64::try_from(numbers[place]).expect("a number of 64 bits");
        let groups = std::array::from_fn(|group| Group {
            frames: std::array::from_fn(|phase| number(26 * group + phase)),
            repeats: number(26 * group + 4),
            rate: number(26 * group + 5),
            codes: std::array::from_fn(|code| number(26 * group + 6 + code)),
        });
        let vcom = vcom_millivolts(setting[109]).unwrap_or(0);
        Sheet {
            groups,
            gate: setting[105].into(),
            millivolts: [number(260), number(261), number(262), vcom],
        }
    }

    fn text(&self) -> String {
        let mut text = String::new();
        for (number, group) in self.groups.iter().enumerate() {
            let _ = write!(text, "{number:3}");
            for frames in group.frames {
                let _ = write!(text, "{frames:4}");
            }
            let _ = write!(text, "{:4}{:3}", group.repeats, group.rate);
            for lut in group.codes.chunks(4) {
                text.push(' ');
                lut.iter().for_each(|code| text.push_str(&code.to_string()));
            }
            text.push('\n');
        }
        let _ = writeln!(text, "gate{:7}", self.gate);
        for (name, millivolts) in NAMES.iter().zip(self.millivolts) {
            let _ = writeln!(text, "{name}{millivolts:7}");
        }
        text
    }

    /// The setting, or the number of the refusal.
    fn setting(&self) -> Result<[u8; LUT_BYTES], u8> {
        let byte = |number: i64| u8::try_from(number).expect("a byte");
        let mut setting = [0; LUT_BYTES];
        setting[105] = byte(self.gate);
        for (supply, &millivolts) in self.millivolts.iter().enumerate() {
            setting[106 + supply] = code_of(supply, millivolts).ok_or(61)?;
        }
        if self
            .groups
            .iter()
            .any(|group| !(1..=256).contains(&group.repeats))
        {
            return Err(62);
        }
        let bad = |group: &Group| group.rate > 15 || group.codes.iter().any(|&code| code > 3);
        if self.groups.iter().any(bad) {
            return Err(63);
        }
        for (number, group) in self.groups.iter().enumerate() {
            for (lut, codes) in group.codes.chunks(4).enumerate() {
                setting[10 * lut + number] = byte(codes.iter().fold(0, |sum, code| 4 * sum + code));
            }
            for phase in 0..4 {
                setting[50 + 5 * number + phase] = byte(group.frames[phase]);
            }
            setting[54 + 5 * number] = byte(group.repeats - 1);
            setting[100 + number / 2] += byte(group.rate * [16, 1][number % 2]);
        }
        Ok(setting)
    }
}

/// A number in a column: blanks, then digits of which the first is 0 only alone.
fn natural(column: &str) -> Option<i64> {
    let digits = column.trim_start_matches(' ');
    let plain = !digits.is_empty() && digits.bytes().all(|byte| byte.is_ascii_digit());
    let shortest = digits.len() == 1 || !digits.starts_with('0');
    (plain && shortest).then(|| digits.parse().expect("digits"))
}

/// The same with a minus in front of what is not 0.
fn whole(column: &str) -> Option<i64> {
    let text = column.trim_start_matches(' ');
    match text.strip_prefix('-') {
        Some(digits) if !digits.starts_with(' ') => natural(digits).filter(|&n| n > 0).map(|n| -n),
        Some(_) => None,
        None => natural(text),
    }
}

fn group_of(line: &str, number: usize) -> Option<Group> {
    let column = |at: usize, width: usize| line.get(at..at + width).and_then(natural);
    if line.len() != LINE - 1 || column(0, 3)? != number as i64 {
        return None;
    }
    let mut group = Group {
        frames: [0; 4],
        repeats: column(19, 4)?,
        rate: column(23, 3)?,
        codes: [0; 20],
    };
    for (phase, frames) in group.frames.iter_mut().enumerate() {
        *frames = column(3 + 4 * phase, 4).filter(|&frames| frames <= 255)?;
    }
    for lut in 0..5 {
        if line.as_bytes()[26 + 5 * lut] != b' ' {
            return None;
        }
        for phase in 0..4 {
            group.codes[4 * lut + phase] = column(27 + 5 * lut + phase, 1)?;
        }
    }
    Some(group)
}

/// A line `name` and seven columns.
fn named(line: &str, name: &str) -> Option<i64> {
    let column = line.strip_prefix(name)?;
    if column.len() == 7 {
        whole(column)
    } else {
        None
    }
}

/// The sheet of a text, or the first line that is bad.
fn parsed(text: &[u8]) -> Result<Sheet, usize> {
    let mut rest = text;
    let mut number = 0;
    let mut line = || -> (usize, Option<&str>) {
        number += 1;
        let Some(end) = rest.iter().position(|&byte| byte == b'\n') else {
            return (number, None);
        };
        let found = &rest[..end];
        rest = &rest[end + 1..];
        (
            number,
            str::from_utf8(found).ok().filter(|line| line.is_ascii()),
        )
    };
    let mut groups = Vec::new();
    for group in 0..GROUPS {
        let (number, line) = line();
        groups.push(line.and_then(|line| group_of(line, group)).ok_or(number)?);
    }
    let (last, gate) = line();
    let gate = gate
        .and_then(|line| named(line, "gate"))
        .filter(|gate| (0..=255).contains(gate))
        .ok_or(last)?;
    let mut millivolts = [0; 4];
    for (supply, name) in NAMES.iter().enumerate() {
        let (number, line) = line();
        millivolts[supply] = line.and_then(|line| named(line, name)).ok_or(number)?;
    }
    if !rest.is_empty() {
        return Err(16);
    }
    let groups = groups.try_into().expect("ten groups");
    Ok(Sheet {
        groups,
        gate,
        millivolts,
    })
}

/// How often each answer comes about.
#[derive(Default)]
struct Tally {
    settings: u64,
    refused: [u64; 3],
    bad_lines: u64,
}

/// What `sheet` writes for a text. A setting is read back by the reference, and must be the sheet.
fn answer(text: &[u8], tally: &mut Tally) -> Vec<u8> {
    let sheet = match parsed(text) {
        Ok(sheet) => sheet,
        Err(line) => {
            tally.bad_lines += 1;
            return format!("bad line {line}\n").into_bytes();
        }
    };
    match sheet.setting() {
        Ok(setting) => {
            tally.settings += 1;
            assert_eq!(
                Sheet::decoded(&setting),
                sheet,
                "the reference reads another sheet"
            );
            setting.to_vec()
        }
        Err(number) => {
            tally.refused[usize::from(number) - 61] += 1;
            format!("{number:3}\n").into_bytes()
        }
    }
}

/// The answer to one text.
pub(super) fn one(input: &[u8], out: &mut impl Write) -> io::Result<bool> {
    out.write_all(&answer(input, &mut Tally::default()))?;
    Ok(true)
}

/// The answers to cases, and on standard error how many there were of each kind.
pub(super) fn run(input: &[u8], out: &mut impl Write) -> io::Result<bool> {
    let mut tally = Tally::default();
    let (cases, rest) = input.as_chunks::<{ 3 + BODY }>();
    for case in cases {
        let body = &case[3..];
        if case[0] == b's' {
            let setting = body[..LUT_BYTES].try_into().expect("a setting");
            let text = Sheet::decoded(setting).text();
            out.write_all(text.as_bytes())?;
            out.write_all(&answer(text.as_bytes(), &mut tally))?;
        } else {
            let count = usize::from(u16::from_le_bytes([case[1], case[2]]));
            out.write_all(&answer(&body[..count], &mut tally))?;
        }
    }
    let Tally {
        settings,
        refused: [no_code, repeats, codes],
        bad_lines,
    } = tally;
    eprintln!("settings {settings}, 61 {no_code}, 62 {repeats}, 63 {codes}, bad lines {bad_lines}");
    Ok(rest.is_empty())
}

fn case(kind: u8, bytes: &[u8], out: &mut impl Write) -> io::Result<()> {
    let mut body = [0; BODY];
    let count = bytes.len().min(BODY);
    body[..count].copy_from_slice(&bytes[..count]);
    out.write_all(&[kind])?;
    out.write_all(&(count as u16).to_le_bytes())?;
    out.write_all(&body)
}

fn sheet(random: &mut Random) -> Sheet {
    let listed_code = |supply: usize, random: &mut Random| loop {
        if let Some(millivolts) = listed(supply, random.byte()) {
            return millivolts;
        }
    };
    let groups = std::array::from_fn(|_| {
        let any = random.one_in(3);
        let frames = |random: &mut Random| match any {
            true => random.byte().into(),
            false => random.pick(&[0, 0, 1, 9, 10, 19, 99, 100, 255]),
        };
        Group {
            frames: std::array::from_fn(|_| frames(random)),
            repeats: random.pick(&[1, 1, 2, 9, 10, 99, 100, 255, 256]),
            rate: random.below(16) as i64,
            codes: std::array::from_fn(|_| random.below(4) as i64),
        }
    });
    let millivolts = std::array::from_fn(|supply| match random.one_in(8) {
        true => 0,
        false => listed_code(supply, random),
    });
    Sheet {
        groups,
        gate: random.byte().into(),
        millivolts,
    }
}

/// What 61, 62 and 63 refuse, put into a sheet: each bit of `faults` one of them.
fn spoil(sheet: &mut Sheet, faults: u64, random: &mut Random) {
    let group = random.below(10) as usize;
    if faults & 1 != 0 {
        let supply = random.below(4) as usize;
        let off = random.pick(&[1, -1, 100, -100, 50_000, -50_000, 900_000]);
        sheet.millivolts[supply] += off;
    }
    if faults & 2 != 0 {
        sheet.groups[group].repeats = random.pick(&[0, 257, 258, 511, 512, 9999]);
    }
    if faults & 4 != 0 {
        let place = random.below(21) as usize;
        match sheet.groups[group].codes.get_mut(place) {
            Some(code) => *code = random.between(4, 9) as i64,
            None => sheet.groups[group].rate = random.pick(&[16, 17, 31, 99, 255, 256]),
        }
    }
}

/// A text with a byte too few, too many or another one, or one that ends early or late.
fn damage(text: &mut Vec<u8>, random: &mut Random) {
    let place = random.below(text.len() as u64) as usize;
    let other = random.pick(b" 0123456789-+.\n\r\tgVSH\x00\xFF:/");
    match random.below(8) {
        0 => drop(text.remove(place)),
        1 => text.insert(place, other),
        2 => text.truncate(place),
        3 => text.push(other),
        4 => text[place] = random.byte(),
        _ => text[place] = other,
    }
}

/// Cases: the reference's settings, each refusal with all later ones true, each line bad in turn,
/// and then chance.
pub(super) fn generate(seed: u64, count: u64, out: &mut impl Write) -> io::Result<bool> {
    for entry in gdeq0426t82_otp() {
        case(b's', &entry.setting, out)?;
    }
    let mut random = Random::of_place(seed, u64::MAX);
    for faults in [7, 6, 4, 5, 3, 2, 1] {
        let mut sheet = sheet(&mut random);
        spoil(&mut sheet, faults, &mut random);
        case(b't', sheet.text().as_bytes(), out)?;
    }
    for line in 0..16 {
        let mut text = sheet(&mut random).text().into_bytes();
        let place = if line < 10 {
            LINE * line + 5
        } else {
            LINE * 10 + 12 * (line - 10) + 5
        };
        if place < text.len() {
            text[place] = b'x'
        } else {
            text.push(b'x')
        }
        case(b't', &text, out)?;
    }
    for place in 0..count {
        let random = &mut Random::of_place(seed, place);
        if random.one_in(5) {
            case(b's', &settings::setting(random), out)?;
            continue;
        }
        let mut sheet = sheet(random);
        if random.truth() {
            let faults = random.below(8);
            spoil(&mut sheet, faults, random);
        }
        let mut text = sheet.text().into_bytes();
        if random.one_in(3) {
            damage(&mut text, random);
        }
        case(b't', &text, out)?;
    }
    Ok(true)
}

/// Every number of millivolts from −18,000 to 18,000 for each supply.
pub(super) fn voltages(out: &mut impl Write) -> io::Result<bool> {
    let drawn = sheet(&mut Random::of_place(1, 1));
    for supply in 0..4 {
        for millivolts in -18_000..=18_000 {
            let mut sheet = drawn.clone();
            sheet.millivolts[supply] = millivolts;
            case(b't', sheet.text().as_bytes(), out)?;
        }
    }
    Ok(true)
}
