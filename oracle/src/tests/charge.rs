//! The charge of a table's waveforms (SCOPE, Charge), with what the reference adds up.

use std::fmt::Write as _;
use std::io::{self, Write};

use super::configuration::{ENTRY_BYTES, MAX_ENTRIES, entry, waveforms};
use super::random::Random;
use super::settings::{self, Periods, Setting};
use super::{inside, listing};
use crate::ssd1677::LUT_BYTES;
use crate::ssd1677::reference::gdeq0426t82_otp;
use crate::ssd1677::waveform::{Drive, Waveform};

/// 81 refuses a longer period.
const LONGEST: u64 = 100_000_000;
/// The port's default (#105), of every frame-rate code.
const DEFAULT: u64 = 25_000_000;

/// The charge of a LUT in 128 bits, over the phases that the reference decodes.
fn exact(setting: &Setting, waveform: &Waveform, lut: usize) -> i128 {
    let voltages = [setting[106], setting[107], setting[108]];
    let code = |number: i128| u8::try_from(number).expect("a code");
    let mut sum = 0;
    // A group's numbers: four frames, the repeats, the period, then four codes for each LUT.
    for numbers in inside::waveform(waveform).as_chunks::<26>().0 {
        for phase in 0..4 {
            let source = code(numbers[6 + 4 * lut + phase]);
            let vcom = code(numbers[6 + 16 + phase]);
            let millivolts = i128::from(listing::source_less_vcom(source, vcom, voltages));
            sum += millivolts * numbers[phase] * numbers[5] * numbers[4];
        }
    }
    sum
}

/// The charge of a LUT. Over the widest swing the reference's transfer adds all drives in 64 bits, which hold every sum of
/// periods up to the longest.
fn charge(setting: &Setting, periods: &Periods, lut: usize) -> i64 {
    let waveform = Waveform::from_setting(setting, periods);
    let [add, ..] = inside::transfer(waveform.transfer(Drive::Lut(lut), i64::MAX, false, None));
    assert_eq!(
        i128::from(add),
        exact(setting, &waveform, lut),
        "the two sums of LUT {lut}"
    );
    add
}

/// The lines, or the refusal, that `charge` writes.
fn text(table: &[u8], periods: &Periods) -> String {
    if periods.contains(&0) {
        return "  5\n".to_owned();
    }
    let Some(entries) = waveforms(table) else {
        return " 12\n".to_owned();
    };
    if periods.iter().any(|&period| period > LONGEST) {
        return " 81\n".to_owned();
    }
    let mut text = String::new();
    for (number, entry) in entries.iter().enumerate() {
        let _ = write!(text, "{number:3}");
        for lut in 0..4 {
            let _ = write!(text, "{:21}", charge(&entry.setting, periods, lut));
        }
        text.push('\n');
    }
    text
}

/// Sixteen periods, or the default where there are no words.
pub(super) fn periods_of(words: &[&str]) -> Option<Periods> {
    if words.is_empty() {
        return Some([DEFAULT; 16]);
    }
    let given: Result<Vec<u64>, _> = words.iter().map(|word| word.parse()).collect();
    Periods::try_from(given.ok()?).ok()
}

pub(super) fn run(table: &[u8], periods: &Periods, out: &mut impl Write) -> io::Result<bool> {
    out.write_all(text(table, periods).as_bytes())?;
    Ok(true)
}

/// As many frames as there are, at 17 V against −17 V or the reverse.
fn worst(random: &mut Random) -> Setting {
    let mut setting = [0; LUT_BYTES];
    let sources = [0x55, 0xAA, 0xFF, 0x00];
    let turn = random.below(4) as usize;
    for lut in 0..4 {
        setting[10 * lut..10 * lut + 10].fill(sources[(lut + turn) % 4]);
    }
    setting[40..50].fill(random.pick(&[0x55, 0xAA]));
    setting[50..100].fill(255);
    setting[106..109].copy_from_slice(&[0x4B, 0x4B, 0x3A]);
    setting
}

/// Makes the table one that 12 refuses, or nearly.
fn spoil(table: &mut Vec<u8>, random: &mut Random) {
    let from = ENTRY_BYTES * random.below(table.len() as u64 / ENTRY_BYTES as u64) as usize;
    match random.below(4) {
        0 => table.truncate(table.len() - 1),
        1 => table.push(0),
        _ => table[from + random.below(6) as usize] = random.pick(&[1, 2, 15, 16, 0xFF]),
    }
}

/// A table: 0, 1, 16, 64 and other numbers of entries in turn; one of 64 begins with the waveforms of a GDEQ0426T82, and one in ten is
/// spoilt.
pub(super) fn table(seed: u64, place: u64, out: &mut impl Write) -> io::Result<bool> {
    let mut random = Random::of_place(seed, place);
    let entries = match place % 8 {
        0 => random.pick(&[0, 0, 0, MAX_ENTRIES + 1]),
        1 => 1,
        2 => 16,
        3 => MAX_ENTRIES,
        4 => random.pick(&[2, 3, 17, MAX_ENTRIES - 1]),
        _ => random.between(1, MAX_ENTRIES as u64) as usize,
    };
    let mut table = Vec::new();
    if place % 8 == 3 {
        table.extend(gdeq0426t82_otp().iter().flat_map(entry));
    }
    while table.len() < ENTRY_BYTES * entries {
        table.extend([random.truth(), random.truth()].map(u8::from));
        for _ in 0..2 {
            let register = u16::try_from(random.below(4096)).expect("twelve bits");
            table.extend(register.to_be_bytes());
        }
        table.extend(match random.below(4) {
            0 => worst(&mut random),
            1 => std::array::from_fn(|_| random.byte()),
            _ => settings::setting(&mut random),
        });
    }
    if entries > 0 && random.one_in(10) {
        spoil(&mut table, &mut random);
    }
    out.write_all(&table)?;
    Ok(true)
}

/// Sixteen periods on a line, or an empty line for the default: short ones, and now and then one that is 0 or too long.
pub(super) fn periods(seed: u64, place: u64, out: &mut impl Write) -> io::Result<bool> {
    let mut random = Random::of_place(!seed, place);
    let mut periods: Vec<u64> = match random.below(5) {
        0 => Vec::new(),
        1 => vec![LONGEST; 16],
        2 => vec![random.between(1, LONGEST); 16],
        3 => (0..16)
            .map(|_| random.pick(&[1, 2, DEFAULT, LONGEST - 1, LONGEST]))
            .collect(),
        _ => (0..16).map(|_| random.between(1, LONGEST)).collect(),
    };
    for number in [0, LONGEST + 1, random.any_size()] {
        if !periods.is_empty() && random.one_in(12) {
            periods[random.below(16) as usize] = number;
        }
    }
    let words: Vec<String> = periods.iter().map(u64::to_string).collect();
    writeln!(out, "{}", words.join(" "))?;
    Ok(true)
}
