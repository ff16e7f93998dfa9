//! One run of the program: its arguments, its input, and what SCOPE has it write.

use std::io::{self, Write};
use std::process::{Command, Stdio};

use crate::ssd1677::LUT_BYTES;
use crate::ssd1677::tests::inside;
use crate::ssd1677::tests::random::Random;
use crate::ssd1677::tests::settings::{self, Periods, Setting};
use crate::ssd1677::waveform::{Waveform, source_millivolts, vsl_millivolts};

/// The frame period of the program's defaults (#105).
const PERIOD: u64 = 25_000_000;

/// A driving voltage: its word, its byte in a setting, and the codes by which a source and VCOM
/// use it.
struct Voltage {
    word: &'static str,
    byte: usize,
    source: i128,
    vcom: Option<i128>,
    millivolts: fn(u8) -> Option<i64>,
}

const VOLTAGES: [Voltage; 3] = [
    Voltage {
        word: "vsh1",
        byte: 106,
        source: 1,
        vcom: Some(1),
        millivolts: source_millivolts,
    },
    Voltage {
        word: "vsh2",
        byte: 107,
        source: 3,
        vcom: None,
        millivolts: source_millivolts,
    },
    Voltage {
        word: "vsl",
        byte: 108,
        source: 2,
        vcom: Some(2),
        millivolts: vsl_millivolts,
    },
];

pub(super) struct Case {
    voltage: &'static Voltage,
    pub(super) before: u8,
    pub(super) after: u8,
    full_swing: u64,
    pub(super) periods: Periods,
    pub(super) setting: Setting,
    input: Vec<u8>,
    pub(super) arguments: Vec<String>,
}

/// A bound for each LUT, with its steps of grey.
pub(super) type Bounds = [(u64, u8); 4];

/// A code that is listed, or one in twelve times any.
fn code(voltage: &Voltage, random: &mut Random) -> u8 {
    if random.one_in(12) {
        return random.byte();
    }
    let listed: Vec<u8> = (0..=u8::MAX)
        .filter(|&code| (voltage.millivolts)(code).is_some())
        .collect();
    random.pick(&listed)
}

fn hex(code: u8, random: &mut Random) -> String {
    if random.truth() {
        format!("0x{code:02X}")
    } else {
        format!("0x{code:02x}")
    }
}

/// Few frames, so that most bounds are below S; codes, repeats and frame rates of any kind.
fn quiet(setting: &mut Setting, random: &mut Random) {
    for group in 0..10 {
        for phase in 0..4 {
            setting[50 + 5 * group + phase] = random.pick(&[0, 0, 1, 2, 3]);
        }
        setting[54 + 5 * group] = random.pick(&[0, 0, 0, 1, 2]);
    }
}

pub(super) fn case(random: &mut Random) -> Case {
    let voltage = &VOLTAGES[random.below(3) as usize];
    let (before, after) = (code(voltage, random), code(voltage, random));
    let mut setting = settings::setting(random);
    if random.truth() {
        quiet(&mut setting, random);
    }
    let mut full_swing = settings::full_swing(random);
    let mut periods = settings::periods(random);
    if random.one_in(24) {
        full_swing = 0;
    }
    if random.one_in(24) {
        periods[random.below(16) as usize] = 0;
    }
    let mut arguments = vec![voltage.word.to_owned()];
    arguments.extend([hex(before, random), hex(after, random)]);
    match random.below(4) {
        0 => (full_swing, periods) = (settings::SWING, [PERIOD; 16]),
        1 => {
            periods = [PERIOD; 16];
            arguments.push(full_swing.to_string());
        }
        2 => {
            periods = [periods[0]; 16];
            arguments.extend([full_swing, periods[0]].map(|number| number.to_string()));
        }
        _ => {
            arguments.push(full_swing.to_string());
            arguments.extend(periods.iter().map(u64::to_string));
        }
    }
    let mut input = setting.to_vec();
    if random.one_in(24) {
        input.resize(random.pick(&[0, 1, 111, 113, 224]), 0);
    }
    Case {
        voltage,
        before,
        after,
        full_swing,
        periods,
        setting,
        input,
        arguments,
    }
}

impl Case {
    pub(super) fn swing(&self) -> i64 {
        i64::try_from(self.full_swing).unwrap_or(i64::MAX)
    }

    pub(super) fn waveform(&self, code: u8) -> Waveform {
        let mut setting = self.setting;
        setting[self.voltage.byte] = code;
        Waveform::from_setting(&setting, &self.periods)
    }

    /// The exact sum for a LUT, over all phases of all repeats.
    fn sum(&self, change: u64, lut: usize) -> u128 {
        let numbers = inside::waveform(&self.waveform(self.before));
        let mut sum = 0;
        // A group's numbers: four frames, the repeats, the period, then four codes for each LUT.
        for group in &numbers.as_chunks::<26>().0[..10] {
            for phase in 0..4 {
                let source = group[6 + 4 * lut + phase] == self.voltage.source;
                let vcom = Some(group[6 + 16 + phase]) == self.voltage.vcom;
                if source != vcom {
                    let each = group[phase] * group[4] * group[5];
                    sum += u128::from(change) * u128::try_from(each).expect("a time");
                }
            }
        }
        sum
    }

    /// What SCOPE has the program write: a refusal's number, or the bounds.
    pub(super) fn expected(&self) -> Result<Bounds, u8> {
        if self.full_swing == 0 {
            return Err(4);
        }
        if self.periods.contains(&0) {
            return Err(5);
        }
        if self.input.len() != LUT_BYTES {
            return Err(11);
        }
        let millivolts = |code| (self.voltage.millivolts)(code).ok_or(91);
        let change = millivolts(self.before)?.abs_diff(millivolts(self.after)?);
        let swing = self.swing() as u128;
        Ok(std::array::from_fn(|lut| {
            let bound = self.sum(change, lut).min(swing);
            let steps = (255 * bound).div_ceil(swing);
            let steps = u8::try_from(steps).expect("steps of grey");
            (u64::try_from(bound).expect("a state"), steps)
        }))
    }

    /// What the program writes; an error where it ends badly or says anything on standard error.
    pub(super) fn run(&self, program: &str) -> io::Result<String> {
        let mut child = Command::new(program)
            .args(&self.arguments)
            .stdin(Stdio::piped())
            .stdout(Stdio::piped())
            .stderr(Stdio::piped())
            .spawn()?;
        // A program that does not read all of it has what it needs.
        let _ = child
            .stdin
            .take()
            .map(|mut pipe| pipe.write_all(&self.input));
        let output = child.wait_with_output()?;
        if !output.status.success() || !output.stderr.is_empty() {
            let said = String::from_utf8_lossy(&output.stderr);
            let arguments = self.arguments.join(" ");
            let failed = format!("{program} {arguments}: {}: {said}", output.status);
            return Err(io::Error::other(failed));
        }
        Ok(String::from_utf8_lossy(&output.stdout).into_owned())
    }
}
