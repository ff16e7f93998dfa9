//! The listing of a setting (SCOPE, Listing), with what the reference decodes.

use std::fmt::Write as _;
use std::io::{self, Write};

use super::random::Random;
use super::{inside, settings};
use crate::glass::Transfer;
use crate::ssd1677::LUT_BYTES;
use crate::ssd1677::waveform::{Drive, Waveform};

const PERIOD: u64 = 20_000_000;

/// Source less VCOM, in millivolts, of `drive` in the phase with VCOM code `vcom`, under the source
/// voltages of bytes 106 to 108. The reference computes it within `transfer`: one frame of one
/// nanosecond on a swing wide enough moves a state by just that.
pub(super) fn source_less_vcom(code: u8, vcom: u8, voltages: [u8; 3]) -> i64 {
    const MIDDLE: i64 = 1_000_000;
    let mut setting = [0; LUT_BYTES];
    setting[0] = code << 6;
    setting[40] = vcom << 6;
    setting[50] = 1;
    setting[106..109].copy_from_slice(&voltages);
    let waveform = Waveform::from_setting(&setting, &[1; 16]);
    let transfer: Transfer = waveform.transfer(Drive::Lut(0), 2 * MIDDLE, false, None);
    transfer.apply(MIDDLE) - MIDDLE
}

/// The text that `wavelist` writes for `input`.
pub(super) fn listing(input: &[u8]) -> String {
    let Ok(setting) = <&[u8; LUT_BYTES]>::try_from(input) else {
        return " 41\n".to_owned();
    };
    let waveform = Waveform::from_setting(setting, &[PERIOD; 16]);
    let numbers = inside::waveform(&waveform);
    let voltages = [setting[106], setting[107], setting[108]];
    let code = |number: i128| u8::try_from(number).expect("a code");
    let mut text = String::new();
    // A group's numbers: four frames, the repeats, the period, then four codes for each LUT.
    for (group, numbers) in numbers.as_chunks::<26>().0.iter().enumerate() {
        for phase in 0..4 {
            let (frames, repeats, period) = (numbers[phase], numbers[4], numbers[5]);
            if frames == 0 {
                continue;
            }
            let _ = write!(text, "{group:3}{phase:3}{frames:4}{repeats:4}{period:9}");
            let vcom = code(numbers[6 + 16 + phase]);
            for lut in 0..4 {
                let source = code(numbers[6 + 4 * lut + phase]);
                let _ = write!(text, "{:7}", source_less_vcom(source, vcom, voltages));
            }
            text.push('\n');
        }
    }
    let _ = writeln!(text, "{:20}", waveform.duration_ns());
    text
}

/// The listings of settings that stand one after the other.
pub(super) fn run(input: &[u8], out: &mut impl Write) -> io::Result<bool> {
    for setting in input.chunks(LUT_BYTES) {
        out.write_all(listing(setting).as_bytes())?;
    }
    Ok(true)
}

/// Settings one after the other.
pub(super) fn generate(seed: u64, count: u64, out: &mut impl Write) -> io::Result<bool> {
    for place in 0..count {
        out.write_all(&settings::setting(&mut Random::of_place(seed, place)))?;
    }
    Ok(true)
}
