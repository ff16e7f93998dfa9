//! Waveform settings, frame periods, swings and cuts for the generators.

use super::random::Random;
use crate::ssd1677::LUT_BYTES;
use crate::ssd1677::reference::gdeq0426t82_otp;

pub(super) type Setting = [u8; LUT_BYTES];
pub(super) type Periods = [u64; 16];

/// The frame period of the Rust's defaults, 20 ms.
pub(super) const PERIOD: u64 = 20_000_000;
/// The swing of the defaults, 6 V·s.
pub(super) const SWING: u64 = 6_000_000_000_000;
/// 2^63, the first number past the signed ones.
const HALF: u64 = 1 << 63;

/// VSH1, VSH2 or VSL: the edges of the listed ranges, a listed code, or any code.
fn source_code(random: &mut Random) -> u8 {
    match random.below(8) {
        0 => random.pick(&[0x22, 0x23, 0x4B, 0x4C, 0x8D, 0x8E, 0xCE, 0xCF]),
        1 => random.byte(),
        2..5 => random.pick(&[0x41, 0xA8]),
        _ => random.pick(&[0x23, 0x32, 0x4B, 0x8E, 0xAA, 0xCE]),
    }
}

fn vsl_code(random: &mut Random) -> u8 {
    match random.below(8) {
        0 => random.pick(&[0x18, 0x19, 0x1A, 0x1B, 0x39, 0x3A, 0x3B, 0x3C]),
        1 => random.byte(),
        2..5 => 0x32,
        _ => random.pick(&[0x1A, 0x20, 0x2E, 0x3A]),
    }
}

fn vcom_code(random: &mut Random) -> u8 {
    match random.below(4) {
        0 => random.pick(&[0x04, 0x05, 0x08, 0x09, 0xA0, 0xA1, 0xA4, 0xFF]),
        1 => random.byte(),
        _ => random.pick(&[0x00, 0x08, 0x20, 0x84, 0xA0]),
    }
}

/// A setting that every start accepts has listed voltages.
pub(super) fn make_listed(setting: &mut Setting, random: &mut Random) {
    setting[105] = random.pick(&[0x00, 0x07, 0x17]);
    setting[106] = random.pick(&[0x23, 0x41, 0x4B, 0x8E, 0xCE]);
    setting[107] = random.pick(&[0x23, 0xA8, 0x4B, 0x8E, 0xCE]);
    setting[108] = random.pick(&[0x1A, 0x32, 0x3A]);
    setting[109] = random.pick(&[0x00, 0x08, 0x20, 0xA0]);
}

/// A setting with voltages of any kind.
pub(super) fn setting(random: &mut Random) -> Setting {
    let mut setting = [0; LUT_BYTES];
    match random.below(6) {
        0 => return gdeq0426t82_otp()[random.below(3) as usize].setting,
        1 => setting.fill_with(|| random.byte()),
        2 => {}
        _ => short_groups(&mut setting, random),
    }
    setting[105] = random.byte();
    setting[106] = source_code(random);
    setting[107] = source_code(random);
    setting[108] = vsl_code(random);
    setting[109] = vcom_code(random);
    setting
}

/// A few groups of a few frames, so that a walk over their frames is short.
fn short_groups(setting: &mut Setting, random: &mut Random) {
    for _ in 0..random.between(1, 4) {
        let group = random.below(10) as usize;
        for lut in 0..5 {
            // VCOM rests more often than not.
            let byte = if lut == 4 && random.truth() {
                0
            } else {
                random.byte()
            };
            setting[10 * lut + group] = byte;
        }
        for phase in 0..4 {
            setting[50 + 5 * group + phase] = random.pick(&[0, 0, 1, 2, 5, 19, 255]);
        }
        setting[54 + 5 * group] = random.pick(&[0, 0, 1, 2, 255]);
        setting[100 + group / 2] = random.byte();
    }
}

/// A period that is not 0.
pub(super) fn period(random: &mut Random) -> u64 {
    match random.below(6) {
        0 => random.pick(&[1, 2, 3, HALF - 1, HALF, HALF + 1, u64::MAX - 1, u64::MAX]),
        1 => random.any_size().max(1),
        2 => random.between(1, 1_000_000_000),
        _ => PERIOD,
    }
}

/// Sixteen periods, one for all codes more often than not.
pub(super) fn periods(random: &mut Random) -> Periods {
    if random.one_in(3) {
        std::array::from_fn(|_| period(random))
    } else {
        [period(random); 16]
    }
}

/// A full swing as a configuration gives it, not 0.
pub(super) fn full_swing(random: &mut Random) -> u64 {
    match random.below(5) {
        0 => random.pick(&[1, 2, 3, 254, 255, 256, 509, 510, 511]),
        1 => random.pick(&[HALF - 2, HALF - 1, HALF, HALF + 1, u64::MAX - 1, u64::MAX]),
        2 => random.any_size().max(1),
        _ => SWING,
    }
}

/// A swing as the glass has it: 1 to 2^63−1.
pub(super) fn swing(random: &mut Random) -> i64 {
    i64::try_from(full_swing(random)).unwrap_or(i64::MAX)
}

/// Where the frames of a setting end, from 0 on, up to `most` of them; none past 2^64−1.
pub(super) fn frame_ends(setting: &Setting, periods: &Periods, most: usize) -> Vec<u64> {
    let mut ends = vec![0u64];
    for group in 0..10 {
        let byte = setting[100 + group / 2];
        let code = if group % 2 == 0 { byte >> 4 } else { byte & 15 };
        let period = periods[usize::from(code)];
        let timing = &setting[50 + 5 * group..55 + 5 * group];
        let frames: usize = timing[..4].iter().map(|&f| usize::from(f)).sum();
        for _ in 0..frames * (usize::from(timing[4]) + 1) {
            let last = ends[ends.len() - 1];
            match last.checked_add(period) {
                Some(end) if ends.len() < most => ends.push(end),
                _ => return ends,
            }
        }
    }
    ends
}

/// A moment of a display: the end of a frame, one nanosecond off it, or any other.
pub(super) fn cut(setting: &Setting, periods: &Periods, random: &mut Random) -> u64 {
    if random.one_in(5) {
        return random.pick(&[0, 1, u64::MAX - 1, u64::MAX, HALF]);
    }
    if random.one_in(8) {
        return random.any_size();
    }
    let edge = random.pick(&frame_ends(setting, periods, 4096));
    match random.below(3) {
        0 => edge,
        1 => edge.saturating_sub(1),
        _ => edge.saturating_add(1),
    }
}
