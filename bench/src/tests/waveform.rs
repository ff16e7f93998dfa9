//! The transfer of a setting, decoding included on both sides: walked, whole or up to a cut, and
//! whole with each group combined with itself.

use std::hint::black_box;

use super::beside::{Table, timed};
use super::{inside, proved};
use crate::ssd1677::reference::gdeq0426t82_otp;
use crate::ssd1677::waveform::{Drive, Waveform};

pub(super) const SWING: i64 = 6_000_000_000_000;
pub(super) const PERIODS: [u64; 16] = [20_000_000; 16];

/// Ten groups of four phases of three frames, each run once and `more` times. A pass goes three phases one way and one
/// back, so that the count of passes shows wherever the swing has room for them; each group goes the other way than the
/// one before. VGH and VCOM are those of the reference settings.
fn ten_groups(more: u8) -> [u8; 112] {
    let mut setting = [0; 112];
    for group in 0..10 {
        for lut in 0..4 {
            setting[10 * lut + group] = if (lut + group) % 2 == 0 { 0x56 } else { 0xA9 };
        }
        setting[50 + 5 * group..54 + 5 * group].fill(3);
        setting[54 + 5 * group] = more;
    }
    setting[106..109].copy_from_slice(&[0x41, 0xA8, 0x32]);
    setting
}

pub(super) fn longest() -> [u8; 112] {
    ten_groups(255)
}

pub(super) fn transfers(table: &Table) {
    let otp = gdeq0426t82_otp();
    let long = longest();
    let middle = Waveform::from_setting(&long, &PERIODS).duration_ns() / 2;
    let settings = [
        ("Mode One", otp[0].setting, 1000),
        ("Mode Two", otp[2].setting, 1000),
        ("ten groups of 2 repeats", ten_groups(1), 1000),
        ("ten groups of 256 repeats", long, 20),
    ];
    for (what, setting, count) in settings {
        walked(table, &format!("transfer, {what}, walked"), &setting, None, count);
        combined(table, &format!("transfer, {what}, combined"), &setting, count);
    }
    walked(table, "transfer, ten groups of 256 repeats, cut in the middle", &long, Some(middle), 20);
}

fn walked(table: &Table, what: &str, setting: &[u8; 112], until: Option<u64>, count: usize) {
    let proved = |setting: &_, lut, swing| proved::transfer(setting, &PERIODS, lut, swing, black_box(until));
    row(table, what, setting, until, count, |numbers| numbers, proved);
}

fn combined(table: &Table, what: &str, setting: &[u8; 112], count: usize) {
    // A combined transfer adds nothing where its ends have met.
    let settled = |[add, lo, hi]: [i64; 3]| [if lo < hi { add } else { 0 }, lo, hi];
    let proved = |setting: &_, lut, swing| proved::combined(setting, &PERIODS, lut, swing);
    row(table, what, setting, None, count, settled, proved);
}

fn row(
    table: &Table,
    what: &str,
    setting: &[u8; 112],
    until: Option<u64>,
    count: usize,
    told: impl Fn([i64; 3]) -> [i64; 3],
    proved: impl Fn(&[u8; 112], usize, i64) -> [i64; 3],
) {
    // The largest swing has room for all repeats: there every one of them counts.
    for (lut, swing) in (0..5).flat_map(|lut| [(lut, SWING), (lut, i64::MAX)]) {
        let transfer =
            Waveform::from_setting(setting, &PERIODS).transfer(Drive::Lut(lut), swing, true, until);
        assert_eq!(told(inside::transfer(transfer)), proved(setting, lut, swing), "{what}");
    }
    table.row(
        what,
        (count, "waveform"),
        || {
            timed(|| {
                for _ in 0..count {
                    let waveform = Waveform::from_setting(black_box(setting), &PERIODS);
                    black_box(waveform.transfer(Drive::Lut(1), SWING, true, black_box(until)));
                }
            })
        },
        || {
            timed(|| {
                for _ in 0..count {
                    black_box(proved(black_box(setting), 1, SWING));
                }
            })
        },
    );
}
