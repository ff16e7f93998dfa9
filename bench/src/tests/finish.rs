//! The end of a display, whole and cut, on states and pictures of many kinds, at 800×480.

use std::hint::black_box;

use emu_core::Cycles;

use super::beside::{Table, timed};
use super::glass::{CHOICE, PIXELS, display_of, panel_of};
use super::proved::{self, Choice, Ending};
use super::waveform::{PERIODS, SWING, longest};
use super::{inside, memory, pictures};
use crate::ssd1677::Optics;
use crate::ssd1677::panel::Panel;
use crate::ssd1677::ram::Ram;
use crate::ssd1677::reference::gdeq0426t82_otp;
use crate::ssd1677::waveform::Waveform;

/// Frames so long that the largest swing takes some thirty of them.
const LONG: [u64; 16] = [1 << 44; 16];

/// A panel whose states are of many kinds: displays of chance that were cut at different moments.
fn used(mut panel: Panel, periods: &[u64; 16], cut: fn(u64) -> u64) -> Panel {
    let waveform = Waveform::from_setting(&gdeq0426t82_otp()[2].setting, periods);
    for seed in 0..8 {
        let display = display_of(&panel, &memory::ram(10 + seed), &CHOICE, &waveform);
        panel.finish(&display, Cycles(0), Some(cut(3 + seed)));
    }
    panel
}

fn used_panel() -> Panel {
    used(panel_of(&CHOICE), &PERIODS, |n| n * 17_000_000)
}

/// The same of the largest swing.
fn largest_panel() -> Panel {
    let optics = Optics { full_swing: i64::MAX.unsigned_abs(), ..Optics::default() };
    used(Panel::new(CHOICE.geometry, optics), &LONG, |n| n << 44)
}

/// A panel that has shown a RAM, to the end of mode One.
fn shown(ram: &Ram) -> Panel {
    let mut panel = panel_of(&CHOICE);
    let waveform = Waveform::from_setting(&gdeq0426t82_otp()[0].setting, &PERIODS);
    panel.finish(&display_of(&panel, ram, &CHOICE, &waveform), Cycles(0), None);
    panel
}

fn ending_of(setting: &[u8; 112], until: Option<u64>) -> Ending<'_> {
    Ending {
        setting,
        periods: &PERIODS,
        swing: SWING,
        positive_drives_black: true,
        register: 1,
        partial: false,
        size: (800, 480),
        generation: 0,
        started: 0,
        at: 0,
        until,
    }
}

fn row(table: &Table, what: &str, panel: &Panel, ram: &Ram, choice: &Choice, ending: &Ending<'_>) {
    let before = inside::glass(panel);
    let waveform = Waveform::from_setting(ending.setting, ending.periods);
    let display = display_of(panel, ram, choice, &waveform);
    let luts = inside::luts(&display);
    let mut after = panel.clone();
    let (mut states, mut pixels, mut counts, mut border) = (Vec::new(), vec![0; PIXELS], [0xDEAD; 256], 0);
    table.row(
        &format!("finish, {what}"),
        (PIXELS, "pixel"),
        || {
            after = panel.clone();
            timed(|| after.finish(black_box(&display), Cycles(0), ending.until))
        },
        || {
            states.clone_from(&before.states);
            timed(|| {
                (border, _) =
                    proved::finish(&mut states, &luts, &mut pixels, &mut counts, before.border, black_box(ending));
            })
        },
    );
    let theirs = inside::glass(&after);
    assert_eq!((&theirs.states, theirs.border), (&states, border), "finish");
    assert_eq!(after.image().pixels, pixels, "finish");
    assert_eq!(proved::recounted(&after.image().pixels), counts, "finish");
}

/// One picture of chance, by waveforms whole and cut.
fn waveforms(table: &Table) {
    let short = gdeq0426t82_otp()[0].setting;
    let long = longest();
    let middle = |setting| Waveform::from_setting(setting, &PERIODS).duration_ns() / 2;
    let rows = [
        ("Mode One, whole", &short, None),
        ("Mode One, cut in the middle", &short, Some(middle(&short))),
        ("ten groups of 256 repeats, whole", &long, None),
        ("ten groups of 256 repeats, cut in the middle", &long, Some(middle(&long))),
    ];
    let panel = used_panel();
    for (what, setting, until) in rows {
        row(table, what, &panel, &memory::ram(3), &CHOICE, &ending_of(setting, until));
    }
}

/// Pictures and panels of other kinds.
fn kinds(table: &Table) {
    let otp = gdeq0426t82_otp();
    let one = ending_of(&otp[0].setting, None);
    let two = ending_of(&otp[2].setting, None);
    let chance = memory::ram(3);
    row(table, "Mode Two", &used_panel(), &chance, &CHOICE, &two);
    row(table, "states all black or white", &shown(&memory::ram(20)), &chance, &CHOICE, &one);
    let drawn: [(&str, pictures::Picture); 3] =
        [("squares of 64 pixels", pictures::squares), ("digits", pictures::digits), ("all white", pictures::white)];
    for (what, picture) in drawn {
        let panel = shown(&pictures::ram(picture, 1, 2));
        row(table, what, &panel, &pictures::ram(picture, 2, 3), &CHOICE, &one);
    }
    row(table, "300 of 480 lines", &used_panel(), &chance, &Choice { lines: 300, ..CHOICE }, &one);
    let largest = Ending { swing: i64::MAX, periods: &LONG, ..two };
    row(table, "Mode Two, swing 2^63−1", &largest_panel(), &chance, &CHOICE, &largest);
}

pub(super) fn rows(table: &Table) {
    waveforms(table);
    kinds(table);
}
