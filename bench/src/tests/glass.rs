//! The glass: greys, the choice of LUTs, at 800×480.

use std::hint::black_box;

use emu_core::Cycles;

use super::beside::{Table, timed};
use super::proved::{self, Choice};
use super::random::Random;
use super::waveform::{PERIODS, SWING, longest};
use super::{inside, memory};
use crate::glass::gray;
use crate::ssd1677::panel::{Display, Panel, PlaneOption, RefreshKind, Scan};
use crate::ssd1677::ram::{Plane, Ram};
use crate::ssd1677::waveform::{Drive, Waveform};
use crate::ssd1677::{GateScan, Optics, PanelGeometry};

pub(super) const PIXELS: usize = 800 * 480;

pub(super) fn grays(table: &Table) {
    let mut random = Random::of_place(1, 0);
    for (name, swing) in [("6·10^12", SWING), ("2^63−1", i64::MAX), ("1000", 1000)] {
        let states: Vec<i64> =
            (0..PIXELS).map(|_| (random.next() % swing.unsigned_abs()).cast_signed()).collect();
        let (mut theirs, mut ours) = (vec![0; PIXELS], vec![0; PIXELS]);
        table.row(
            &format!("gray, swing {name}"),
            (PIXELS, "pixel"),
            || {
                timed(|| {
                    let swing = black_box(swing);
                    for (pixel, &state) in theirs.iter_mut().zip(&states) {
                        *pixel = gray(state, swing);
                    }
                })
            },
            || timed(|| assert!(proved::grays(&states, black_box(swing), &mut ours))),
        );
        assert_eq!(theirs, ours, "gray");
    }
}

fn scan_of(choice: &Choice) -> Scan {
    Scan {
        lines: choice.lines,
        order: choice.order,
        red: PlaneOption::from_nibble(choice.options >> 4),
        black_white: PlaneOption::from_nibble(choice.options),
    }
}

pub(super) fn panel_of(choice: &Choice) -> Panel {
    Panel::new(choice.geometry.clone(), Optics::default())
}

pub(super) fn display_of(panel: &Panel, ram: &Ram, choice: &Choice, waveform: &Waveform) -> Display {
    let (border, kind) = (Some(Drive::Lut(1)), RefreshKind::Full);
    let times = (Cycles(0), Cycles(0));
    panel.start(ram, scan_of(choice), waveform.clone(), border, kind, times)
}

const SEQUENCE: GateScan = GateScan { sm: false, gd: false };
const HALVES: GateScan = GateScan { sm: true, gd: false };

pub(super) const CHOICE: Choice = Choice {
    geometry: PanelGeometry { first_source: 80, ..PanelGeometry::gdeq0426t82() },
    lines: 480,
    order: HALVES,
    options: 0,
};

pub(super) fn starts(table: &Table) {
    let ram = memory::ram(1);
    let waveform = Waveform::from_setting(&longest(), &PERIODS);
    let reversed = || PanelGeometry { columns_reversed: true, ..CHOICE.geometry };
    let choices = [
        ("columns in order", CHOICE),
        ("columns reversed, red read as 0", Choice { geometry: reversed(), options: 0x40, ..CHOICE }),
        ("columns in order, both planes inverse, SM 0", Choice { options: 0x88, order: SEQUENCE, ..CHOICE }),
        ("columns reversed, 300 lines", Choice { geometry: reversed(), lines: 300, ..CHOICE }),
    ];
    for (what, choice) in choices {
        let panel = panel_of(&choice);
        let gates = inside::glass(&panel).gate_of_row;
        let mut luts = vec![0; PIXELS];
        let mut display = None;
        table.row(
            &format!("start, {what}"),
            (PIXELS, "pixel"),
            || timed(|| display = Some(display_of(&panel, &ram, black_box(&choice), &waveform))),
            || {
                timed(|| {
                    let (red, black_white) = (ram.plane(Plane::Red), ram.plane(Plane::BlackWhite));
                    proved::start(&mut luts, &gates, red, black_white, black_box(&choice));
                })
            },
        );
        assert_eq!(display.map(|display| inside::luts(&display)), Some(luts), "start");
    }
}
