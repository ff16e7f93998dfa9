//! Both sides of a case, and the first place where they differ.

use emu_core::Cycles;

use super::cases::{Case, Scanned, Shown};
use crate::lines::ONE_GIGAHERTZ;
use crate::ssd1677::panel::{Display, Panel, PlaneOption, RefreshKind, Scan};
use crate::ssd1677::ram::{Counter, Plane, Ram};
use crate::ssd1677::tests::proved::{self, Choice, Ending, Published};
use crate::ssd1677::waveform::{Drive, Waveform};
use crate::ssd1677::{Optics, PanelGeometry, Ssd1677, Ssd1677Config};

/// What the proved side is told: the case, unless a near miss alters it.
#[derive(Clone)]
pub(super) struct Told {
    pub(super) geometry: PanelGeometry,
    pub(super) scanned: Scanned,
    pub(super) shown: Shown,
    pub(super) planes_exchanged: bool,
    pub(super) undriven_moved: bool,
    pub(super) cut_ignored: bool,
}

impl Told {
    pub(super) fn of(case: &Case) -> Told {
        Told {
            geometry: case.geometry.clone(),
            scanned: case.scanned,
            shown: case.shown,
            planes_exchanged: false,
            undriven_moved: false,
            cut_ignored: false,
        }
    }

    fn choice(&self) -> Choice {
        let Scanned { lines, order, options } = self.scanned;
        Choice {
            geometry: self.geometry.clone(),
            lines,
            order,
            options,
        }
    }
}

#[derive(Debug)]
pub(super) struct Difference {
    what: &'static str,
    place: usize,
    reference: i128,
    proved: i128,
}

fn same<T: Copy + PartialEq + Into<i128>>(what: &'static str, reference: &[T], proved: &[T]) -> Result<(), Difference> {
    assert_eq!(reference.len(), proved.len(), "lengths of {what}");
    match reference.iter().zip(proved).position(|(a, b)| a != b) {
        None => Ok(()),
        Some(place) => {
            let (reference, proved) = (reference[place].into(), proved[place].into());
            Err(Difference {
                what,
                place,
                reference,
                proved,
            })
        }
    }
}

fn ram_of(case: &Case) -> Ram {
    let mut ram = Ram::filled(0);
    for place in 0..case.red.len() {
        let at = Counter {
            x: (place % 120 * 8) as u16,
            y: (place / 120) as u16,
        };
        ram.write(Plane::BlackWhite, at, case.black_white[place]);
        ram.write(Plane::Red, at, case.red[place]);
    }
    ram
}

fn kind_of(partial: bool) -> RefreshKind {
    if partial {
        RefreshKind::Partial
    } else {
        RefreshKind::Full
    }
}

/// What an image has beside its pixels, as the proved side hands it back.
fn header(panel: &Panel) -> Published {
    let image = panel.image();
    let kind = match image.kind {
        RefreshKind::PowerOn => 0,
        RefreshKind::Full => 1,
        RefreshKind::Partial => 2,
    };
    [
        image.width.into(),
        image.height.into(),
        image.border.into(),
        image.generation,
        kind,
        image.interrupted.into(),
        image.started.0,
        image.at.0,
    ]
}

/// What a comparison that found no difference has seen.
#[derive(Default)]
pub(super) struct Seen {
    pub(super) luts: [u64; 5],
    pub(super) moved_whole: u64,
    pub(super) moved_cut: u64,
    pub(super) border: Option<Drive>,
}

/// The reference's side, with a device that is asked what drives the border.
pub(super) struct Reference {
    device: Ssd1677,
}

impl Reference {
    pub(super) fn new() -> Reference {
        let device = Ssd1677::new(Ssd1677Config::default(), ONE_GIGAHERTZ);
        Reference {
            device: device.expect("the default configuration"),
        }
    }

    fn border_drive(&mut self, register: u8) -> Option<Drive> {
        self.device.regs.border = register;
        self.device.border_drive()
    }

    fn started(&mut self, case: &Case) -> (Panel, Display) {
        let (shown, scanned) = (case.shown, case.scanned);
        let full_swing = shown.swing.unsigned_abs();
        let positive_drives_black = shown.positive_drives_black;
        let optics = Optics {
            full_swing,
            positive_drives_black,
            ..Optics::default()
        };
        let config = Ssd1677Config {
            panel: case.geometry.clone(),
            optics,
            ..Ssd1677Config::default()
        };
        assert!(config.validate().is_ok(), "a panel that a start accepts");
        let panel = Panel::new(config.panel, optics).opened(case.states.clone(), shown.border, shown.generation);
        let scan = Scan {
            lines: scanned.lines,
            order: scanned.order,
            red: PlaneOption::from_nibble(scanned.options >> 4),
            black_white: PlaneOption::from_nibble(scanned.options),
        };
        let waveform = Waveform::from_setting(&case.setting, &case.periods);
        let border = self.border_drive(shown.register);
        let times = (Cycles(shown.started), Cycles(shown.at));
        let display = panel.start(&ram_of(case), scan, waveform, border, kind_of(shown.partial), times);
        (panel, display)
    }

    /// Runs both sides and compares the gates, the LUTs, and what an end leaves, whole and cut.
    pub(super) fn compare(&mut self, case: &Case, told: &Told) -> Result<Seen, Difference> {
        let (panel, display) = self.started(case);
        let mut gates = vec![0; usize::from(case.geometry.height)];
        proved::gates(&mut gates, &told.geometry);
        same("gates", panel.gates(), &gates)?;
        // What no side would leave, should a place not be filled.
        let mut luts = vec![9; case.states.len()];
        let (mut red, mut black_white) = (&case.red, &case.black_white);
        if told.planes_exchanged {
            (red, black_white) = (black_white, red);
        }
        proved::start(&mut luts, &gates, red, black_white, &told.choice());
        same("LUTs", display.luts(), &luts)?;
        let mut seen = Seen {
            border: self.border_drive(case.shown.register),
            ..Seen::default()
        };
        for &lut in &luts {
            seen.luts[usize::from(lut.min(4))] += 1;
        }
        if told.undriven_moved {
            luts.iter_mut().filter(|lut| **lut > 3).for_each(|lut| *lut = 0);
        }
        seen.moved_whole = self.end(case, told, (&panel, &display), &luts, None)?;
        seen.moved_cut = self.end(case, told, (&panel, &display), &luts, Some(case.shown.cut))?;
        Ok(seen)
    }

    /// An end on both sides; the states that it moved.
    fn end(
        &self,
        case: &Case,
        told: &Told,
        (panel, display): (&Panel, &Display),
        luts: &[u8],
        until: Option<u64>,
    ) -> Result<u64, Difference> {
        let mut after = panel.clone();
        after.finish(display, Cycles(case.shown.at), until);
        let shown = told.shown;
        let ending = Ending {
            setting: &case.setting,
            periods: &case.periods,
            swing: shown.swing,
            positive_drives_black: shown.positive_drives_black,
            register: shown.register,
            partial: shown.partial,
            size: (told.geometry.width, told.geometry.height),
            generation: shown.generation,
            started: shown.started,
            at: shown.at,
            until: until.filter(|_| !told.cut_ignored),
        };
        let (mut states, mut pixels) = (case.states.clone(), vec![0xA5; luts.len()]);
        // More of each than there are pixels, should a count not be set.
        let mut counts = [0xA5A5_A5A5; 256];
        let (border, published) =
            proved::finish(&mut states, luts, &mut pixels, &mut counts, shown.border, &ending);
        let (reference, reference_border) = after.states();
        same("states", reference, &states)?;
        same("the border's state", &[reference_border], &[border])?;
        same("pixels", &after.image().pixels, &pixels)?;
        same("counts", &proved::recounted(&after.image().pixels), &counts)?;
        same("the image's header", &header(&after), &published)?;
        Ok(states.iter().zip(&case.states).filter(|(a, b)| a != b).count() as u64)
    }
}
