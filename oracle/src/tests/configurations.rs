//! Configurations for the generators: panels, timings and OTP tables.

use super::configuration::{Configuration, ENTRY_BYTES, FREQUENCY, MAX_ENTRIES, largest};
use super::random::Random;
use super::settings::{self, PERIOD, SWING, Setting};
use crate::ssd1677::reference::gdeq0426t82_otp;
use crate::ssd1677::{DisplayMode, OtpWaveform};

const MILLISECOND: u64 = 1_000_000;

/// The fields of a panel.
#[derive(Clone, Copy)]
pub(super) struct Geometry {
    pub(super) width: u64,
    pub(super) height: u64,
    pub(super) first_source: u64,
    pub(super) columns_reversed: bool,
    pub(super) sm: bool,
    pub(super) gd: bool,
    pub(super) rows_reversed: bool,
}

impl Geometry {
    /// A panel of these sizes in an order of chance; an odd height has no gd.
    pub(super) fn of(width: u64, height: u64, random: &mut Random) -> Geometry {
        let room = 960 - width;
        let first_source = match random.below(3) {
            0 => 0,
            1 => room,
            _ => random.between(0, room),
        };
        Geometry {
            width,
            height,
            first_source,
            columns_reversed: random.truth(),
            sm: random.truth(),
            gd: random.truth() && height.is_multiple_of(2),
            rows_reversed: random.truth(),
        }
    }

    /// A panel small enough that its pixels cost nothing.
    pub(super) fn small(random: &mut Random) -> Geometry {
        let width = random.pick(&[1, 2, 7, 8, 9, 16, 17, 24, 31]);
        let height = random.pick(&[1, 2, 3, 4, 5, 8, 9, 12, 16]);
        Geometry::of(width, height, random)
    }
}

impl Configuration {
    pub(super) fn set_panel(&mut self, panel: Geometry) {
        self.fields[0] = panel.width;
        self.fields[1] = panel.height;
        self.fields[2] = panel.first_source;
        self.fields[3] = panel.columns_reversed.into();
        self.fields[4] = panel.sm.into();
        self.fields[5] = panel.gd.into();
        self.fields[6] = panel.rows_reversed.into();
    }

    pub(super) fn set_periods(&mut self, periods: &settings::Periods) {
        self.fields[22..38].copy_from_slice(periods);
    }

    /// Adds an entry to the OTP table.
    pub(super) fn push_entry(&mut self, mode: u8, bounds: [u16; 2], setting: &Setting) {
        self.otp.extend([mode, 0]);
        for bound in bounds {
            self.otp.extend(bound.to_be_bytes());
        }
        self.otp.extend(setting);
    }

    /// Adds the reference's three waveforms.
    pub(super) fn push_reference(&mut self) {
        for waveform in gdeq0426t82_otp() {
            let OtpWaveform { lower, upper, .. } = waveform;
            let bounds = [lower.register(), upper.register()];
            let mode = u8::from(waveform.mode == DisplayMode::Two);
            self.push_entry(mode, bounds, &waveform.setting);
        }
    }
}

/// The reference's optics, durations and waveforms on the panel `panel`.
pub(super) fn reference(panel: Geometry) -> Configuration {
    let mut configuration = Configuration::new();
    configuration.set_panel(panel);
    configuration.fields[8] = SWING;
    configuration.fields[9] = 1;
    configuration.fields[10] = 255;
    let durations = [0, 100, 200, 5, 5, 1, 2, 1, 2, 1];
    for (place, milliseconds) in durations.into_iter().enumerate() {
        configuration.fields[12 + place] = milliseconds * MILLISECOND;
    }
    configuration.set_periods(&[PERIOD; 16]);
    configuration.fields[38] = 1;
    configuration.fields[39] = 25 * 16;
    configuration.fields[42] = 3_300;
    configuration.push_reference();
    configuration
}

/// A small panel under the reference's values, some of them moved.
pub(super) fn small(random: &mut Random) -> Configuration {
    let mut configuration = reference(Geometry::small(random));
    vary(&mut configuration, random);
    configuration
}

/// Moves what a board or a bench may set otherwise.
fn vary(configuration: &mut Configuration, random: &mut Random) {
    let fields = &mut configuration.fields;
    fields[9] = random.truth().into();
    fields[10] = random.pick(&[0, 1, 127, 128, 254, 255]);
    fields[38] = random.pick(&[0, 1, 1]);
    fields[39] = random.pick(&[0, 400, 799, 800, 801, 0x7FF, 0x801, 0x801, 0xFFF, 0xF801]);
    fields[40] = random.truth().into();
    fields[41] = random.below(0x1_0000);
    fields[42] = random.pick(&[
        0,
        2199,
        2200,
        2299,
        2300,
        2599,
        2600,
        3300,
        u64::from(u32::MAX),
    ]);
    for id in &mut fields[43..FREQUENCY] {
        *id = random.byte().into();
    }
    if random.one_in(4) {
        for duration in &mut fields[12..22] {
            *duration = random.pick(&[0, 0, 1, 1000, MILLISECOND, 100 * MILLISECOND]);
        }
    }
    if random.one_in(3) {
        configuration.otp.clear();
        for _ in 0..random.below(5) {
            entry(configuration, random);
        }
    }
}

/// Adds an entry that every start accepts.
pub(super) fn entry(configuration: &mut Configuration, random: &mut Random) {
    let mut setting = settings::setting(random);
    settings::make_listed(&mut setting, random);
    let mut bound = || random.pick(&[0x800, 0x801, 0xFFF, 0, 1, 400, 800, 0x7FE, 0x7FF]);
    let bounds = [bound(), bound()];
    let mode = u8::from(random.truth());
    configuration.push_entry(mode, bounds, &setting);
}

/// A configuration that a start refuses more often than not: one to three of its conditions hold.
pub(super) fn refused(random: &mut Random) -> Configuration {
    let mut configuration = small(random);
    for _ in 0..random.between(0, 3) {
        spoil(&mut configuration, random);
    }
    configuration
}

/// Makes one of the conditions of 1 to 6 and 12 hold, or nearly.
fn spoil(configuration: &mut Configuration, random: &mut Random) {
    let otp_end = configuration.otp.len();
    let fields = &mut configuration.fields;
    match random.below(13) {
        0 => fields[usize::from(random.truth())] = 0,
        1 => {
            fields[0] = random.pick(&[959, 960, 961, 65_535]);
            fields[2] = random.pick(&[0, 1, 2, 65_535]);
        }
        2 => fields[1] = random.pick(&[680, 681, 65_535]),
        3 => {
            fields[1] = random.pick(&[1, 2, 3, 679, 680]);
            fields[5] = 1;
        }
        4 => fields[8] = 0,
        5 => fields[22 + random.below(16) as usize] = 0,
        6 => configuration.otp.truncate(otp_end.saturating_sub(1)),
        7 => {
            let entries = random.pick(&[MAX_ENTRIES, MAX_ENTRIES + 1]);
            while configuration.otp.len() < entries * ENTRY_BYTES {
                entry(configuration, random);
            }
        }
        place => {
            entry(configuration, random);
            let last = configuration.otp.len() - ENTRY_BYTES;
            let entry = random.below(1 + last as u64 / ENTRY_BYTES as u64) as usize;
            let at = if place == 8 {
                // A mode, a provenance, or the high byte of a bound.
                random.pick(&[0, 1, 2, 4])
            } else {
                random.between(6 + 106, 6 + 109) as usize
            };
            configuration.otp[entry * ENTRY_BYTES + at] = random.pick(&[1, 2, 15, 16, 0xFF]);
        }
    }
}

/// Numbers of any size in every field but the frequency, for the conditions of a start alone.
pub(super) fn any(random: &mut Random) -> Configuration {
    let mut configuration = small(random);
    for _ in 0..random.between(1, 8) {
        let field = random.below(FREQUENCY as u64) as usize;
        configuration.fields[field] = random.any_size() & largest(field);
    }
    configuration
}
