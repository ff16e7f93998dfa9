//! Lists of events, and both sides that make them of a device from its start on.

use std::time::Duration;

use emu_core::Cycles;

use super::beside::timed;
use super::inside;
use super::lent::Lent;
use super::proved::{Published, recounted};
use super::record::{LOG_BYTES, record};
use crate::lines::ONE_GIGAHERTZ;
use crate::ssd1677::config::{DisplayMode, OtpWaveform, Provenance};
use crate::ssd1677::panel::RefreshKind;
use crate::ssd1677::ram::Plane;
use crate::ssd1677::{Ssd1677, Ssd1677Config};

const COMMAND: u8 = 1;
const DATA: u8 = 2;
const READ: u8 = 3;
const RESET: u8 = 4;
const ADVANCE: u8 = 5;

/// A byte on a bus of 20 MHz, in nanoseconds.
const BYTE: u64 = 400;
const MILLISECOND: u64 = 1_000_000;

/// Events by their kinds (docs/replay-format.md), times and values.
#[derive(Clone, Default)]
pub(super) struct Events {
    pub(super) kinds: Vec<u8>,
    pub(super) times: Vec<u64>,
    pub(super) values: Vec<u8>,
    time: u64,
}

impl Events {
    fn push(&mut self, kind: u8, value: u8) {
        self.kinds.push(kind);
        self.times.push(self.time);
        self.values.push(value);
    }

    /// A command and its data bytes.
    pub(super) fn command(&mut self, command: u8, bytes: &[u8]) {
        self.time += BYTE;
        self.push(COMMAND, command);
        self.data(bytes);
    }

    pub(super) fn data(&mut self, bytes: &[u8]) {
        for &byte in bytes {
            self.time += BYTE;
            self.push(DATA, byte);
        }
    }

    /// The clock moves on by so many nanoseconds.
    pub(super) fn wait(&mut self, nanoseconds: u64) {
        self.time += nanoseconds;
        self.push(ADVANCE, 0);
    }

    /// A clock move at a moment that has gone by.
    pub(super) fn back(&mut self, nanoseconds: u64) {
        self.push(ADVANCE, 0);
        let last = self.times.len() - 1;
        self.times[last] = self.time.saturating_sub(nanoseconds);
    }

    /// Bytes that the chip drives.
    pub(super) fn read(&mut self, count: u64) {
        for _ in 0..count {
            self.time += BYTE;
            self.push(READ, 0);
        }
    }

    pub(super) fn data_count(&self) -> usize {
        self.kinds.iter().filter(|&&kind| kind == DATA).count()
    }

    /// RES# low, and high again.
    pub(super) fn reset(&mut self) {
        self.push(RESET, 1);
        self.time += MILLISECOND;
        self.push(RESET, 0);
    }

    /// All but the event at a place.
    pub(super) fn without(&self, place: usize) -> Events {
        let mut events = self.clone();
        events.kinds.remove(place);
        events.times.remove(place);
        events.values.remove(place);
        events
    }

    /// These events and some more.
    pub(super) fn then(&self, more: impl FnOnce(&mut Events)) -> Events {
        let mut events = self.clone();
        more(&mut events);
        events
    }
}

/// A configuration's table as the port is lent it (SCOPE, OTP table).
fn table(otp: &[OtpWaveform]) -> Vec<u8> {
    let entry = |w: &OtpWaveform| {
        let mode = match w.mode {
            DisplayMode::One => 0,
            DisplayMode::Two => 1,
        };
        let provenance = u8::from(w.provenance == Provenance::Measured);
        let (lower, upper) = (w.lower.register().to_be_bytes(), w.upper.register().to_be_bytes());
        [&[mode, provenance][..], &lower, &upper, &w.setting].concat()
    };
    otp.iter().flat_map(entry).collect()
}

fn header(device: &Ssd1677) -> Published {
    let image = device.panel_image();
    let kind = match image.kind {
        RefreshKind::PowerOn => 0,
        RefreshKind::Full => 1,
        RefreshKind::Partial => 2,
    };
    [
        image.width.into(),
        image.height.into(),
        image.border.into(),
        image.generation,
        kind,
        image.interrupted.into(),
        image.started.0,
        image.at.0,
    ]
}

/// What a run left beside what is compared.
pub(super) struct Told {
    pub(super) generation: u64,
    pub(super) records: usize,
}

/// Both sides of one configuration, with what the last run of each left.
pub(super) struct Sides {
    config: Ssd1677Config,
    otp: Vec<u8>,
    device: Option<Ssd1677>,
    lent: Lent,
    published: Published,
}

impl Sides {
    pub(super) fn new(config: Ssd1677Config) -> Sides {
        Sides {
            otp: table(&config.otp),
            device: None,
            lent: Lent::new(config.panel.width, config.panel.height),
            published: [0; 8],
            config,
        }
    }

    /// The reference: a start, and the call of each event.
    pub(super) fn rust(&mut self, events: &Events) -> Duration {
        let config = self.config.clone();
        // Its memory is given back before the time runs.
        self.device = None;
        timed(|| {
            let mut device = Ssd1677::new(config, ONE_GIGAHERTZ).expect("a start");
            let places = events.kinds.iter().zip(&events.times).zip(&events.values);
            for ((&kind, &time), &value) in places {
                match kind {
                    COMMAND => device.write_command(Cycles(time), value),
                    DATA => device.write_data(Cycles(time), value),
                    READ => drop(device.read_data(Cycles(time))),
                    RESET => device.set_reset(Cycles(time), value != 0),
                    _ => device.advance(Cycles(time)),
                }
            }
            self.device = Some(device);
        })
    }

    pub(super) fn proved(&mut self, events: &Events) -> Duration {
        let mut made = 0;
        let time = timed(|| {
            (made, self.published) = self.lent.traffic(&self.otp, events);
        });
        assert_eq!(made, events.kinds.len(), "refused");
        time
    }

    /// Ends the run where the last runs of the two sides left something else, or a diagnostic.
    pub(super) fn compare(&self) {
        let told = self.told().expect("no difference");
        assert_eq!(told.records, 0, "diagnostics");
    }

    /// What the last runs of the two sides left, or where they differ.
    pub(super) fn told(&self) -> Result<Told, &'static str> {
        let device = self.device.as_ref().expect("a run");
        let mut log: Vec<u8> = device.diagnostics.iter().flat_map(record).collect();
        log.resize(LOG_BYTES, 0);
        let lent = &self.lent;
        let luts_alike = |display| inside::luts(display) == lent.luts;
        let alike = [
            (header(device) == self.published, "the image's header"),
            (device.panel_image().pixels == lent.pixels, "pixels"),
            (recounted(&device.panel_image().pixels) == lent.counts, "counts"),
            (inside::glass(&device.panel).states == lent.states, "states"),
            (device.ram(Plane::BlackWhite) == lent.black_white, "black and white"),
            (device.ram(Plane::Red) == lent.red, "red"),
            (device.display.as_ref().is_none_or(luts_alike), "LUTs"),
            (log == lent.log, "the log"),
        ];
        match alike.iter().find(|(same, _)| !same) {
            Some(&(_, what)) => Err(what),
            None => Ok(Told {
                generation: device.panel_image().generation,
                records: device.diagnostics.len(),
            }),
        }
    }
}
