//! A sequence of events being written, beside a device that lives through it: the device tells when
//! BUSY falls and when a refresh drives, so that events can be laid at those very moments.

use std::fmt::Write;

use emu_core::Cycles;

use crate::ssd1677::tests::coldest;
use crate::ssd1677::tests::configuration::{Configuration, FREQUENCY};
use crate::ssd1677::tests::line::Line;
use crate::ssd1677::tests::random::Random;
use crate::ssd1677::{Power, Ssd1677, Temperature};

/// Pixels of the panels whose pictures are written.
const SMALL: usize = 512;

pub(super) struct Script {
    pub(super) random: Random,
    /// The place of the sequence within its family: what is counted through goes by it.
    pub(super) place: u64,
    /// The time of the next event.
    pub(super) now: u64,
    /// The frequency that every start has, whatever its configuration says; `None` leaves it.
    pub(super) frequency: Option<u64>,
    pub(super) device: Option<Ssd1677>,
    /// Whether a waveform was asked for at −2048.
    pub(super) asked_coldest: bool,
    text: String,
    /// Whether the last line written was a dump.
    dumped: bool,
}

impl Script {
    pub(super) fn new(case: u64, place: u64, random: Random) -> Script {
        let mut script = Script {
            random,
            place,
            now: 0,
            frequency: None,
            device: None,
            asked_coldest: false,
            text: String::new(),
            dumped: false,
        };
        script.line(0, 10, case % 10_000);
        script
    }

    /// The lines; the last is a dump, or after it the picture of a panel that is small.
    pub(super) fn finish(mut self) -> String {
        if !self.dumped {
            self.dump();
        }
        let panel = self.device.as_ref().map(|device| device.panel_image());
        if panel.is_some_and(|panel| panel.pixels.len() <= SMALL) {
            self.line(0, 17, 0);
        }
        self.text
    }

    pub(super) fn line(&mut self, number: u64, kind: u8, value: u64) {
        let value = u16::try_from(value).expect("a value of four columns");
        let line = Line {
            number,
            kind,
            value,
        };
        self.dumped = kind == 7;
        let _ = write!(self.text, "{line}");
    }

    /// `configuration` under the script's frequency.
    fn timed(&self, configuration: &Configuration) -> Configuration {
        let mut timed = configuration.clone();
        timed.fields[FREQUENCY] = self.frequency.unwrap_or(timed.fields[FREQUENCY]);
        timed
    }

    /// Writes `configuration` over a new case's, and starts.
    pub(super) fn start(&mut self, configuration: &Configuration) {
        self.configure(configuration);
        self.start_again(configuration);
    }

    /// The lines of `configuration`: what a new case has already needs none, but for the table's last byte.
    pub(super) fn configure(&mut self, configuration: &Configuration) {
        let timed = self.timed(configuration);
        for (field, number) in timed.fields.into_iter().enumerate() {
            if number != Configuration::new().fields[field] {
                self.line(number, 11, field as u64);
            }
        }
        let end = configuration.otp.len();
        for (place, &byte) in configuration.otp.iter().enumerate() {
            if byte != 0 || place + 1 == end {
                self.line(byte.into(), 12, place as u64);
            }
        }
    }

    /// Starts with the configuration that the lines so far have given.
    pub(super) fn start_again(&mut self, configuration: &Configuration) {
        self.line(0, 13, 0);
        self.device = self.timed(configuration).start().ok();
    }

    pub(super) fn command(&mut self, command: u8) {
        self.line(self.now, 1, command.into());
        if let Some(device) = &mut self.device {
            device.advance(Cycles(self.now));
            let looks = command == 0x20 && coldest::looks_for_a_waveform(device);
            device.write_command(Cycles(self.now), command);
            self.asked_coldest |= looks && coldest::is_coldest(device);
        }
    }

    pub(super) fn data(&mut self, data: u8) {
        self.line(self.now, 2, data.into());
        if let Some(device) = &mut self.device {
            device.write_data(Cycles(self.now), data);
        }
    }

    pub(super) fn read(&mut self) {
        self.line(self.now, 3, 0);
        if let Some(device) = &mut self.device {
            let _ = device.read_data(Cycles(self.now));
        }
    }

    /// The same data byte `count` times, in two lines.
    pub(super) fn data_times(&mut self, count: u64, data: u8) {
        self.line(count, 8, 0);
        self.line(self.now, 2, data.into());
        if let Some(device) = &mut self.device {
            (0..count).for_each(|_| device.write_data(Cycles(self.now), data));
        }
    }

    /// `count` reads in two lines.
    pub(super) fn read_times(&mut self, count: u64) {
        self.line(count, 8, 0);
        self.line(self.now, 3, 0);
        if let Some(device) = &mut self.device {
            for _ in 0..count {
                let _ = device.read_data(Cycles(self.now));
            }
        }
    }

    /// A command and its parameters.
    pub(super) fn write(&mut self, command: u8, parameters: &[u8]) {
        self.command(command);
        self.bytes(parameters);
    }

    /// Data bytes, runs of one byte in two lines.
    pub(super) fn bytes(&mut self, bytes: &[u8]) {
        for run in bytes.chunk_by(|a, b| a == b) {
            if run.len() > 3 {
                self.data_times(run.len() as u64, run[0]);
            } else {
                run.iter().for_each(|&byte| self.data(byte));
            }
        }
    }

    pub(super) fn reset(&mut self, asserted: bool) {
        self.line(self.now, 4, asserted.into());
        if let Some(device) = &mut self.device {
            device.set_reset(Cycles(self.now), asserted);
        }
    }

    pub(super) fn advance(&mut self) {
        self.line(self.now, 5, 0);
        if let Some(device) = &mut self.device {
            device.advance(Cycles(self.now));
        }
    }

    pub(super) fn query(&mut self) {
        self.line(self.now, 6, 0);
    }

    pub(super) fn dump(&mut self) {
        self.line(0, 7, 0);
    }

    pub(super) fn counts(&mut self) {
        self.line(0, 18, 0);
    }

    pub(super) fn dump_one_in(&mut self, times: u64) {
        if self.random.one_in(times) {
            self.dump();
        }
    }

    pub(super) fn set_ambient(&mut self, register: u16) {
        self.line(register.into(), 9, 0);
        if let Some(device) = &mut self.device {
            device.set_ambient(Temperature::from_register(register));
        }
    }

    pub(super) fn take_diagnostics(&mut self) {
        self.line(0, 14, 0);
        if let Some(device) = &mut self.device {
            device.take_diagnostics();
        }
    }

    /// Moves the time of the next event on by `span`.
    pub(super) fn pass(&mut self, span: u64) {
        self.now = self.now.saturating_add(span);
    }

    /// The next instant at which something changes by itself.
    pub(super) fn deadline(&self) -> Option<u64> {
        Some(self.device.as_ref()?.next_deadline()?.get())
    }

    /// Moves to the next deadline, as often as there is one; the next event brings the device there.
    pub(super) fn wait(&mut self) {
        while let Some(deadline) = self.deadline() {
            self.now = self.now.max(deadline);
            if let Some(device) = &mut self.device {
                // The event that follows does the same first.
                device.advance(Cycles(self.now));
            }
        }
    }

    /// A moment `away` from `moment`: one before, itself, or one after.
    pub(super) fn near(&mut self, moment: u64) -> u64 {
        match self.random.below(3) {
            0 => moment.saturating_sub(1),
            1 => moment,
            _ => moment.saturating_add(1),
        }
    }

    /// Whether the device answers commands, whatever BUSY says.
    pub(super) fn is_awake(&self) -> bool {
        let power = self.device.as_ref().map(|device| device.power);
        power == Some(Power::Running)
    }

    /// A reset pulse, and the wait after it.
    pub(super) fn pulse(&mut self) {
        self.reset(true);
        self.pass(10_000_000);
        self.reset(false);
        self.wait();
    }

    /// When the running refresh starts driving and when it ends.
    pub(super) fn display(&self) -> Option<(u64, u64)> {
        let display = self.device.as_ref()?.display.as_ref()?;
        Some((display.started.get(), display.ends.get()))
    }
}
