//! The device under replay: the reference, and beside it what the port lends or keeps and the
//! reference does not (the log's bytes, the LUT buffer, the border byte of a refresh, the record of
//! the waveform last loaded).

use emu_core::Cycles;

use super::{coldest, hash, inside, loaded, record};
use crate::ssd1677::config::Temperature;
use crate::ssd1677::panel::{PlaneOption, RefreshKind, Scan};
use crate::ssd1677::waveform::Waveform;
use crate::ssd1677::{Active, Current, Power, Ssd1677};

/// `0x20`, the command that starts a refresh.
const ACTIVATE: u8 = 0x20;
/// `0x12`, which brings the registers back as a hardware reset does.
const SOFT_RESET: u8 = 0x12;
/// `0x32`, and the bytes of the waveform that it writes; those that follow are written nowhere.
const WRITE_LUT: u8 = 0x32;
const LUT_WRITTEN: u16 = 105;

pub(super) struct Bench {
    pub(super) device: Ssd1677,
    log: Vec<u8>,
    /// The diagnostics of `device` that stand in `log`.
    logged: usize,
    /// The hash of the LUT buffer.
    pub(super) luts: u64,
    /// The border register when the last refresh began.
    pub(super) border: u8,
    /// The OTP entry of the last waveform loaded, 255 for none (#108).
    pub(super) waveform: u8,
    /// Whether a waveform was asked for at −2048.
    pub(super) asked_coldest: bool,
}

impl Bench {
    pub(super) fn new(device: Ssd1677) -> Bench {
        let pixels = device.panel_image().pixels.len();
        Bench {
            device,
            log: vec![0; record::LOG_BYTES],
            logged: 0,
            luts: hash::of_bytes(&vec![255; pixels]),
            border: 0,
            waveform: loaded::NONE,
            asked_coldest: false,
        }
    }

    pub(super) fn command(&mut self, time: u64, command: u8) {
        match command {
            ACTIVATE => self.activate(time),
            SOFT_RESET => self.soft_reset(time),
            _ => self.device.write_command(Cycles(time), command),
        }
    }

    /// Whether a command is taken at the device's time; `0x2F` is also while it is busy.
    fn accepts(&self) -> bool {
        self.device.power == Power::Running && !self.device.is_busy(self.device.now)
    }

    /// `0x12`, which where it is taken leaves no waveform loaded.
    fn soft_reset(&mut self, time: u64) {
        self.device.advance(Cycles(time));
        if self.accepts() {
            self.waveform = loaded::NONE;
        }
        self.device.write_command(Cycles(time), SOFT_RESET);
    }

    /// `0x20`, and what the LUT buffer, the border byte and the record become.
    ///
    /// An accepted activation has begun a refresh when one is running after it, or, when the
    /// refresh also ended within the call, when an image was published. None can be running
    /// before: BUSY lasts at least as long as the refresh. The advance before is the one that
    /// `write_command` itself begins with; made twice, it does no more than once.
    fn activate(&mut self, time: u64) {
        self.device.advance(Cycles(time));
        let accepted = self.accepts();
        let device = &mut self.device;
        let looks = coldest::looks_for_a_waveform(device);
        let generation = device.panel_image().generation;
        assert!(!accepted || device.display.is_none(), "two refreshes");
        device.write_command(Cycles(time), ACTIVATE);
        self.asked_coldest |= looks && coldest::is_coldest(device);
        if !accepted {
            return;
        }
        if looks {
            // Where it found none, the last one loaded stands.
            self.waveform = loaded::place(device).unwrap_or(self.waveform);
        }
        if let Some(display) = &device.display {
            self.luts = hash::of_bytes(&inside::luts(display));
        } else if device.panel_image().generation != generation {
            self.luts = self.choice_again();
        } else {
            return;
        }
        self.border = self.device.regs.border;
    }

    /// The hash of the LUTs of a refresh that is already over. The reference dropped them, so its
    /// `Panel::start` is asked once more: an activation changes neither the RAM nor the registers
    /// of the scan, and a finished refresh leaves the wiring of the glass alone, so its answer is
    /// the same. The waveform, the border and the times take no part in the choice.
    fn choice_again(&self) -> u64 {
        let regs = &self.device.regs;
        let scan = Scan {
            lines: regs.mux + 1,
            order: regs.gate_scan,
            red: PlaneOption::from_nibble(regs.update_control_1[0] >> 4),
            black_white: PlaneOption::from_nibble(regs.update_control_1[0]),
        };
        let waveform = Waveform::from_setting(&regs.lut, &self.device.config.timing.frame_period);
        let times = (Cycles::ZERO, Cycles::ZERO);
        let panel = &self.device.panel;
        let kind = RefreshKind::Full;
        let display = panel.start(&self.device.ram, scan, waveform, None, kind, times);
        hash::of_bytes(&inside::luts(&display))
    }

    pub(super) fn data(&mut self, time: u64, data: u8) {
        // The clock's move before the byte leaves the command that the byte belongs to.
        if let Current::Active(Active {
            command: WRITE_LUT,
            received,
            ..
        }) = self.device.current
            && received < LUT_WRITTEN
        {
            self.waveform = loaded::NONE;
        }
        self.device.write_data(Cycles(time), data);
    }

    pub(super) fn read(&mut self, time: u64) -> Option<u8> {
        self.device.read_data(Cycles(time))
    }

    pub(super) fn reset(&mut self, time: u64, asserted: bool) {
        // The registers go back when the line falls, not when it rises.
        if asserted && self.device.power != Power::InReset {
            self.waveform = loaded::NONE;
        }
        self.device.set_reset(Cycles(time), asserted);
    }

    pub(super) fn advance(&mut self, time: u64) {
        self.device.advance(Cycles(time));
    }

    pub(super) fn set_ambient(&mut self, register: u16) {
        let ambient = Temperature::from_register(register);
        self.device.set_ambient(ambient);
    }

    /// The log's bytes and its count of records.
    pub(super) fn log(&mut self) -> (&[u8], usize) {
        let diagnostics = &self.device.diagnostics;
        for (place, diagnostic) in diagnostics.iter().enumerate().skip(self.logged) {
            let at = place * record::RECORD_BYTES;
            self.log[at..at + record::RECORD_BYTES].copy_from_slice(&record::record(diagnostic));
        }
        self.logged = diagnostics.len();
        (&self.log, self.logged)
    }

    /// Takes the diagnostics: their bytes stay, and the next record is written at the log's start.
    pub(super) fn take_diagnostics(&mut self) -> usize {
        self.log();
        self.logged = 0;
        self.device.take_diagnostics().len()
    }
}
