//! The configuration fields of docs/replay-format.md, the lent OTP table, and a start with them.

use emu_core::Frequency;

use crate::lines::ONE_GIGAHERTZ;
use crate::ssd1677::{
    ConfigError, DisplayMode, GateScan, LUT_BYTES, Optics, OtpWaveform, PanelGeometry, Provenance,
    Ssd1677, Ssd1677Config, Ssd1677Timing, Temperature,
};

pub(super) const FIELDS: usize = 54;
/// The field of the time base, in cycles a second (#101).
pub(super) const FREQUENCY: usize = 53;
/// Mode, provenance, two bounds of two bytes each, then the setting.
pub(super) const ENTRY_BYTES: usize = 6 + LUT_BYTES;
/// The entries that the port's lent table may hold.
pub(super) const MAX_ENTRIES: usize = 64;

/// The largest number that configuration field `field` holds.
pub(super) fn largest(field: usize) -> u64 {
    match field {
        3..=7 | 9 | 11 | 38 | 40 => 1,
        0..=2 | 39 | 41 => u64::from(u16::MAX),
        42 | FREQUENCY => u64::from(u32::MAX),
        10 | 43..=52 => u64::from(u8::MAX),
        _ => u64::MAX,
    }
}

/// What a start is refused with: its number, and the code of 5 or the index of 6.
#[derive(Clone, Copy, Debug, PartialEq, Eq)]
pub(super) struct Refusal(pub(super) u8, pub(super) usize);

impl From<ConfigError> for Refusal {
    fn from(error: ConfigError) -> Refusal {
        match error {
            ConfigError::EmptyPanel => Refusal(1, 0),
            ConfigError::PanelOutsideRam { .. } => Refusal(2, 0),
            ConfigError::OddRowsWithGd { .. } => Refusal(3, 0),
            ConfigError::ZeroSwing => Refusal(4, 0),
            ConfigError::ZeroFramePeriod { code } => Refusal(5, code),
            ConfigError::OtpVoltage { index } => Refusal(6, index),
        }
    }
}

/// The configuration as numbers, with the OTP table as lent bytes.
#[derive(Clone, PartialEq, Eq)]
pub(super) struct Configuration {
    pub(super) fields: [u64; FIELDS],
    pub(super) otp: Vec<u8>,
}

impl Configuration {
    /// All 0 but for the time base, where a cycle is a nanosecond; the OTP empty.
    pub(super) fn new() -> Configuration {
        let mut fields = [0; FIELDS];
        fields[FREQUENCY] = ONE_GIGAHERTZ.0.into();
        Configuration {
            fields,
            otp: Vec::new(),
        }
    }

    /// Puts `byte` at `place` of the OTP table, which ends after the highest place set.
    pub(super) fn set_otp(&mut self, place: usize, byte: u8) {
        if self.otp.len() <= place {
            self.otp.resize(place + 1, 0);
        }
        self.otp[place] = byte;
    }

    fn word(&self, field: usize) -> u16 {
        u16::try_from(self.fields[field]).expect("a 16-bit field")
    }

    fn byte(&self, field: usize) -> u8 {
        u8::try_from(self.fields[field]).expect("an 8-bit field")
    }

    fn double_word(&self, field: usize) -> u32 {
        u32::try_from(self.fields[field]).expect("a 32-bit field")
    }

    fn truth(&self, field: usize) -> bool {
        self.fields[field] != 0
    }

    fn provenance(number: u64) -> Provenance {
        match number {
            0 => Provenance::Approximation,
            _ => Provenance::Measured,
        }
    }

    fn panel(&self) -> PanelGeometry {
        PanelGeometry {
            width: self.word(0),
            height: self.word(1),
            first_source: self.word(2),
            columns_reversed: self.truth(3),
            native_scan: GateScan {
                sm: self.truth(4),
                gd: self.truth(5),
            },
            rows_reversed: self.truth(6),
        }
    }

    fn optics(&self) -> Optics {
        Optics {
            provenance: Configuration::provenance(self.fields[7]),
            full_swing: self.fields[8],
            positive_drives_black: self.truth(9),
            initial_gray: self.byte(10),
        }
    }

    fn timing(&self) -> Ssd1677Timing {
        Ssd1677Timing {
            provenance: Configuration::provenance(self.fields[11]),
            clock_on: self.fields[12],
            analog_on: self.fields[13],
            analog_off: self.fields[14],
            temperature_internal: self.fields[15],
            temperature_external: self.fields[16],
            lut_load: self.fields[17],
            soft_reset: self.fields[18],
            hardware_reset: self.fields[19],
            auto_write: self.fields[20],
            vci_detection: self.fields[21],
            frame_period: std::array::from_fn(|code| self.fields[22 + code]),
        }
    }

    /// The reference's configuration, with the waveforms of `otp`.
    fn reference(&self, otp: Vec<OtpWaveform>) -> Ssd1677Config {
        Ssd1677Config {
            panel: self.panel(),
            optics: self.optics(),
            timing: self.timing(),
            otp,
            busy_active_high: self.truth(38),
            ambient: Temperature::from_register(self.word(39)),
            external_sensor: self
                .truth(40)
                .then(|| Temperature::from_register(self.word(41))),
            vci_millivolts: self.double_word(42),
            user_id: std::array::from_fn(|place| self.byte(43 + place)),
        }
    }

    pub(super) fn time_base(&self) -> Frequency {
        Frequency(self.double_word(FREQUENCY))
    }

    /// The reference's configuration, or what the port refuses it with: 1 to 5, 14, 12, 6 in this
    /// order. The reference has no 14 and no 12; it tests 1 to 6, so without a waveform it tests
    /// 1 to 5.
    pub(super) fn validated(&self) -> Result<Ssd1677Config, Refusal> {
        let without_otp = self.reference(Vec::new());
        without_otp.validate()?;
        if self.time_base() == Frequency(0) {
            return Err(Refusal(14, 0));
        }
        let config = self.reference(waveforms(&self.otp).ok_or(Refusal(12, 0))?);
        config.validate()?;
        Ok(config)
    }

    pub(super) fn start(&self) -> Result<Ssd1677, Refusal> {
        let config = self.validated()?;
        Ok(Ssd1677::new(config, self.time_base())?)
    }
}

/// The waveforms of a lent OTP table; `None` when the port refuses the table with 12.
pub(super) fn waveforms(otp: &[u8]) -> Option<Vec<OtpWaveform>> {
    let (entries, rest) = otp.as_chunks::<ENTRY_BYTES>();
    if !rest.is_empty() || entries.len() > MAX_ENTRIES {
        return None;
    }
    entries.iter().map(waveform).collect()
}

fn waveform(entry: &[u8; ENTRY_BYTES]) -> Option<OtpWaveform> {
    let bound = |at: usize| {
        let register = u16::from_be_bytes([entry[at], entry[at + 1]]);
        (register <= 4095).then(|| Temperature::from_register(register))
    };
    if entry[1] > 1 {
        return None;
    }
    Some(OtpWaveform {
        mode: match entry[0] {
            0 => DisplayMode::One,
            1 => DisplayMode::Two,
            _ => return None,
        },
        lower: bound(2)?,
        upper: bound(4)?,
        setting: *entry[6..].as_array()?,
        provenance: Configuration::provenance(u64::from(entry[1])),
    })
}

/// A waveform as an entry of the table (SCOPE, OTP table).
pub(super) fn entry(waveform: &OtpWaveform) -> Vec<u8> {
    let measured = matches!(waveform.provenance, Provenance::Measured);
    let mut entry: Vec<u8> = [waveform.mode == DisplayMode::Two, measured]
        .map(u8::from)
        .into();
    for bound in [waveform.lower, waveform.upper] {
        entry.extend(bound.register().to_be_bytes());
    }
    entry.extend(waveform.setting);
    entry
}
