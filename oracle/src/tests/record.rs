//! Diagnostics as records of 16 bytes (SCOPE, Log): time 0–7, number 8,
//! field a 9, b 10–11, c 12–13, low byte first, then zeros.

use crate::ssd1677::{Diagnostic, DiagnosticKind, DisplayMode, Stage};

pub(super) const RECORD_BYTES: usize = 16;
/// The log that the port is lent: 1,024 records.
pub(super) const LOG_BYTES: usize = 1024 * RECORD_BYTES;

fn stage_number(stage: Stage) -> u8 {
    match stage {
        Stage::AnalogOn => 0,
        Stage::TemperatureLoad => 1,
        Stage::LutLoad => 2,
        Stage::Display => 3,
        Stage::HvReadyDetection => 4,
        Stage::VciDetection => 5,
        Stage::VcomSense => 6,
    }
}

/// The number of a diagnostic and its fields a, b and c.
fn fields(kind: &DiagnosticKind) -> (u8, u8, u16, u16) {
    use DiagnosticKind as D;
    match *kind {
        D::UnknownCommand { command } => (21, command, 0, 0),
        D::ReservedCommand { command } => (22, command, 0, 0),
        D::UnsupportedCommand { command, .. } => (23, command, 0, 0),
        D::DataWithoutCommand { data } => (24, data, 0, 0),
        D::ExtraData { command } => (25, command, 0, 0),
        D::MissingData {
            command,
            expected,
            received,
        } => (26, command, expected, received),
        D::WhileBusy { command } => (27, command, 0, 0),
        D::WhileAsleep { command } => (28, command, 0, 0),
        D::WhileInReset { command } => (29, command, 0, 0),
        D::ReservedValue { command, value } => (30, command, u16::from(value), 0),
        D::RamOutOfRange { command, x, y } => (31, command, x, y),
        D::CounterOutsideWindow { command, x, y } => (32, command, x, y),
        D::WithoutClock { stage } => (33, stage_number(stage), 0, 0),
        D::WithoutAnalog { stage } => (34, stage_number(stage), 0, 0),
        D::NoWaveform { mode, temperature } => {
            let mode = u8::from(mode == DisplayMode::Two);
            (35, mode, temperature.register(), 0)
        }
        D::NoExternalSensor => (36, 0, 0, 0),
        D::RamPingPong => (37, 0, 0, 0),
        D::NothingToRead { command } => (38, command, 0, 0),
        D::ResetDuringDisplay => (39, 0, 0, 0),
    }
}

pub(super) fn record(diagnostic: &Diagnostic) -> [u8; RECORD_BYTES] {
    let (number, a, b, c) = fields(&diagnostic.kind);
    let mut record = [0; RECORD_BYTES];
    record[0..8].copy_from_slice(&diagnostic.at.get().to_le_bytes());
    record[8] = number;
    record[9] = a;
    record[10..12].copy_from_slice(&b.to_le_bytes());
    record[12..14].copy_from_slice(&c.to_le_bytes());
    record
}
