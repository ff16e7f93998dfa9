//! The log after 1,100 diagnostics, every kind in turn, as the program `records` of the port reports
//! them: the 1,024 records that there is room for, then how many were kept and how many were not.

use std::io::{self, Write};

use emu_core::Cycles;

use super::record::record;
use crate::ssd1677::{
    Diagnostic, DiagnosticKind, DisplayMode, MAX_DIAGNOSTICS, Stage, Temperature,
};

const TURNS: u64 = 1100;

fn stage(turn: u64) -> Stage {
    match turn % 7 {
        0 => Stage::AnalogOn,
        1 => Stage::TemperatureLoad,
        2 => Stage::LutLoad,
        3 => Stage::Display,
        4 => Stage::HvReadyDetection,
        5 => Stage::VciDetection,
        _ => Stage::VcomSense,
    }
}

/// The kinds in their order, with fields of every size.
fn kind(turn: u64) -> DiagnosticKind {
    use DiagnosticKind as D;
    let command = (turn * 37 % 256) as u8;
    let x = (turn * 7919 % 65536) as u16;
    let y = (turn * 104_729 % 65536) as u16;
    match turn % 19 {
        0 => D::UnknownCommand { command },
        1 => D::ReservedCommand { command },
        2 => D::UnsupportedCommand { command, name: "" },
        3 => D::DataWithoutCommand { data: command },
        4 => D::ExtraData { command },
        5 => D::MissingData {
            command,
            expected: x,
            received: y,
        },
        6 => D::WhileBusy { command },
        7 => D::WhileAsleep { command },
        8 => D::WhileInReset { command },
        9 => D::ReservedValue {
            command,
            value: (y % 256) as u8,
        },
        10 => D::RamOutOfRange { command, x, y },
        11 => D::CounterOutsideWindow { command, x, y },
        12 => D::WithoutClock { stage: stage(turn) },
        13 => D::WithoutAnalog { stage: stage(turn) },
        14 => D::NoWaveform {
            mode: if turn.is_multiple_of(2) {
                DisplayMode::One
            } else {
                DisplayMode::Two
            },
            temperature: Temperature::from_register((turn * 31 % 4096) as u16),
        },
        15 => D::NoExternalSensor,
        16 => D::RamPingPong,
        17 => D::NothingToRead { command },
        _ => D::ResetDuringDisplay,
    }
}

pub(super) fn run(out: &mut impl Write) -> io::Result<bool> {
    let room = MAX_DIAGNOSTICS as u64;
    for turn in 0..room.min(TURNS) {
        let at = Cycles(u64::MAX / (turn + 1));
        let kind = kind(turn);
        out.write_all(&record(&Diagnostic { at, kind }))?;
    }
    writeln!(out, "{}\n{}", room.min(TURNS), TURNS - room.min(TURNS))?;
    Ok(true)
}
