//! Whether a waveform is asked for at −2048, the one temperature where the port departs from the reference (#107).

use crate::ssd1677::{Power, Ssd1677};

/// Stages of `0x22`: the clock on, the waveform loaded.
const CLOCK_ON: u8 = 0x80;
const LOAD_LUT: u8 = 0x10;

/// −2048 in a register of twelve bits.
pub(super) const COLDEST: u16 = 0x800;

/// Whether `0x20` at the device's time would look for a waveform.
pub(super) fn looks_for_a_waveform(device: &Ssd1677) -> bool {
    let stages = device.regs.update_control_2;
    let accepted = device.power == Power::Running && !device.is_busy(device.now);
    accepted && stages & LOAD_LUT != 0 && (device.clock || stages & CLOCK_ON != 0)
}

/// Whether the temperature is −2048. The search comes after an activation's load of the temperature, so
/// that the register still holds what was asked for when the call is over.
pub(super) fn is_coldest(device: &Ssd1677) -> bool {
    device.regs.temperature % 4096 == COLDEST
}
