//! The place in the OTP of the waveform that an activation loads (#108). The reference keeps none: its own search is
//! asked again.

use crate::ssd1677::config::find_waveform;
use crate::ssd1677::{DisplayMode, MODE_TWO, Ssd1677, Temperature};

/// The record where no waveform is loaded.
pub(super) const NONE: u8 = 255;

/// The place of the entry that an activation just made has loaded, where it looked for one. It changes neither the OTP
/// nor `0x22`, and looks after its load of the temperature, so that the answer is the one that it had.
pub(super) fn place(device: &Ssd1677) -> Option<u8> {
    let mode = match device.regs.update_control_2 & MODE_TWO {
        0 => DisplayMode::One,
        _ => DisplayMode::Two,
    };
    let temperature = Temperature::from_register(device.regs.temperature);
    let otp = &device.config.otp;
    let found = find_waveform(otp, mode, temperature)?;
    let place = otp.iter().position(|entry| std::ptr::eq(entry, found));
    place.and_then(|place| u8::try_from(place).ok())
}
