//! Refreshes and the moments about them: resets before, during and after driving, cuts at the edges
//! of frames, clocks near 2^64−1, swings and periods at their limits.

use super::firmware::{activate, load_setting, picture, power_on, window};
use super::script::Script;
use crate::ssd1677::tests::configurations::{self, Geometry};
use crate::ssd1677::tests::settings::{self, Setting};

/// Some bytes in both planes from the RAM's first row on, so that all four LUTs are chosen.
pub(super) fn planes(script: &mut Script, panel: Geometry) {
    let columns = [panel.first_source, panel.first_source + panel.width - 1];
    let bytes = columns[1] / 8 - columns[0] / 8 + 1;
    for command in [0x24, 0x26] {
        window(script, 0x03, columns, [0, panel.height - 1]);
        picture(script, command, bytes, panel.height);
    }
}

/// Stages that display from the LUT register, the supplies on already or not.
fn stages(script: &mut Script) -> u8 {
    script
        .random
        .pick(&[0x04, 0x0C, 0xC4, 0xCC, 0xC7, 0xCF, 0xE4, 0x06])
}

/// What a board may do while the line is low and after it rises.
fn after_reset(script: &mut Script) {
    script.dump_one_in(2);
    if script.random.truth() {
        script.pass(1000);
        script.write(0x24, &[0xFF]);
        script.read();
        script.query();
    }
    if script.random.one_in(4) {
        script.reset(true);
    }
    script.pass(10_000);
    script.reset(false);
    script.query();
    if script.random.truth() {
        // Data with no command, once and then again.
        script.data(0x12);
        script.data(0x34);
    }
    script.dump_one_in(3);
    script.wait();
}

/// A reset at a moment about the refresh: before driving, at its start, within, at its end, after.
pub(super) fn reset_timing(script: &mut Script) {
    let panel = Geometry::small(&mut script.random);
    let mut configuration = configurations::reference(panel);
    configuration.fields[10] = script.random.pick(&[0, 128, 255]);
    script.start(&configuration);
    for _ in 0..script.random.between(1, 3) {
        planes(script, panel);
        let border = script.random.byte();
        script.write(0x3C, &[border]);
        let stages = script.random.pick(&[0xF7, 0xFC, 0xD7, 0xFF, 0xC7]);
        let begun = script.now;
        activate(script, stages);
        if let (Some((started, ends)), Some(until)) = (script.display(), busy_until(script)) {
            let within = script.random.between(started, ends);
            let edges = [begun, started, started, ends, until, within, within];
            let moment = script.random.pick(&edges);
            script.now = script.near(moment);
            if script.random.truth() {
                script.advance();
            }
        }
        script.reset(true);
        after_reset(script);
    }
}

pub(super) fn busy_until(script: &Script) -> Option<u64> {
    Some(script.device.as_ref()?.busy_until?.get())
}

/// A setting of few frames, so that most cuts fall where something still drives.
fn driving_setting(script: &mut Script) -> Setting {
    let mut setting = settings::setting(&mut script.random);
    if script.random.truth() {
        settings::make_listed(&mut setting, &mut script.random);
    }
    setting
}

/// A cut at a frame's edge, one nanosecond before it and one after.
pub(super) fn cut_edges(script: &mut Script) {
    let panel = Geometry::small(&mut script.random);
    let mut configuration = configurations::reference(panel);
    let periods: settings::Periods = std::array::from_fn(|code| 1_000 + 37 * code as u64);
    configuration.set_periods(&periods);
    configuration.fields[8] = script
        .random
        .pick(&[1_000_000, 500_000_000, 20_000_000_000]);
    configuration.fields[9] = script.random.truth().into();
    configuration.fields[10] = script.random.byte().into();
    script.start(&configuration);
    for _ in 0..script.random.between(1, 3) {
        let setting = driving_setting(script);
        planes(script, panel);
        load_setting(script, &setting);
        let border = script.random.byte();
        script.write(0x3C, &[border & 0x7F]);
        let stages = script.random.pick(&[0xC4, 0xCC]);
        activate(script, stages);
        if let Some((started, ends)) = script.display() {
            let ends_of_frames = settings::frame_ends(&setting, &periods, 4096);
            let edge = started.saturating_add(script.random.pick(&ends_of_frames));
            let between = script.random.between(started, ends);
            let moment = script.random.pick(&[edge, edge, edge, between]);
            script.now = script.near(moment);
        }
        script.reset(true);
        script.dump();
        script.pass(1);
        script.reset(false);
        script.wait();
    }
}

/// Clocks near 2^64−1: instants stop there, and a clock that is there finishes what runs.
pub(super) fn clocks(script: &mut Script) {
    let panel = Geometry::small(&mut script.random);
    let mut configuration = configurations::small(&mut script.random);
    configuration.set_panel(panel);
    if script.random.truth() {
        configuration.otp.clear();
        configuration.push_reference();
    }
    script.start(&configuration);
    let span = script.random.pick(&[
        0,
        1,
        2,
        1_000,
        1_000_000,
        100_000_000,
        600_000_000,
        3_000_000_000,
    ]);
    script.now = u64::MAX - span;
    if script.random.truth() {
        script.advance();
    }
    for _ in 0..script.random.between(1, 4) {
        match script.random.below(6) {
            0 => planes(script, panel),
            1 => power_on(script),
            2 => {
                let setting = driving_setting(script);
                load_setting(script, &setting);
            }
            3 => {
                let value = script.random.byte();
                script.write(0x46, &[value]);
                script.query();
            }
            _ => {}
        }
        let stages = script.random.pick(&[0xF7, 0xFC, 0xC7, 0xC4, 0x04, 0xC0]);
        activate(script, stages);
        script.dump_one_in(2);
        clock_step(script);
    }
}

/// A move of the clock, up to its end and also back.
fn clock_step(script: &mut Script) {
    match script.random.below(7) {
        // What runs ends here, and what this activation begins ends with it.
        6 => {
            script.now = u64::MAX;
            script.command(0x20);
            script.dump();
        }
        0 => script.wait(),
        1 => {
            script.now = u64::MAX;
            script.advance();
            script.dump();
        }
        2 => {
            script.now = u64::MAX - 1;
            script.query();
            script.reset(true);
            script.dump();
            script.reset(false);
        }
        3 => {
            if let Some((started, ends)) = script.display() {
                let moment = script.random.pick(&[started, ends]);
                script.now = script.near(moment);
            }
            script.reset(true);
            script.dump();
            script.reset(false);
            script.wait();
        }
        // The device's clock does not go back.
        4 => {
            script.now = script
                .random
                .pick(&[0, u64::MAX / 2, u64::MAX - 5_000_000_000])
        }
        _ => script.now = script.random.between(script.now, u64::MAX),
    }
}

/// Swings of 1, 2^63−1 and 2^64−1, periods above 2^63, durations that end past the clock.
pub(super) fn extremes(script: &mut Script) {
    let panel = Geometry::small(&mut script.random);
    let mut configuration = configurations::small(&mut script.random);
    configuration.set_panel(panel);
    configuration.fields[8] = settings::full_swing(&mut script.random);
    configuration.fields[10] = script.random.byte().into();
    let periods = settings::periods(&mut script.random);
    configuration.set_periods(&periods);
    if script.random.one_in(3) {
        for _ in 0..3 {
            let duration = 12 + script.random.below(10) as usize;
            let edges = [0, 1, 1 << 63, u64::MAX - 1, u64::MAX];
            configuration.fields[duration] = script.random.pick(&edges);
        }
    }
    script.start(&configuration);
    for _ in 0..script.random.between(1, 3) {
        planes(script, panel);
        let setting = driving_setting(script);
        load_setting(script, &setting);
        let border = script.random.byte();
        script.write(0x3C, &[border]);
        let stages = stages(script);
        activate(script, 0xC0);
        script.wait();
        activate(script, stages);
        script.dump_one_in(3);
        if let Some((started, ends)) = script.display().filter(|_| script.random.truth()) {
            let cut = settings::cut(&setting, &periods, &mut script.random);
            let within = started.saturating_add(cut);
            script.now = script.random.pick(&[within, within, ends]);
            script.reset(true);
            script.dump();
            script.reset(false);
        }
        script.wait();
        script.dump_one_in(2);
    }
}

/// Two refreshes that end in one call: the first by its time, the second because the waveform that
/// the changed temperature selects has no frame and no stage takes time.
pub(super) fn two_ends(script: &mut Script) {
    let panel = Geometry::small(&mut script.random);
    let mut configuration = configurations::reference(panel);
    configuration.fields[12..22].fill(0);
    configuration.otp.clear();
    let mut cold = driving_setting(script);
    settings::make_listed(&mut cold, &mut script.random);
    let mut hot = [0; _];
    settings::make_listed(&mut hot, &mut script.random);
    for mode in [0, 1] {
        configuration.push_entry(mode, [0x800, 0], &cold);
        configuration.push_entry(mode, [0, 0x7FF], &hot);
    }
    script.start(&configuration);
    planes(script, panel);
    script.write(0x18, &[0x80]);
    for _ in 0..script.random.between(1, 3) {
        script.set_ambient(0xFFF);
        let stages = script.random.pick(&[0xF4, 0xFC]);
        activate(script, stages);
        let register = script.random.pick(&[1, 0x7FF, 0x801, 0]);
        script.set_ambient(register);
        if let Some((_, ends)) = script.display() {
            script.now = script.near(ends);
        }
        script.dump_one_in(3);
        script.command(0x20);
        script.dump();
        script.wait();
    }
}
