//! What the other families come to seldom: sums at the ends of their types, two refusals at once,
//! detections one after the other, registers at the bounds of what the datasheet lists.

use super::driving::planes;
use super::firmware::{activate, load_setting, power_on, window};
use super::script::Script;
use super::starts::two_refusals;
use crate::ssd1677::tests::configuration::Configuration;
use crate::ssd1677::tests::configurations::{self, Geometry};
use crate::ssd1677::tests::settings::Setting;

/// The rarities in turn.
const TURNS: [fn(&mut Script); 11] = [
    wide_swings,
    long_durations,
    two_refusals,
    detections,
    sleeping_reads,
    full_counts,
    listed_bounds,
    part_writes,
    no_durations,
    scanned_gates,
    counter_bytes,
];

pub(super) fn run(script: &mut Script) {
    let turn = script.place as usize % TURNS.len();
    TURNS[turn](script);
}

/// A small panel under the reference's values.
fn panel(script: &mut Script) -> (Geometry, Configuration) {
    let panel = Geometry::small(&mut script.random);
    (panel, configurations::reference(panel))
}

/// A setting of two groups, each of two phases of one frame, with any codes; frame-rate code 0.
fn two_groups(script: &mut Script) -> Setting {
    let mut setting = [0; _];
    for group in 0..2 {
        for lut in 0..4 {
            setting[10 * lut + group] = script.random.byte();
        }
        setting[50 + 5 * group..52 + 5 * group].fill(1);
    }
    setting[106..109].copy_from_slice(&[0x41, 0xA8, 0x32]);
    setting
}

/// Swings of 2^62 to 2^63−1 and phases whose drive is a part of one: a state and a drive whose sum
/// is past 2^63−1, with bounds that are not yet one.
fn wide_swings(script: &mut Script) {
    let (panel, mut configuration) = panel(script);
    let swing = script.random.between(1 << 62, (1 << 63) - 1);
    configuration.fields[8] = script.random.pick(&[swing, (1 << 63) - 1]);
    configuration.fields[9] = script.random.truth().into();
    configuration.fields[10] = script.random.pick(&[1, 64, 127, 192, 254]);
    // 15,000 mV for one frame is a half to a tenth of the swing.
    let period = (1 << 62) / 15_000 / script.random.between(1, 5);
    configuration.set_periods(&[period; 16]);
    script.start(&configuration);
    for _ in 0..3 {
        planes(script, panel);
        let setting = two_groups(script);
        load_setting(script, &setting);
        let border = script.random.byte() & 0x7F;
        script.write(0x3C, &[border]);
        activate(script, 0xC4);
        if script.random.one_in(3) {
            let frames = script.random.between(1, 4);
            script.pass(period * frames);
            script.reset(true);
            script.dump();
            script.reset(false);
        }
        script.wait();
        script.dump();
    }
}

/// Groups that together last 2^64 ns and more, each of them less.
fn long_durations(script: &mut Script) {
    let (panel, mut configuration) = panel(script);
    let period = script.random.pick(&[1 << 62, (1 << 62) + 1, 1 << 63]);
    configuration.set_periods(&[period; 16]);
    configuration.fields[13] = script.random.pick(&[0, 1, 1 << 63, u64::MAX]);
    script.start(&configuration);
    planes(script, panel);
    let setting = two_groups(script);
    load_setting(script, &setting);
    activate(script, 0xC4);
    script.dump();
    script.now = script.random.pick(&[1 << 62, 1 << 63, u64::MAX - 1]);
    script.advance();
    script.dump();
    if script.random.truth() {
        script.reset(true);
    }
    script.now = u64::MAX;
    script.advance();
}

/// Detections with and without supplies, one after the other with no reset between, at a supply
/// that is one of the levels.
fn detections(script: &mut Script) {
    let (_, mut configuration) = panel(script);
    configuration.fields[42] = script.random.pick(&[2200, 2250, 2300, 2400, 2500, 2600]);
    script.start(&configuration);
    for stages in [0x00, 0xC0, 0x02, 0x01, 0xC0] {
        activate(script, stages);
        script.wait();
        for command in [0x14, 0x15, 0x15, 0x15] {
            let byte = script.random.byte() & 0x0F;
            let level = script.random.below(8).to_le_bytes()[0];
            let byte = script.random.pick(&[level, level, byte, byte << 4]);
            script.write(command, &[byte]);
            script.query();
            script.wait();
            script.command(0x2F);
            script.read();
        }
        let byte = script.random.byte();
        script.write(0x29, &[byte]);
        script.command(0x28);
        script.dump();
        script.wait();
    }
    script.command(0x12);
    script.wait();
    script.command(0x2F);
    script.read();
}

/// What is read of a chip by the very command that put it to sleep, and of one that was let go
/// without having been held.
fn sleeping_reads(script: &mut Script) {
    let (_, configuration) = panel(script);
    script.start(&configuration);
    power_on(script);
    script.write(0x24, &[0x12, 0x34]);
    script.write(0x26, &[0x56]);
    let mode = script.random.pick(&[0x01, 0x02, 0x03, 0x05, 0x07]);
    script.write(0x10, &[mode]);
    script.read();
    script.data(mode);
    script.dump();
    script.reset(false);
    script.query();
    script.read();
    script.dump();
    script.pulse();
    script.command(0x27);
    (0..3).for_each(|_| script.read());
}

/// Counts of parameters and of reads at 65,535, and a log that has run over and is taken.
fn full_counts(script: &mut Script) {
    let (_, configuration) = panel(script);
    script.start(&configuration);
    for command in [0x24, 0x4E, 0x2F, 0x12] {
        script.command(command);
        script.data_times(65_534, 0x00);
        (0..3).for_each(|_| script.data(0x01));
        script.dump();
        script.wait();
    }
    script.command(0x70);
    for _ in 0..1_022 + script.random.below(4) {
        script.command(0x71);
    }
    // Every read is a line of answers.
    if script.place / TURNS.len() as u64 % 4 == 0 {
        script.command(0x27);
        script.read_times(65_534);
        (0..3).for_each(|_| script.read());
    }
    script.dump();
    script.take_diagnostics();
    script.command(0x71);
}

/// Registers at the bounds of what the datasheet lists, one command each, so that none hides another.
fn listed_bounds(script: &mut Script) {
    let (_, configuration) = panel(script);
    script.start(&configuration);
    for (command, last) in [(0x44, 959u64), (0x45, 679)] {
        for at in [last - 1, last, last + 1, 1023] {
            let [low, high, ..] = at.to_le_bytes();
            script.write(command, &[low, high, 0x07, 0x00]);
            script.write(command, &[0x07, 0x00, low, high]);
        }
    }
    for lines in [298u64, 299, 300, 678, 679, 680] {
        let [low, high, ..] = lines.to_le_bytes();
        let scan = script.random.pick(&[0, 1, 2, 4, 6, 8]);
        script.write(0x01, &[low, high, scan]);
    }
    for code in [0x00, 0x06, 0x07, 0x17, 0x18] {
        script.write(0x03, &[code]);
    }
    for code in [
        0x22, 0x23, 0x4B, 0x4C, 0x8D, 0x8E, 0xCE, 0xCF, 0x1A, 0x1B, 0x3A, 0x3C,
    ] {
        script.write(0x04, &[code, 0x41, 0x32]);
        script.write(0x04, &[0x41, code, 0x32]);
        script.write(0x04, &[0x41, 0xA8, code]);
    }
    for code in [0x04, 0x08, 0x0A, 0x9C, 0xA0, 0xA4] {
        script.write(0x2C, &[code]);
    }
    for option in [0x0C, 0xC0, 0x88, 0x48] {
        script.write(0x21, &[option]);
    }
}

/// Values written in part: the low byte of a coordinate, the first byte of a temperature, after both.
fn part_writes(script: &mut Script) {
    let (_, configuration) = panel(script);
    script.start(&configuration);
    for _ in 0..6 {
        let bytes = [script.random.byte(), script.random.byte()];
        let command = script.random.pick(&[0x4E, 0x4F, 0x44, 0x45, 0x01, 0x1A]);
        script.write(command, &bytes);
        script.write(command, &bytes[1..]);
        script.command(0x1B);
        (0..3).for_each(|_| script.read());
        script.dump();
    }
}

/// Operations that take no time, looked at before another event.
fn no_durations(script: &mut Script) {
    let (_, mut configuration) = panel(script);
    configuration.fields[12..22].fill(0);
    script.start(&configuration);
    script.reset(true);
    script.reset(false);
    script.dump();
    script.command(0x12);
    script.dump();
    script.write(0x46, &[0xF0]);
    script.dump();
    activate(script, 0xC0);
    script.write(0x15, &[0x04]);
    script.dump();
}

/// Fewer gates scanned than the panel has, by one or two, in each order.
fn scanned_gates(script: &mut Script) {
    let (panel, configuration) = panel(script);
    script.start(&configuration);
    power_on(script);
    for scan in [0x00, 0x02, 0x04, 0x06] {
        planes(script, panel);
        let lines = panel.height.saturating_sub(script.random.between(1, 2));
        script.write(0x01, &[lines.max(1).to_le_bytes()[0] - 1, 0x00, scan]);
        // The temperature of a reset has a waveform of its own.
        activate(script, 0x14);
        script.wait();
        script.advance();
        script.dump();
    }
}

/// Counters in and beside the first and the last byte of a window that begins and ends within one.
fn counter_bytes(script: &mut Script) {
    let (_, configuration) = panel(script);
    script.start(&configuration);
    let entry = script.random.below(8).to_le_bytes()[0];
    window(script, entry, [13, 35], [2, 4]);
    for x in [7, 8, 12, 13, 32, 35, 36, 39, 40] {
        script.write(0x4E, &[x, 0x00]);
        let row = script.random.pick(&[1, 2, 4, 5]);
        script.write(0x4F, &[row, 0x00]);
        script.write(0x24, &[x]);
        script.command(0x27);
        (0..3).for_each(|_| script.read());
    }
}
