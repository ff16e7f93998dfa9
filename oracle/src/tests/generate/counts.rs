//! The counts of greys and the record of the waveform last loaded (#108), asked after each thing that may move them and
//! each that must not.

use super::bus::{ready, value};
use super::driving::planes;
use super::firmware::activate;
use super::script::Script;
use super::starts::overlapping;
use crate::ssd1677::tests::configuration::Configuration;
use crate::ssd1677::tests::configurations::Geometry;

/// Temperatures at the bounds of the ranges that `overlapping` has.
const EDGES: [u16; 11] = [0x801, 0xEFF, 0xF00, 0xF01, 0, 1, 399, 400, 401, 800, 801];
/// Commands that move the record where they are taken.
const MOVING: [u8; 3] = [0x12, 0x20, 0x32];

/// What is done, by chance.
const TURNS: [fn(&mut Script); 9] = [
    load, no_load, waveform, voltages, soft_reset, reset, sleep, cut, others,
];

pub(super) fn run(script: &mut Script) {
    let (panel, mut configuration) = overlapping(script, &[1, 2, 2, 3, 4, 5, 6, 64]);
    configuration.fields[10] = script.random.pick(&[0, 1, 128, 254, 255]);
    script.counts();
    script.start(&configuration);
    script.counts();
    planes(script, panel);
    for _ in 0..script.random.between(4, 10) {
        ready(script);
        load(script);
        if script.random.truth() {
            script.wait();
        }
        script.random.pick(&TURNS)(script);
        script.counts();
        script.dump_one_in(4);
        if script.random.one_in(12) {
            begin_anew(script, panel, &configuration);
        }
    }
}

/// A second start: all white, none loaded.
fn begin_anew(script: &mut Script, panel: Geometry, configuration: &Configuration) {
    script.start_again(configuration);
    script.counts();
    planes(script, panel);
}

/// A temperature by `0x1A`, and stages that load a waveform for it, found or not.
fn load(script: &mut Script) {
    let [high, low] = (script.random.pick(&EDGES) << 4).to_be_bytes();
    script.write(0x1A, &[high, low]);
    let stages = [0x90, 0x98, 0x91, 0x99, 0xB0, 0xB8, 0xD4, 0xDC, 0xD7, 0xDF];
    let stages = script.random.pick(&stages);
    activate(script, stages);
    script.counts();
}

/// Stages that load none: bit 4 not set, or the clock off.
fn no_load(script: &mut Script) {
    script.wait();
    let stages = script.random.pick(&[0x01, 0x03, 0xC0]);
    activate(script, stages);
    script.wait();
    let stages = script
        .random
        .pick(&[0x10, 0x18, 0x14, 0x1C, 0xC4, 0xCC, 0xEF]);
    activate(script, stages);
}

/// Bytes of `0x32`: none, some, all, and more than it takes.
fn waveform(script: &mut Script) {
    script.command(0x32);
    script.counts();
    let count = script.random.pick(&[0, 1, 2, 104, 105, 106, 111]);
    for place in 0..count {
        let byte = script.random.byte() & 0x55;
        script.data(byte);
        if place == 0 {
            script.counts();
        }
    }
}

/// The other commands of the LUT register, and two beside them.
fn voltages(script: &mut Script) {
    let command = script.random.pick(&[0x03, 0x04, 0x2C, 0x37, 0x38]);
    script.command(command);
    for _ in 0..3 {
        let byte = value(script);
        script.data(byte);
    }
}

fn soft_reset(script: &mut Script) {
    script.command(0x12);
    script.counts();
    script.wait();
    script.advance();
}

/// What moves the record where it is taken, sent to a chip that is asleep or in reset.
fn untaken(script: &mut Script) {
    for _ in 0..script.random.below(3) {
        let command = script.random.pick(&MOVING);
        script.command(command);
        script.data(0x00);
        script.counts();
    }
}

fn reset(script: &mut Script) {
    script.reset(true);
    script.counts();
    untaken(script);
    let asserted = script.random.truth();
    script.reset(asserted);
    script.counts();
    script.reset(false);
    script.data(0x32);
}

fn sleep(script: &mut Script) {
    script.wait();
    let mode = script.random.pick(&[0x00, 0x01, 0x02, 0x03]);
    script.write(0x10, &[mode]);
    script.counts();
    untaken(script);
    script.reset(false);
    script.counts();
}

/// A refresh that is cut, dropped, or ends: the line falls before driving, within, or at the end.
fn cut(script: &mut Script) {
    script.wait();
    let stages = script.random.pick(&[0xC4, 0xCC, 0xD4, 0xDC]);
    activate(script, stages);
    if let Some((started, ends)) = script.display() {
        let within = script.random.between(started, ends);
        let moment = script.random.pick(&[started, ends, within, within]);
        script.now = script.near(moment).max(script.now);
    }
    script.counts();
    script.reset(true);
    script.counts();
    script.reset(false);
}

/// What is no command and no reset, and what a busy chip does not take.
fn others(script: &mut Script) {
    match script.random.below(5) {
        0 => script.read(),
        1 => script.take_diagnostics(),
        2 => script.set_ambient(400),
        3 => script.advance(),
        _ => untaken(script),
    }
}
