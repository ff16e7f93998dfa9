//! Starts that are refused, that come twice, and what stands before them; supplies and sensors.

use super::bus::{ready, value};
use super::firmware::{activate, power_on};
use super::script::Script;
use crate::ssd1677::tests::configuration::{Configuration, ENTRY_BYTES};
use crate::ssd1677::tests::configurations::{self, Geometry};
use crate::ssd1677::tests::settings;

/// Events before a start do nothing, a refused start starts nothing, a second start begins anew.
pub(super) fn starts(script: &mut Script) {
    if script.random.truth() {
        script.command(0x12);
        script.data(0x01);
        script.query();
        script.dump();
        script.take_diagnostics();
        script.set_ambient(0x0190);
        // A count that waits beyond the start.
        script.line(3, 8, 0);
    }
    let configuration = if script.random.one_in(4) {
        configurations::any(&mut script.random)
    } else {
        configurations::refused(&mut script.random)
    };
    // A panel of any size is seldom refused and costs its pixels: it is left out here.
    let pixels = configuration.fields[0] * configuration.fields[1];
    let configuration = if pixels > 20_000 && configuration.start().is_ok() {
        configurations::small(&mut script.random)
    } else {
        configuration
    };
    script.start(&configuration);
    script.dump();
    script.write(0x24, &[1, 2, 3]);
    activate(script, 0xF7);
    script.wait();
    script.advance();
    script.dump_one_in(2);
    if script.random.truth() {
        second_start(script, configuration);
    }
}

fn second_start(script: &mut Script, mut configuration: Configuration) {
    let field = script.random.pick(&[0usize, 1, 8, 10, 22, 38]);
    let number = script
        .random
        .pick(&[0, 1, 1, 2])
        .min(if field == 38 { 1 } else { 2 });
    configuration.fields[field] = number;
    script.line(number, 11, field as u64);
    script.data(0x77);
    script.start_again(&configuration);
    script.now = script.random.pick(&[0, script.now]);
    script.read();
    script.write(0x24, &[4, 5]);
}

/// Makes condition `which` of a start's refusals hold; those of 5 and 6 at two places.
fn spoil(script: &mut Script, configuration: &mut Configuration, which: u64) {
    let fields = &mut configuration.fields;
    match which {
        0 => fields[script.random.below(2) as usize] = 0,
        1 => fields[2] = 961 - fields[0],
        2 => fields[1] = script.random.pick(&[681, 1_000]),
        3 => (fields[1], fields[5]) = (script.random.pick(&[1, 3, 679]), 1),
        4 => fields[8] = 0,
        5 => {
            fields[22 + script.random.below(8) as usize] = 0;
            fields[30 + script.random.below(8) as usize] = 0;
        }
        6 => configuration.otp[script.random.pick(&[0, 1, 2, 4])] = 16,
        _ => {
            let at = script.random.between(6 + 106, 6 + 109) as usize;
            configuration.otp[ENTRY_BYTES + at] = 0xFF;
            configuration.otp[2 * ENTRY_BYTES + at] = 0xFF;
        }
    }
}

/// One condition of a start's refusals, alone and with each of the others; then each voltage of an
/// entry not listed.
pub(super) fn two_refusals(script: &mut Script) {
    let plain = configurations::reference(Geometry::small(&mut script.random));
    script.configure(&plain);
    let first = script.place % 8;
    let mut before = plain.clone();
    for second in 0..8 {
        let mut configuration = plain.clone();
        spoil(script, &mut configuration, first);
        spoil(script, &mut configuration, second);
        change(script, &before, &configuration);
        script.start_again(&configuration);
        before = configuration;
    }
    for at in 6 + 106..6 + 110 {
        let mut configuration = plain.clone();
        configuration.otp[at] = 0xFF;
        change(script, &before, &configuration);
        script.start_again(&configuration);
        before = configuration;
    }
    change(script, &before, &plain);
    script.start_again(&plain);
}

/// The lines of what `to` has otherwise than `from`; their tables are of one length.
fn change(script: &mut Script, from: &Configuration, to: &Configuration) {
    for (field, &number) in to.fields.iter().enumerate() {
        if number != from.fields[field] {
            script.line(number, 11, field as u64);
        }
    }
    for (place, &byte) in to.otp.iter().enumerate() {
        if byte != from.otp[place] {
            script.line(byte.into(), 12, place as u64);
        }
    }
}

/// The stages of `0x22` in turn, detections with and without supplies, sensors, temperatures at the
/// bounds of the OTP's ranges.
pub(super) fn supplies(script: &mut Script) {
    let mut configuration = configurations::small(&mut script.random);
    for _ in 0..script.random.below(3) {
        configurations::entry(&mut configuration, &mut script.random);
    }
    script.start(&configuration);
    for turn in 0..4 {
        ready(script);
        prepare(script);
        ready(script);
        let stages = (script.place * 4 + turn) % 256;
        activate(script, stages.to_le_bytes()[0]);
        script.query();
        script.dump_one_in(3);
    }
}

/// Something that an activation finds changed.
fn prepare(script: &mut Script) {
    match script.random.below(7) {
        0 => {
            let command = script.random.pick(&[0x14, 0x15]);
            let byte = value(script);
            script.write(command, &[byte]);
            script.wait();
            script.command(0x2F);
            script.read();
        }
        1 => {
            let byte = value(script);
            script.write(0x29, &[byte]);
            script.command(0x28);
        }
        2 => {
            let byte = script.random.pick(&[0x80, 0x48, 0x00, 0xFF]);
            script.write(0x18, &[byte]);
        }
        3 => {
            let high = script
                .random
                .pick(&[0x7F, 0x80, 0xFF, 0x00, 0x19, 0x32, 0x31]);
            let low = value(script);
            script.write(0x1A, &[high, low]);
        }
        4 => {
            let edges = [0x801, 0x801, 0xFFF, 0, 1, 400, 800, 801, 0x7FF, 0x1801];
            let register = script.random.pick(&edges);
            script.set_ambient(register);
        }
        5 => {
            // The sixth byte holds the ping-pong bit.
            let byte = script.random.pick(&[0x40, 0x00, 0xFF]);
            script.write(0x37, &[0, 1, 2, 3, 4, byte, 6, 7, 8, 9]);
        }
        _ => power_on(script),
    }
}

/// A small panel with a table whose ranges overlap, of one of these numbers of entries.
pub(super) fn overlapping(script: &mut Script, entries: &[u8]) -> (Geometry, Configuration) {
    let panel = Geometry::small(&mut script.random);
    let mut configuration = configurations::reference(panel);
    configuration.otp.clear();
    for place in 0..script.random.pick(entries) {
        let mut setting = settings::setting(&mut script.random);
        settings::make_listed(&mut setting, &mut script.random);
        // A byte that nothing reads tells the entries apart.
        setting[111] = place;
        let lower = script.random.pick(&[0x800, 0x800, 0xF00, 0, 400]);
        let upper = script.random.pick(&[0x7FF, 0x7FF, 800, 400, 0]);
        let mode = script.random.pick(&[0, 1]);
        configuration.push_entry(mode, [lower, upper], &setting);
    }
    (panel, configuration)
}

/// Tables of up to 64 entries whose ranges overlap, asked for temperatures at their bounds.
pub(super) fn waveforms(script: &mut Script) {
    let (_, configuration) = overlapping(script, &[1, 2, 3, 5, 16, 17, 40, 64]);
    script.start(&configuration);
    for _ in 0..script.random.between(3, 6) {
        let edges = [
            0x801, 0x802, 0xEFF, 0xF00, 0xF01, 0xFFF, 0, 1, 399, 400, 401, 800, 801,
        ];
        let register: u16 = script.random.pick(&edges);
        let [high, low] = (register << 4).to_be_bytes();
        script.write(0x1A, &[high, low]);
        let stages = script.random.pick(&[0x90, 0x98, 0x91, 0x99, 0xD4, 0xDC]);
        activate(script, stages);
        script.dump();
        script.wait();
    }
}
