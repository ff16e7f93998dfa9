//! What the bus may carry: every command with too few and too many parameters, reads past their end,
//! commands while busy, asleep or in reset, logs that run over.

use super::firmware::{activate, power_on};
use super::script::Script;
use crate::ssd1677::tests::configurations;
use crate::ssd1677::{Kind, Params, Power, kind};

/// The commands that the model carries out.
pub(super) const COMMANDS: [u8; 37] = [
    0x01, 0x03, 0x04, 0x0C, 0x10, 0x11, 0x12, 0x14, 0x15, 0x18, 0x1A, 0x1B, 0x20, 0x21, 0x22, 0x24,
    0x26, 0x27, 0x28, 0x29, 0x2B, 0x2C, 0x2D, 0x2E, 0x2F, 0x32, 0x37, 0x38, 0x3C, 0x41, 0x44, 0x45,
    0x46, 0x47, 0x4E, 0x4F, 0x7F,
];
pub(super) const READS: [u8; 5] = [0x1B, 0x27, 0x2D, 0x2E, 0x2F];

/// A data byte: any, or one whose bits a register takes or refuses.
pub(super) fn value(script: &mut Script) -> u8 {
    let any = script.random.byte();
    let edges = [
        0x00, 0x01, 0x03, 0x07, 0x08, 0x10, 0x40, 0x48, 0x80, 0xC0, 0xF0, 0xFF,
    ];
    let edge = script.random.pick(&edges);
    script.random.pick(&[any, edge])
}

/// Brings a device that sleeps or is held in reset back to answer commands, and past BUSY.
pub(super) fn ready(script: &mut Script) {
    if !script.is_awake() {
        script.pulse();
    }
    script.wait();
}

/// The numbers of parameters worth sending: none, one too few, the least, the most, one too many.
fn counts(command: u8) -> Vec<u16> {
    let around = |least: u16, most: u16| vec![0, least.saturating_sub(1), least, most, most + 1];
    match kind(command) {
        Some(Kind::Write(Params::Exactly(count))) => around(count, count),
        Some(Kind::Write(Params::Between(least, most))) => around(least, most),
        Some(Kind::Write(Params::Stream)) => vec![0, 1, 9],
        _ => vec![0, 1, 2],
    }
}

/// Sixteen command bytes a sequence, in turn all of them, each with every count of parameters.
pub(super) fn parameters(script: &mut Script) {
    let configuration = configurations::small(&mut script.random);
    script.start(&configuration);
    if script.random.truth() {
        power_on(script);
    }
    let first = script.place % 16 * 16;
    for command in first..first + 16 {
        let command = command.to_le_bytes()[0];
        let mut counts = counts(command);
        counts.dedup();
        for count in counts {
            ready(script);
            script.command(command);
            for _ in 0..count {
                let byte = value(script);
                script.data(byte);
            }
            if script.random.one_in(4) {
                script.read();
            }
            script.dump_one_in(24);
            script.pass(10);
        }
    }
}

/// Read commands past their end, and reads where there is nothing to read.
pub(super) fn reads(script: &mut Script) {
    let configuration = configurations::small(&mut script.random);
    script.start(&configuration);
    for _ in 0..4 {
        let command = script
            .random
            .pick(&[0x37, 0x38, 0x1A, 0x2C, 0x41, 0x11, 0x24, 0x4E, 0x04]);
        script.command(command);
        for _ in 0..script.random.below(12) {
            let byte = value(script);
            script.data(byte);
        }
    }
    for _ in 0..script.random.between(3, 8) {
        let any = script.random.byte();
        let command = script.random.pick(&READS);
        let command = script
            .random
            .pick(&[command, command, command, command, any]);
        ready(script);
        script.command(command);
        if script.random.one_in(6) {
            let byte = script.random.byte();
            script.data(byte);
        }
        let count = script.random.pick(&[0, 1, 2, 3, 10, 11, 12, 13]);
        (0..count).for_each(|_| script.read());
        script.dump_one_in(6);
    }
    if script.random.truth() {
        script.reset(true);
        script.read();
        script.reset(false);
        script.read();
        script.data(0x01);
        script.read();
    }
}

/// An operation that makes the chip busy.
fn operation(script: &mut Script) {
    match script.random.below(8) {
        0 => script.command(0x12),
        1 => {
            let command = script.random.pick(&[0x46, 0x47]);
            let byte = script.random.byte();
            script.write(command, &[byte]);
        }
        2 => {
            let byte = value(script);
            script.write(0x14, &[byte]);
        }
        3 => {
            let byte = value(script);
            script.write(0x15, &[byte]);
        }
        4 => {
            let byte = value(script);
            script.write(0x29, &[byte]);
            script.command(0x28);
        }
        _ => {
            let any = script.random.byte();
            let stages = script.random.pick(&[0xF7, 0xFC, 0xC0, 0xE0, 0xF0, any]);
            activate(script, stages);
        }
    }
}

/// Commands, data and reads while the chip is busy, and at the moment that BUSY falls.
pub(super) fn busy(script: &mut Script) {
    let configuration = configurations::small(&mut script.random);
    script.start(&configuration);
    if script.random.truth() {
        power_on(script);
    }
    for _ in 0..script.random.between(2, 6) {
        ready(script);
        operation(script);
        for _ in 0..script.random.between(1, 4) {
            if let Some(deadline) = script.deadline() {
                let between = script.random.between(script.now.min(deadline), deadline);
                let moment = script.random.pick(&[deadline, between]);
                script.now = script.near(moment);
            }
            script.query();
            let command = script.random.pick(&COMMANDS);
            let command = script.random.pick(&[0x2F, 0x2F, 0x20, command]);
            script.command(command);
            if script.random.truth() {
                script.read();
                let byte = value(script);
                script.data(byte);
            }
        }
        script.dump_one_in(3);
    }
}

/// Deep sleep in all its modes, what is sent to a sleeping chip, and the reset that wakes it.
pub(super) fn sleep(script: &mut Script) {
    let configuration = configurations::small(&mut script.random);
    script.start(&configuration);
    for _ in 0..script.random.between(1, 4) {
        let byte = script.random.byte();
        script.write(0x24, &[byte, byte, 0x55]);
        script.write(0x26, &[0xAA]);
        if script.random.truth() {
            power_on(script);
        }
        let any = script.random.byte();
        let mode = script
            .random
            .pick(&[0x00, 0x01, 0x02, 0x03, 0x03, 0x07, any]);
        script.write(0x10, &[mode]);
        script.dump_one_in(2);
        script.pass(1_000_000);
        for _ in 0..script.random.below(4) {
            let command = script.random.pick(&COMMANDS);
            script.command(command);
            let byte = value(script);
            script.data(byte);
            script.read();
        }
        script.query();
        if script.random.one_in(4) {
            script.reset(false);
        }
        script.dump_one_in(3);
        script.reset(true);
        script.query();
        script.pass(100);
        script.reset(false);
        script.query();
        script.read();
        script.dump_one_in(3);
        script.wait();
        script.command(0x27);
        (0..4).for_each(|_| script.read());
    }
}

/// Logs that run over, are taken, and are filled again from their start.
pub(super) fn logs(script: &mut Script) {
    let configuration = configurations::small(&mut script.random);
    script.start(&configuration);
    let long = script.place % 4 == 0;
    for _ in 0..script.random.between(1, 3) {
        let most = if long { 1_100 } else { 40 };
        let count = script.random.between(1, most);
        let count = if long { count.max(1_020) } else { count };
        for _ in 0..count {
            let any = script.random.byte();
            let command = script
                .random
                .pick(&[0x70, 0x71, 0x3A, 0x3B, 0x08, 0x44, any]);
            script.command(command);
            script.pass(1);
            if !long && script.random.one_in(3) {
                script.data(0xFF);
            }
        }
        script.dump();
        if script.random.truth() {
            script.take_diagnostics();
            script.dump_one_in(2);
        }
        if !script.is_awake() || script.random.one_in(3) {
            script.pulse();
        }
    }
}

/// Anything at any time.
pub(super) fn chaos(script: &mut Script) {
    let configuration = configurations::small(&mut script.random);
    script.start(&configuration);
    for _ in 0..script.random.between(20, 150) {
        match script.random.below(24) {
            0..8 => {
                let any = script.random.byte();
                let command = script.random.pick(&COMMANDS);
                let command = script
                    .random
                    .pick(&[command, command, command, 0x20, 0x22, any]);
                script.command(command);
            }
            8..18 => {
                let byte = value(script);
                script.data(byte);
            }
            18 => script.read(),
            19 => script.wait(),
            20 => {
                let span = script.random.any_size() >> 24;
                script.pass(span);
            }
            21 => reset_or_wake(script),
            22 => small_things(script),
            _ => script.now = script.now.saturating_sub(script.random.below(1_000_000)),
        }
    }
}

/// A sleeping chip is woken, one in reset is let go, another is reset now and then.
fn reset_or_wake(script: &mut Script) {
    let power = script.device.as_ref().map(|device| device.power);
    match power {
        Some(Power::InReset) => script.reset(false),
        Some(Power::Asleep) => script.reset(true),
        _ if script.random.one_in(3) => script.reset(true),
        _ => {}
    }
}

fn small_things(script: &mut Script) {
    match script.random.below(5) {
        0 => script.query(),
        1 => script.advance(),
        2 => {
            let register = u16::from(script.random.byte()) * 257;
            script.set_ambient(register);
        }
        3 => script.take_diagnostics(),
        _ => script.dump(),
    }
}
