//! Long sequences that go through every case of something; they are written only by name.

use super::firmware::{activate, power_on};
use super::script::Script;
use crate::ssd1677::tests::configuration::Configuration;
use crate::ssd1677::tests::configurations::{self, Geometry};
use crate::ssd1677::{Kind, Params, kind};

/// Longer than any operation of the defaults.
const LONG: u64 = 20_000_000_000;

fn panel(script: &mut Script) -> Configuration {
    configurations::reference(Geometry::of(9, 4, &mut script.random))
}

/// All pairs of commands whose first is the sequence's place: 256 sequences, and 256 more in which
/// no operation takes time.
pub(super) fn pairs(script: &mut Script) {
    let mut configuration = panel(script);
    if script.place % 512 >= 256 {
        configuration.fields[12..22].fill(0);
    }
    script.start(&configuration);
    let first = script.place.to_le_bytes()[0];
    for second in 0..=u8::MAX {
        script.pulse();
        if script.random.truth() {
            power_on(script);
        }
        script.command(first);
        for _ in 0..script.random.below(5) {
            let byte = script.random.byte();
            script.data(byte);
        }
        script.read();
        if script.random.truth() {
            script.wait();
        }
        script.write(second, &[first, second]);
        script.read();
        script.read();
        script.pass(LONG);
    }
}

/// The commands that take parameters, with how many; a stream takes three here.
fn writes() -> Vec<(u8, u16)> {
    let count = |command| match kind(command)? {
        Kind::Write(Params::Exactly(0)) => None,
        Kind::Write(Params::Exactly(count) | Params::Between(_, count)) => Some((command, count)),
        Kind::Write(Params::Stream) => Some((command, 3)),
        _ => None,
    };
    (0..=u8::MAX).filter_map(count).collect()
}

/// All values of the parameters of one command, the sequence's place among those that take any;
/// after each a refresh, whole or cut, and every read command.
pub(super) fn values(script: &mut Script) {
    let configuration = panel(script);
    script.start(&configuration);
    let writes = writes();
    let (command, count) = writes[script.place as usize % writes.len()];
    for value in 0..=u8::MAX {
        script.pulse();
        power_on(script);
        script.command(command);
        script.data_times(count.into(), value);
        script.pass(LONG);
        let stages = script.random.pick(&[0xC7, 0xCF, 0xF7, 0xFF]);
        activate(script, stages);
        if let Some((started, ends)) = script.display().filter(|_| value % 4 == 0) {
            script.now = script.random.between(started, ends);
            script.reset(true);
            script.reset(false);
        }
        script.wait();
        for read in super::bus::READS {
            script.command(read);
            script.read_times(12);
        }
        script.take_diagnostics();
    }
}
