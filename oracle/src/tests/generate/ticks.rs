//! Clocks of other frequencies than a billion (#101): cuts at the edges of frames and of cycles, refreshes that
//! begin and end in one cycle, the end of every wait, clocks and durations near 2^64−1, and the other families.

use emu_core::{Cycles, Frequency};

use super::driving::{busy_until, clocks, planes};
use super::firmware::{activate, load_setting, power_on};
use super::script::Script;
use super::{FAMILIES, Family};
use crate::ssd1677::tests::configuration::{Configuration, FREQUENCY};
use crate::ssd1677::tests::configurations::{self, Geometry};
use crate::ssd1677::tests::settings::{self, Periods, Setting};

const SECOND: u64 = 1_000_000_000;
/// The frequencies in turn, and after them one of chance.
const FREQUENCIES: [u32; 7] = [
    1,
    3,
    32_768,
    1_000_000,
    999_999_999,
    1_000_000_001,
    u32::MAX,
];

/// What is looked at, in turn: 7 things beside 8 frequencies, so that each meets each.
const TURNS: [fn(&mut Script, Frequency); 7] = [
    frame_edges,
    about_driving,
    one_cycle,
    waits,
    late,
    extremes,
    other_families,
];

pub(super) fn run(script: &mut Script) {
    let place = script.place as usize;
    let chance = (script.random.next() >> 32 >> script.random.below(32)).max(1);
    let frequency = match FREQUENCIES.get(place % (FREQUENCIES.len() + 1)) {
        Some(&named) => named.into(),
        None => chance,
    };
    script.frequency = Some(frequency);
    let frequency = Frequency(u32::try_from(frequency).expect("32 bits"));
    TURNS[place % TURNS.len()](script, frequency);
}

/// The cycle at which a span of nanoseconds is over.
fn cycles(frequency: Frequency, nanos: u64) -> u64 {
    frequency.nanos_to_cycles(nanos.into()).get()
}

/// A span of a part of a cycle, of one, of some, or of any size.
fn span(script: &mut Script, frequency: Frequency) -> u64 {
    let cycle = frequency.cycles_to_nanos(Cycles(1)).max(1);
    match script.random.below(5) {
        0 => script.random.between(1, cycle),
        1 => cycle.saturating_add(script.random.below(2)),
        2 => script.random.between(1, cycle.saturating_mul(40)),
        3 => cycle.saturating_mul(script.random.between(1, 9)),
        _ => script.random.any_size().max(1),
    }
}

/// A start with a waveform for each mode at every temperature, both planes filled, and cuts of refreshes: at the cycle
/// in which a frame ends, one before and one after, or anywhere. The clock begins at `now`.
fn cuts(script: &mut Script, mut configuration: Configuration, panel: Geometry, now: u64) {
    let mut waveforms: [Setting; 2] = [(); 2].map(|()| settings::setting(&mut script.random));
    configuration.otp.clear();
    for (mode, setting) in [0, 1].into_iter().zip(&mut waveforms) {
        settings::make_listed(setting, &mut script.random);
        configuration.push_entry(mode, [0x800, 0x7FF], setting);
    }
    let periods = std::array::from_fn(|code| configuration.fields[22 + code]);
    script.start(&configuration);
    script.now = now;
    planes(script, panel);
    for _ in 0..script.random.between(3, 6) {
        let border = script.random.byte();
        script.write(0x3C, &[border & 0x7F]);
        let mode = usize::from(script.random.truth());
        activate(script, [0xD4, 0xDC][mode]);
        script.dump_one_in(4);
        if let (Some((started, ends)), Some(device)) = (script.display(), &script.device) {
            let time_base = device.time_base;
            // Early ones too, before the glass has come to an end of its swing.
            let most = script.random.pick(&[4, 16, 4096]);
            let edges = settings::frame_ends(&waveforms[mode], &periods, most);
            let edge = cycles(time_base, script.random.pick(&edges));
            let between = script.random.between(started, ends);
            let edge = started.saturating_add(edge);
            let moment = script.random.pick(&[edge, edge, edge, edge, between]);
            script.now = script.near(moment);
        }
        script.reset(true);
        script.dump();
        script.pass(1);
        script.reset(false);
        script.wait();
    }
}

/// Frames of a part of a cycle up to some cycles, and a swing that so many of them drive through.
fn short_frames(script: &mut Script, frequency: Frequency) -> (Geometry, Configuration) {
    let panel = Geometry::small(&mut script.random);
    let mut configuration = configurations::reference(panel);
    let first = span(script, frequency).min(SECOND << 20);
    let periods: Periods = std::array::from_fn(|code| first + 37 * code as u64);
    configuration.set_periods(&periods);
    let frames = script.random.pick(&[4, 40, 4_000]);
    configuration.fields[8] = first.saturating_mul(15_000 * frames);
    configuration.fields[9] = script.random.truth().into();
    configuration.fields[10] = script.random.byte().into();
    (panel, configuration)
}

fn frame_edges(script: &mut Script, frequency: Frequency) {
    let (panel, configuration) = short_frames(script, frequency);
    cuts(script, configuration, panel, 0);
}

/// Resets at the start of driving, at its end, at the end of BUSY and between, each also a cycle off, where the stages
/// before take spans that are no whole cycles.
fn about_driving(script: &mut Script, frequency: Frequency) {
    let panel = Geometry::small(&mut script.random);
    let mut configuration = configurations::reference(panel);
    for field in 12..22 {
        configuration.fields[field] = span(script, frequency).min(SECOND << 20);
    }
    let period = span(script, frequency).min(SECOND << 10);
    configuration.set_periods(&[period; 16]);
    configuration.fields[8] = period.saturating_mul(100_000);
    configuration.fields[10] = script.random.pick(&[0, 128, 255]);
    script.start(&configuration);
    for _ in 0..script.random.between(1, 3) {
        planes(script, panel);
        let stages = script.random.pick(&[0xF7, 0xFC, 0xDF, 0xCF]);
        let begun = script.now;
        activate(script, stages);
        script.dump();
        if let (Some((started, ends)), Some(until)) = (script.display(), busy_until(script)) {
            let within = script.random.between(started, ends);
            let edges = [begun, started, started, ends, ends, until, within];
            let moment = script.random.pick(&edges);
            script.now = script.near(moment);
            script.query();
        }
        script.reset(true);
        script.dump();
        script.pass(1);
        script.reset(false);
        script.query();
        script.wait();
        script.query();
    }
}

/// A refresh that starts driving and ends at one moment though it takes time: within a cycle, or, where none is longer
/// than a nanosecond, at the end of all clocks.
fn one_cycle(script: &mut Script, frequency: Frequency) {
    let panel = Geometry::small(&mut script.random);
    let mut configuration = configurations::reference(panel);
    // The last cycle of a second has room for two moments wherever one has.
    let cycle = u64::from(frequency.0) * script.random.between(1, 3);
    let first = frequency.cycles_to_nanos(Cycles(cycle - 1)) + 1;
    let last = frequency.cycles_to_nanos(Cycles(cycle));
    let room = last.saturating_sub(first);
    let before = first + script.random.below(room.max(1));
    let frames = script.random.pick(&[1, 2, 5]);
    let period = ((last.max(before + 1) - before) / frames).max(1);
    configuration.fields[13] = before;
    configuration.set_periods(&[period; 16]);
    configuration.fields[8] = period.saturating_mul(20_000);
    script.start(&configuration);
    if room == 0 {
        script.now = u64::MAX - script.random.below(before);
    }
    planes(script, panel);
    // One group of these frames that drives under every LUT.
    let mut setting: Setting = [0; _];
    for byte in setting[0..40].iter_mut().step_by(10) {
        *byte = script.random.byte() | 0x40;
    }
    setting[50] = frames.to_le_bytes()[0];
    setting[106..109].copy_from_slice(&[0x41, 0xA8, 0x32]);
    load_setting(script, &setting);
    for _ in 0..3 {
        let stages = script.random.pick(&[0xC7, 0xCF]);
        activate(script, stages);
        script.dump();
        if let Some((started, _)) = script.display() {
            script.now = script.near(started);
        }
        match script.random.below(3) {
            0 => script.reset(true),
            1 => script.advance(),
            _ => script.command(0x20),
        }
        script.dump();
        script.reset(false);
        script.wait();
    }
}

/// Everything that makes the chip wait, and what it says a cycle before that ends and when it does. Before it a start
/// at no cycles a second, which is refused and leaves nothing of the device that ran.
fn waits(script: &mut Script, frequency: Frequency) {
    let mut configuration = configurations::reference(Geometry::small(&mut script.random));
    for field in 12..22 {
        configuration.fields[field] = span(script, frequency);
    }
    script.start(&configuration);
    script.command(0x12);
    for cycles in [0, frequency.0.into()] {
        script.frequency = Some(cycles);
        script.line(cycles, 11, FREQUENCY as u64);
        script.start_again(&configuration);
        script.query();
    }
    power_on(script);
    for _ in 0..script.random.between(3, 6) {
        match script.random.below(7) {
            0 => script.command(0x12),
            1 => {
                script.reset(true);
                script.reset(false);
            }
            2 => {
                let command = script.random.pick(&[0x46, 0x47]);
                script.write(command, &[0xF7]);
            }
            3 => {
                let cool_down = script.random.byte() & 0x77;
                script.write(0x14, &[cool_down]);
            }
            4 => script.write(0x15, &[0x04]),
            5 => {
                let seconds = script.random.byte() & 0x0F;
                script.write(0x29, &[0x40 | seconds]);
                script.command(0x28);
            }
            _ => {
                let stages = script.random.pick(&[0xC0, 0xE3, 0x90, 0xB1, 0x03]);
                activate(script, stages);
            }
        }
        script.dump();
        if let Some(until) = busy_until(script) {
            script.now = until.saturating_sub(1).max(script.now);
            script.query();
            script.command(0x2C);
            script.now = until;
            script.query();
            script.command(0x2C);
        }
        if script.random.one_in(3) {
            power_on(script);
        }
    }
}

/// Clocks near 2^64−1: so near that they reach it within a refresh, or as the family has them.
fn late(script: &mut Script, frequency: Frequency) {
    if script.random.truth() {
        return clocks(script);
    }
    let (panel, configuration) = short_frames(script, frequency);
    let frames = script.random.between(1, 40);
    let left = SECOND / 10 + configuration.fields[22] * frames;
    let now = u64::MAX - cycles(frequency, left);
    cuts(script, configuration, panel, now);
}

/// Periods, durations and swings of any size.
fn extremes(script: &mut Script, _: Frequency) {
    let panel = Geometry::small(&mut script.random);
    let mut configuration = configurations::reference(panel);
    configuration.fields[8] = settings::full_swing(&mut script.random);
    configuration.fields[10] = script.random.byte().into();
    configuration.set_periods(&settings::periods(&mut script.random));
    for field in 12..22 {
        let any = script.random.any_size();
        configuration.fields[field] = script.random.pick(&[0, 0, 1, SECOND, any, u64::MAX]);
    }
    configuration.fields[13] = script.random.pick(&[0, 1, SECOND]);
    cuts(script, configuration, panel, 0);
}

/// Another family under this frequency, but for the starts and for those whose panels, logs or streams are long.
fn other_families(script: &mut Script, _: Frequency) {
    let left_out = ["starts", "geometry", "logs", "streams"];
    let families: Vec<Family> = FAMILIES
        .into_iter()
        .filter(|(name, _)| !left_out.contains(name))
        .collect();
    let (_, write) = script.random.pick(&families);
    write(script);
}
