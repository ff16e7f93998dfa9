//! What a firmware sends: the steps that the families below are made of, and whole runs.

use super::script::Script;
use crate::ssd1677::tests::configurations::{self, Geometry};
use crate::ssd1677::tests::settings::{self, Setting};

/// Stages of `0x22` as firmwares of the X4 ask for them, and some others.
pub(super) const FULL: u8 = 0xF7;
pub(super) const PARTIAL: u8 = 0xFC;
pub(super) const CUSTOM: u8 = 0xCC;

fn low_high(number: u64) -> [u8; 2] {
    let bytes = number.to_le_bytes();
    [bytes[0], bytes[1]]
}

/// The start of a run, with `lines` gates scanned in the order of `scan` (the third byte).
pub(super) fn init(script: &mut Script, lines: u64, scan: u8) {
    script.command(0x12);
    script.wait();
    script.write(0x18, &[0x80]);
    script.write(0x0C, &[0xAE, 0xC7, 0xC3, 0xC0, 0x80]);
    let [low, high] = low_high(lines - 1);
    script.write(0x01, &[low, high, scan]);
    let border = script
        .random
        .pick(&[0x01, 0x05, 0x80, 0xC0, 0x00, 0x40, 0x50, 0x60, 0x70]);
    script.write(0x3C, &[border]);
}

/// A window from (`x`, `y`) on, entered from its start, and the counter there.
pub(super) fn window(script: &mut Script, entry: u8, x: [u64; 2], y: [u64; 2]) {
    script.write(0x11, &[entry]);
    let bytes = |bounds: [u64; 2]| bounds.map(low_high);
    let ([x_start, x_end], [y_start, y_end]) = (bytes(x), bytes(y));
    script.write(0x44, &[x_start, x_end].concat());
    script.write(0x45, &[y_start, y_end].concat());
    script.write(0x4E, &x_start);
    script.write(0x4F, &y_start);
}

/// The rows of a window of the RAM, `columns` bytes each.
pub(super) fn picture(script: &mut Script, command: u8, columns: u64, rows: u64) {
    script.command(command);
    if columns * rows > 200 {
        for _ in 0..script.random.between(1, 6) {
            let byte = script.random.byte();
            script.data_times(columns * rows / 6, byte);
        }
        return;
    }
    let plain = script.random.one_in(3);
    let bytes: Vec<u8> = (0..columns * rows)
        .map(|_| match plain {
            true => script.random.pick(&[0x00, 0xFF, 0xFF]),
            false => script.random.byte(),
        })
        .collect();
    script.bytes(&bytes);
}

/// `0x22`, `0x20`.
pub(super) fn activate(script: &mut Script, stages: u8) {
    script.write(0x22, &[stages]);
    script.command(0x20);
}

/// The 105 bytes of `0x32` and the voltages of `setting`.
pub(super) fn load_setting(script: &mut Script, setting: &Setting) {
    script.write(0x32, &setting[..105]);
    script.write(0x03, &setting[105..106]);
    script.write(0x04, &setting[106..109]);
    script.write(0x2C, &setting[109..110]);
}

/// Turns the supplies on and waits for them.
pub(super) fn power_on(script: &mut Script) {
    activate(script, 0xC0);
    script.wait();
}

/// A start on a panel of its own: small, or now and then the X4's.
fn run_panel(script: &mut Script) -> Geometry {
    if script.place % 48 == 1 {
        return Geometry {
            width: 800,
            height: 480,
            first_source: 0,
            columns_reversed: false,
            sm: true,
            gd: false,
            rows_reversed: true,
        };
    }
    Geometry::small(&mut script.random)
}

/// A realistic run: reset, init, window, both planes, a full refresh, then partial ones, a
/// custom LUT, the forced temperature, sleep.
pub(super) fn run(script: &mut Script) {
    let panel = run_panel(script);
    let mut configuration = configurations::reference(panel);
    configuration.fields[38] = script.random.pick(&[0, 1, 1]);
    script.start(&configuration);
    let large = panel.width > 100;
    for _ in 0..if large {
        1
    } else {
        script.random.between(1, 2)
    } {
        script.pulse();
        let scan = script.random.pick(&[0x00, 0x02, 0x04, 0x06]);
        init(script, panel.height, scan);
        frame(script, panel);
        refresh(script, FULL);
        for _ in 0..script.random.below(if large { 2 } else { 4 }) {
            step(script, panel);
        }
        if script.random.truth() {
            let mode = script.random.pick(&[0x01, 0x03]);
            script.write(0x10, &[mode]);
            script.query();
            script.dump_one_in(2);
        }
    }
}

/// Both planes over the whole panel.
fn frame(script: &mut Script, panel: Geometry) {
    let x = [panel.first_source, panel.first_source + panel.width - 1];
    let columns = x[1] / 8 - x[0] / 8 + 1;
    let last = panel.height - 1;
    for command in [0x24, 0x26] {
        if script.random.truth() {
            window(script, 0x03, x, [0, last]);
        } else {
            window(script, 0x01, x, [last, 0]);
        }
        picture(script, command, columns, panel.height);
    }
}

fn refresh(script: &mut Script, stages: u8) {
    activate(script, stages);
    if script.random.truth() {
        let (now, deadline) = (script.now, script.deadline());
        // A firmware that polls: BUSY, or the status byte while busy.
        script.query();
        script.command(0x2F);
        script.read();
        if let Some(deadline) = deadline {
            script.now = script.random.between(now, deadline);
            script.dump_one_in(6);
        }
    }
    script.wait();
    script.advance();
    script.query();
    script.dump_one_in(3);
}

fn step(script: &mut Script, panel: Geometry) {
    match script.random.below(5) {
        0 | 1 => {
            if script.random.one_in(4) {
                // The sixth byte asks for the ping-pong of the planes.
                let ping_pong = script.random.pick(&[0x40, 0x4F, 0xBF]);
                script.write(0x37, &[0, 1, 2, 3, 4, ping_pong, 6, 7, 8, 9]);
            }
            frame(script, panel);
            refresh(script, PARTIAL);
        }
        2 => {
            let setting = settings::setting(&mut script.random);
            load_setting(script, &setting);
            frame(script, panel);
            let stages = script.random.pick(&[CUSTOM, 0xC7, 0xC4, 0xCF]);
            refresh(script, stages);
        }
        3 => {
            // The forced 90 °C, loaded without a sensor.
            script.write(0x1A, &[0x5A]);
            activate(script, 0x91);
            script.wait();
            refresh(script, 0xD7);
        }
        _ => {
            let option = script.random.pick(&[0x00, 0x40, 0x04, 0x80, 0x08, 0x44]);
            script.write(0x21, &[option, 0x00]);
            refresh(script, FULL);
        }
    }
}
