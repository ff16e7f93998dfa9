//! The RAM and what of it reaches the glass: counters outside RAM and window, plane options, all
//! sizes and scan orders, streams past 65,535 bytes.

use super::bus::value;
use super::driving::planes;
use super::firmware::{activate, load_setting, power_on, window};
use super::script::Script;
use crate::ssd1677::tests::configurations::{self, Geometry};
use crate::ssd1677::tests::settings;

/// A coordinate of ten bits: any, or one at an edge of the RAM.
fn coordinate(script: &mut Script, edge: u64) -> u64 {
    let any = script.random.below(1024);
    let near = script.random.between(edge - 9, edge + 9);
    let low = script.random.below(20);
    script.random.pick(&[any, near, near, low, 1023])
}

/// Windows in any order and counters anywhere, written and read in all eight entry modes.
pub(super) fn counters(script: &mut Script) {
    let configuration = configurations::small(&mut script.random);
    script.start(&configuration);
    for _ in 0..script.random.between(2, 5) {
        let entry = script.random.pick(&[0, 1, 2, 3, 4, 5, 6, 7, 0x0B]);
        let x = [coordinate(script, 959), coordinate(script, 959)];
        let y = [coordinate(script, 679), coordinate(script, 679)];
        window(script, entry, x, y);
        if script.random.truth() {
            let at = [coordinate(script, 959), coordinate(script, 679)];
            let [x, y] = at.map(|number| number.to_le_bytes());
            script.write(0x4E, &x[..2]);
            script.write(0x4F, &y[..2]);
        }
        let command = script.random.pick(&[0x24, 0x26]);
        script.command(command);
        for _ in 0..script.random.below(30) {
            let byte = script.random.byte();
            script.data(byte);
        }
        if script.random.truth() {
            let byte = script.random.byte();
            script.data_times(150, byte);
        }
        script.dump_one_in(4);
        let plane = script.random.pick(&[0, 1, 1, 3]);
        script.write(0x41, &[plane]);
        script.command(0x27);
        for _ in 0..script.random.below(9) {
            script.read();
        }
        script.dump_one_in(3);
    }
}

/// Every pair of plane options and every border byte in turn, auto writes, both modes.
pub(super) fn options(script: &mut Script) {
    let panel = Geometry::small(&mut script.random);
    let mut configuration = configurations::reference(panel);
    configuration.fields[10] = script.random.pick(&[0, 60, 128, 200, 255]);
    script.start(&configuration);
    power_on(script);
    planes(script, panel);
    for turn in 0..4 {
        let option = (script.place * 4 + turn) % 256;
        script.write(0x21, &option.to_le_bytes()[..1]);
        script.write(0x3C, &option.to_le_bytes()[..1]);
        if script.random.one_in(3) {
            let command = script.random.pick(&[0x46, 0x47]);
            let byte = script.random.byte();
            script.write(command, &[byte]);
            script.wait();
        }
        if script.random.truth() {
            let setting = settings::setting(&mut script.random);
            load_setting(script, &setting);
            let stages = script.random.pick(&[0x04, 0x0C]);
            activate(script, stages);
        } else {
            let stages = script.random.pick(&[0x34, 0x3C, 0x14, 0x1C]);
            activate(script, stages);
        }
        script.dump_one_in(3);
        script.wait();
        script.advance();
        script.dump();
    }
}

/// A panel of any size in any order; some are refused for an odd height with gd.
fn any_panel(script: &mut Script) -> Geometry {
    let any = [script.random.between(1, 960), script.random.between(1, 680)];
    let [width, height] = match script.place % 24 {
        0 => [960, script.random.pick(&[1, 2, 3])],
        1 => [script.random.pick(&[1, 2]), script.random.pick(&[679, 680])],
        2 if script.place % 96 == 2 => [960, 680],
        3 if script.place % 96 == 3 => any,
        4..8 => [1, script.random.between(1, 4)],
        _ => [any[0] % 40 + 1, any[1] % 40 + 1],
    };
    let mut panel = Geometry::of(width, height, &mut script.random);
    // The four scan orders in turn, whatever the height.
    panel.sm = script.place & 1 != 0;
    panel.gd = script.place & 2 != 0 && (height.is_multiple_of(2) || script.random.one_in(6));
    panel
}

/// Sizes from 1×1 to 960×680 in all scan orders, under every setting of the driver output.
pub(super) fn geometry(script: &mut Script) {
    let panel = any_panel(script);
    script.start(&configurations::reference(panel));
    let large = panel.width * panel.height > 20_000;
    script.dump_one_in(3);
    for _ in 0..if large {
        1
    } else {
        script.random.between(1, 3)
    } {
        for command in [0x46, 0x47] {
            let byte = value(script);
            script.write(command, &[byte]);
            script.wait();
        }
        planes(script, panel);
        let edges = [
            panel.height,
            panel.height,
            680,
            1,
            2,
            299,
            300,
            681,
            1023,
            1024,
        ];
        let lines = script.random.pick(&edges) - 1;
        let scan = script.random.pick(&[0, 2, 4, 6, 1, 7]);
        let [low, high, ..] = lines.to_le_bytes();
        script.write(0x01, &[low, high, scan]);
        let stages = script.random.pick(&[0xF7, 0xFF, 0xC7]);
        activate(script, stages);
        script.wait();
        script.advance();
        script.dump();
    }
}

/// Streams and reads past 65,535 bytes: the counts of a command stop there.
pub(super) fn streams(script: &mut Script) {
    let configuration = configurations::small(&mut script.random);
    script.start(&configuration);
    let entry = script.random.pick(&[0, 1, 2, 3, 4, 5, 6, 7]);
    let x = [coordinate(script, 959), coordinate(script, 959)];
    window(script, entry, x, [0, 679]);
    let (data, reads) = match script.place % 32 {
        0 | 16 => (
            script
                .random
                .pick(&[65_534, 65_535, 65_536, 70_000, 82_000]),
            3,
        ),
        8 => (100, script.random.pick(&[65_535, 65_536, 65_537, 66_000])),
        _ => (script.random.between(100, 3_000), script.random.below(200)),
    };
    let command = script.random.pick(&[0x24, 0x26, 0x24, 0x26, 0x4F, 0x2F]);
    script.command(command);
    let byte = script.random.byte();
    script.data_times(data, byte);
    script.dump();
    script.data(0x0F);
    script.write(0x41, &[script.place.to_le_bytes()[0] & 1]);
    let read = script.random.pick(&[0x27, 0x27, 0x27, 0x2E, 0x1B, 0x24]);
    script.command(read);
    script.read_times(reads);
    script.dump();
    script.read();
    // A count of 0 makes no call.
    script.data_times(0, 0x55);
    script.read_times(0);
}
