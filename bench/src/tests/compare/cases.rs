//! Panels of every size and wiring, with their planes, states and waveforms.

use crate::ssd1677::ram::PLANE_BYTES;
use crate::ssd1677::tests::random::Random;
use crate::ssd1677::tests::settings::{self, Periods, Setting};
use crate::ssd1677::{GateScan, PanelGeometry};

/// What the driver and 0x21 say of a scan.
#[derive(Clone, Copy, Debug)]
pub(super) struct Scanned {
    pub(super) lines: u16,
    pub(super) order: GateScan,
    pub(super) options: u8,
}

/// What a display is told beside its scan, and when it ends.
#[derive(Clone, Copy, Debug)]
pub(super) struct Shown {
    pub(super) swing: i64,
    pub(super) positive_drives_black: bool,
    pub(super) register: u8,
    pub(super) partial: bool,
    pub(super) border: i64,
    pub(super) generation: u64,
    pub(super) started: u64,
    pub(super) at: u64,
    pub(super) cut: u64,
}

pub(super) struct Case {
    pub(super) geometry: PanelGeometry,
    pub(super) scanned: Scanned,
    pub(super) shown: Shown,
    pub(super) setting: Setting,
    pub(super) periods: Periods,
    pub(super) black_white: Vec<u8>,
    pub(super) red: Vec<u8>,
    pub(super) states: Vec<i64>,
}

/// The sizes in turn: the edges, the panel of the reference, the largest, and sizes of chance.
fn size(place: u64, random: &mut Random) -> (u16, u16) {
    let (any_width, any_height) = (random.between(1, 960), random.between(1, 680));
    let (width, height) = match place % 16 {
        0 => (1, 1),
        1 => (1, any_height),
        2 => (any_width, 1),
        3 => (960, 680),
        4 => (800, 480),
        5 => (random.between(900, 960), random.between(600, 680)),
        6 => (960, any_height),
        7 => (any_width, 680),
        8..12 => (random.between(1, 40), random.between(1, 40)),
        _ => (any_width, any_height),
    };
    (width as u16, height as u16)
}

/// A panel that a start accepts: GD needs an even height. All wirings come in turn with each size.
fn geometry(place: u64, random: &mut Random) -> PanelGeometry {
    let (width, height) = size(place, random);
    let wiring = place / 16;
    let gd = wiring & 2 != 0 && height.is_multiple_of(2);
    let room = u64::from(960 - width);
    let any = random.between(0, room);
    PanelGeometry {
        width,
        height,
        first_source: random.pick(&[0, room, any, any]) as u16,
        columns_reversed: wiring & 4 != 0,
        native_scan: GateScan {
            sm: wiring & 1 != 0,
            gd,
        },
        rows_reversed: wiring & 8 != 0,
    }
}

/// Every scan order of 0x01 with lines up to its 1,024; the options of 0x21 are any byte, listed ones more often.
fn scanned(height: u16, random: &mut Random) -> Scanned {
    let any = random.between(1, 1024);
    let height = u64::from(height);
    let lines = random.pick(&[height, height, height, any, any, 680, 681, 1024, 1]) as u16;
    let order = GateScan {
        sm: random.truth(),
        gd: random.truth(),
    };
    let (byte, red, black_white) = (random.byte(), random.below(3), random.below(3));
    let listed = (red << 6 | black_white << 2) as u8;
    Scanned {
        lines,
        order,
        options: random.pick(&[byte, listed, listed]),
    }
}

fn plane(random: &mut Random) -> Vec<u8> {
    let fill = random.pick(&[0x00, 0xFF, 0xAA]);
    let uniform = random.one_in(16);
    (0..PLANE_BYTES)
        .map(|_| if uniform { fill } else { random.byte() })
        .collect()
}

/// A state from 0 to `swing`.
fn state(swing: i64, edges: bool, random: &mut Random) -> i64 {
    if edges {
        return random.pick(&[0, 1, swing - 1, swing, swing / 2]).min(swing);
    }
    random.between(0, swing.unsigned_abs()).cast_signed()
}

/// A number of any size, mostly past 0 or the swing, as no display leaves one.
fn any_state(random: &mut Random) -> i64 {
    let size = random.any_size().cast_signed();
    if random.truth() { size } else { !size }
}

fn swing(place: u64, random: &mut Random) -> i64 {
    match place % 5 {
        0 => 1,
        1 => 6_000_000_000_000,
        2 => i64::MAX,
        3 => settings::swing(random),
        _ => random.pick(&[6_000_000_000_000, 100_000_000_000, 1_000_000]),
    }
}

fn shown(place: u64, setting: &Setting, periods: &Periods, random: &mut Random) -> Shown {
    let swing = swing(place, random);
    let edges = random.truth();
    Shown {
        swing,
        positive_drives_black: random.truth(),
        // Every byte of 0x3C in turn, whatever the wiring.
        register: (place % 257) as u8,
        partial: random.truth(),
        border: state(swing, edges, random),
        // 2^64−1 lies outside the domain of equality.
        generation: random.any_size().min(u64::MAX - 1),
        started: random.any_size(),
        at: random.any_size(),
        cut: settings::cut(setting, periods, random),
    }
}

/// A setting: 112 bytes of chance, one of the reference's three, or one of a few groups.
fn setting(random: &mut Random) -> Setting {
    if random.one_in(4) {
        return std::array::from_fn(|_| random.byte());
    }
    settings::setting(random)
}

impl Case {
    /// The case `place` under `seed`, which needs none of those before it.
    pub(super) fn of(seed: u64, place: u64) -> Case {
        let mut random = Random::of_place(seed, place);
        let random = &mut random;
        let geometry = geometry(place, random);
        let scanned = scanned(geometry.height, random);
        let (setting, periods) = (setting(random), settings::periods(random));
        let shown = shown(place, &setting, &periods, random);
        let edges = random.one_in(4);
        let pixels = usize::from(geometry.width) * usize::from(geometry.height);
        let (black_white, red) = (plane(random), plane(random));
        // Every eleventh panel has states that lie anywhere.
        let one = |_| if place % 11 == 7 { any_state(random) } else { state(shown.swing, edges, random) };
        let states = (0..pixels).map(one).collect();
        Case {
            geometry,
            scanned,
            shown,
            setting,
            periods,
            black_white,
            red,
            states,
        }
    }
}
