//! Gates and rows, the LUT of every pixel, and what a refresh leaves on the glass.

use emu_core::Cycles;

use super::glass::push_waveform;
use super::{Arguments, Leaf, option, ram};
use crate::ssd1677::panel::{Panel, PlaneOption, RefreshKind, Scan, ram_row_of_gate};
use crate::ssd1677::tests::configuration::Configuration;
use crate::ssd1677::tests::configurations::Geometry;
use crate::ssd1677::tests::random::Random;
use crate::ssd1677::tests::{hash, inside, settings};
use crate::ssd1677::waveform::{Drive, Waveform};
use crate::ssd1677::{GateScan, LUT_BYTES, Optics, PanelGeometry, RAM_GATES, Ssd1677Config};

fn gate_scan(arguments: &mut Arguments) -> Option<GateScan> {
    Some(GateScan {
        sm: arguments.truth()?,
        gd: arguments.truth()?,
    })
}

/// A panel of width 1 with this height and wiring; `None` when a start would refuse it.
fn column(arguments: &mut Arguments) -> Option<Panel> {
    let height = arguments.take()?;
    let panel = PanelGeometry {
        width: 1,
        height,
        first_source: 0,
        columns_reversed: false,
        native_scan: gate_scan(arguments)?,
        rows_reversed: arguments.truth()?,
    };
    glass(panel, Optics::default())
}

/// The glass at power-on; `None` when a start would refuse the panel or the swing.
fn glass(panel: PanelGeometry, optics: Optics) -> Option<Panel> {
    let config = Ssd1677Config {
        panel: panel.clone(),
        optics,
        ..Ssd1677Config::default()
    };
    config.validate().ok()?;
    Some(Panel::new(panel, optics))
}

fn wiring_question(random: &mut Random) -> Vec<i128> {
    let any = random.between(1, 680);
    let height = random.pick(&[any, any, 1, 2, 3, 4, 5, 479, 480, 679, 680]);
    let gd = random.truth() && height.is_multiple_of(2);
    let (sm, reversed) = (random.truth(), random.truth());
    vec![height.into(), sm.into(), gd.into(), reversed.into()]
}

fn row_question(_: u64, random: &mut Random) -> Vec<i128> {
    let any = random.between(1, 1024);
    let lines = random.pick(&[any, any, 1, 2, 5, 480, 679, 680, 681, 1023, 1024]);
    let gate = match random.below(3) {
        0 => random.pick(&[0, lines - 1, lines, lines / 2]),
        _ => random.below(lines + 2),
    };
    let (sm, gd) = (random.truth(), random.truth());
    vec![gate.into(), sm.into(), gd.into(), lines.into()]
}

fn geometry(arguments: &mut Arguments) -> Option<PanelGeometry> {
    let [width, height, first_source] = arguments.array()?;
    Some(PanelGeometry {
        width,
        height,
        first_source,
        columns_reversed: arguments.truth()?,
        native_scan: gate_scan(arguments)?,
        rows_reversed: arguments.truth()?,
    })
}

fn start(arguments: &mut Arguments) -> Option<Vec<i128>> {
    let panel = glass(geometry(arguments)?, Optics::default())?;
    let scan = Scan {
        lines: arguments
            .take()
            .filter(|lines| (1..=1024).contains(lines))?,
        order: gate_scan(arguments)?,
        red: PlaneOption::from_nibble(arguments.up_to(15)?),
        black_white: PlaneOption::from_nibble(arguments.up_to(15)?),
    };
    let ram = ram::filled(arguments.take()?);
    let waveform = Waveform::from_setting(&[0; LUT_BYTES], &[1; 16]);
    let times = (Cycles::ZERO, Cycles::ZERO);
    let display = panel.start(&ram, scan, waveform, None, RefreshKind::Full, times);
    Some(vec![hash::of_bytes(&inside::luts(&display)).into()])
}

fn start_question(place: u64, random: &mut Random) -> Vec<i128> {
    let panel = match place % 50 {
        0 => Geometry::of(random.between(1, 960), random.between(1, 680), random),
        _ => Geometry::small(random),
    };
    let mut configuration = Configuration::new();
    configuration.set_panel(panel);
    let mut numbers: Vec<i128> = configuration.fields[..7]
        .iter()
        .map(|&n| n.into())
        .collect();
    let lines = random.pick(&[panel.height, 1, 2, 5, 300, 680, 681, 1023, 1024]);
    numbers.extend(decimals![lines, random.truth(), random.truth()]);
    numbers.extend(decimals![random.below(16), random.below(16)]);
    numbers.push(random.below(1 << 32).into());
    numbers
}

/// Refreshes in a row on a panel whose rows lie as its gates, from the planes of a pattern.
fn finish(arguments: &mut Arguments) -> Option<Vec<i128>> {
    let [width, height] = arguments.array()?;
    let wiring = PanelGeometry {
        width,
        height,
        first_source: 0,
        columns_reversed: false,
        native_scan: GateScan::default(),
        rows_reversed: false,
    };
    let optics = Optics {
        full_swing: arguments.take()?,
        positive_drives_black: arguments.truth()?,
        initial_gray: arguments.take()?,
        ..Optics::default()
    };
    let mut panel = glass(wiring, optics)?;
    let border = match arguments.up_to(8)? {
        lut @ 0..4 => Some(Drive::Lut(usize::from(lut))),
        code @ 4..8 => Some(Drive::Fixed(code - 4)),
        _ => None,
    };
    let times: u8 = arguments.take()?;
    let (cut, until) = (arguments.truth()?, arguments.take()?);
    let ram = ram::filled(arguments.take()?);
    let periods: settings::Periods = arguments.array()?;
    if periods.contains(&0) {
        return None;
    }
    let waveform = Waveform::from_setting(&arguments.array()?, &periods);
    let scan = Scan {
        lines: RAM_GATES,
        order: GateScan::default(),
        red: PlaneOption::Normal,
        black_white: PlaneOption::Normal,
    };
    let moments = (Cycles::ZERO, Cycles::ZERO);
    let display = panel.start(&ram, scan, waveform, border, RefreshKind::Full, moments);
    for _ in 0..times {
        panel.finish(&display, Cycles::ZERO, cut.then_some(until));
    }
    let inside = inside::glass(&panel);
    let image = panel.image();
    let mut numbers = vec![hash::of_states(&inside.states).into()];
    numbers.push(hash::of_bytes(&image.pixels).into());
    numbers.extend(decimals![inside.border, image.border]);
    numbers.push(image.generation.into());
    Some(numbers)
}

fn finish_question(_: u64, random: &mut Random) -> Vec<i128> {
    let panel = Geometry::small(random);
    let mut numbers = decimals![panel.width, panel.height].to_vec();
    let swing = settings::full_swing(random);
    numbers.extend(decimals![swing, random.truth(), random.byte()]);
    numbers.extend(decimals![random.below(9), random.between(1, 3)]);
    let (periods, setting) = (settings::periods(random), settings::setting(random));
    let cut = random.truth();
    let until = settings::cut(&setting, &periods, random);
    numbers.extend(decimals![cut, if cut { until } else { 0 }]);
    numbers.push(random.below(1 << 32).into());
    push_waveform(&mut numbers, &periods, &setting);
    numbers
}

pub(super) fn leaves() -> Vec<Leaf> {
    vec![
        Leaf {
            name: "ram_row_of_gate",
            answer: |arguments| {
                let gate = arguments.take()?;
                let scan = gate_scan(arguments)?;
                Some(option(ram_row_of_gate(gate, scan, arguments.take()?)))
            },
            question: row_question,
        },
        Leaf {
            name: "gate_of_row",
            answer: |arguments| {
                let gates = inside::glass(&column(arguments)?).gate_of_row;
                let row: u16 = arguments.take()?;
                Some(vec![(*gates.get(usize::from(row))?).into()])
            },
            question: |_, random| {
                let mut numbers = wiring_question(random);
                let height = u64::try_from(numbers[0]).unwrap_or(1);
                numbers.push(random.below(height).into());
                numbers
            },
        },
        Leaf {
            name: "gates",
            answer: |arguments| {
                let gates = inside::glass(&column(arguments)?).gate_of_row;
                Some(vec![hash::of_words(&gates).into()])
            },
            question: |_, random| wiring_question(random),
        },
        Leaf {
            name: "panel_start",
            answer: start,
            question: start_question,
        },
        Leaf {
            name: "finish",
            answer: finish,
            question: finish_question,
        },
    ]
}
