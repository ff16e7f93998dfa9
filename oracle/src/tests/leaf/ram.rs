//! The counter, the planes and their options.

use emu_core::Cycles;

use super::{Arguments, Leaf, option};
use crate::ssd1677::panel::{Panel, PlaneOption, RefreshKind, Scan};
use crate::ssd1677::ram::{Counter, Entry, PLANE_BYTES, Plane, ROW_BYTES, Ram, Window};
use crate::ssd1677::tests::random::Random;
use crate::ssd1677::tests::{hash, inside};
use crate::ssd1677::waveform::Waveform;
use crate::ssd1677::{GateScan, LUT_BYTES, Optics, PanelGeometry, RAM_GATES};

/// A plane's byte for each place: with x the seed at first, x = (x × 1664525 + 1013904223) mod 2^32
/// for each place in turn, and the byte is x / 2^24.
pub(super) fn pattern(seed: u32) -> impl Iterator<Item = u8> {
    let next = |x: &u32| Some(x.wrapping_mul(1_664_525).wrapping_add(1_013_904_223));
    std::iter::successors(Some(seed), next)
        .skip(1)
        .map(|x| x.to_be_bytes()[0])
        .take(PLANE_BYTES)
}

/// The counter of the byte at `place` of a plane.
fn counter_of(place: usize) -> Counter {
    let part = |number: usize| u16::try_from(number).expect("a place in the RAM");
    Counter {
        x: 8 * part(place % ROW_BYTES),
        y: part(place / ROW_BYTES),
    }
}

/// Planes filled by the pattern: black and white with `seed`, red with `seed` + 1.
pub(super) fn filled(seed: u32) -> Ram {
    let mut ram = Ram::filled(0);
    for (plane, seed) in [
        (Plane::BlackWhite, seed),
        (Plane::Red, seed.wrapping_add(1)),
    ] {
        for (place, byte) in pattern(seed).enumerate() {
            ram.write(plane, counter_of(place), byte);
        }
    }
    ram
}

fn counter(arguments: &mut Arguments) -> Option<Counter> {
    let [x, y] = arguments.array()?;
    Some(Counter { x, y })
}

fn window(arguments: &mut Arguments) -> Option<Window> {
    let [x_start, x_end, y_start, y_end] = arguments.array()?;
    Some(Window {
        x_start,
        x_end,
        y_start,
        y_end,
    })
}

fn advance(arguments: &mut Arguments) -> Option<Vec<i128>> {
    let mut counter = counter(arguments)?;
    let window = window(arguments)?;
    counter.advance(window, Entry(arguments.up_to(7)?));
    Some(vec![counter.x.into(), counter.y.into()])
}

/// A window of any order, and a counter at its edges or anywhere in ten bits.
fn counter_and_window(random: &mut Random) -> Vec<i128> {
    let bounds: [u64; 4] = std::array::from_fn(|_| random.below(1024));
    let mut at = |a: u64, b: u64, limit: u64| match random.below(5) {
        0 => random.below(1024),
        1 => limit.min(1023),
        2 => a,
        3 => b,
        _ => (random.pick(&[a, b]) + random.below(20))
            .saturating_sub(10)
            .min(1023),
    };
    let x = at(bounds[0], bounds[1], 959);
    let y = at(bounds[2], bounds[3], 679);
    [x, y].into_iter().chain(bounds).map(i128::from).collect()
}

fn advance_question(_: u64, random: &mut Random) -> Vec<i128> {
    let mut numbers = counter_and_window(random);
    numbers.push(random.below(8).into());
    numbers
}

/// `Ram::index` is private to its module: the byte is found by writing it.
fn index(arguments: &mut Arguments) -> Option<Vec<i128>> {
    let mut ram = Ram::filled(0);
    if !ram.write(Plane::BlackWhite, counter(arguments)?, 1) {
        return Some(vec![0, 0]);
    }
    let place = ram
        .plane(Plane::BlackWhite)
        .iter()
        .position(|&byte| byte == 1)?;
    Some(vec![1, i128::try_from(place).ok()?])
}

/// A counter within ten bits, at the edges of the RAM more often than chance would.
fn place_question(_: u64, random: &mut Random) -> Vec<i128> {
    let x = random.below(1024);
    let y = random.below(1024);
    let x = random.pick(&[x, x, 0, 7, 8, 952, 959, 960, 1023]);
    let y = random.pick(&[y, y, 0, 1, 679, 680, 1023]);
    vec![x.into(), y.into()]
}

fn bit(arguments: &mut Arguments) -> Option<Vec<i128>> {
    let ram = filled(arguments.take()?);
    let (x, row) = (arguments.take()?, arguments.take()?);
    Some(option(ram.bit(Plane::BlackWhite, x, row)))
}

fn bit_question(place: u64, random: &mut Random) -> Vec<i128> {
    let mut numbers = vec![random.below(4).into()];
    numbers.extend(place_question(place, random));
    numbers
}

fn auto_write(arguments: &mut Arguments) -> Option<Vec<i128>> {
    let mut ram = Ram::filled(0x5A);
    ram.auto_write(Plane::Red, arguments.take()?);
    Some(vec![hash::of_bytes(ram.plane(Plane::Red)).into()])
}

/// The option of a nibble, and what it makes of a bit: `PlaneOption::apply` is private to its
/// module, so a panel of one pixel is started on a RAM that holds the bit.
fn plane_option(arguments: &mut Arguments) -> Option<Vec<i128>> {
    let option = PlaneOption::from_nibble(arguments.take()?);
    let bit = arguments.truth()?;
    let geometry = PanelGeometry {
        width: 1,
        height: 1,
        first_source: 0,
        columns_reversed: false,
        native_scan: GateScan::default(),
        rows_reversed: false,
    };
    let scan = Scan {
        lines: RAM_GATES,
        order: GateScan::default(),
        red: PlaneOption::Zero,
        black_white: option,
    };
    let ram = Ram::filled(if bit { 0xFF } else { 0x00 });
    let waveform = Waveform::from_setting(&[0; LUT_BYTES], &[1; 16]);
    let panel = Panel::new(geometry, Optics::default());
    let times = (Cycles::ZERO, Cycles::ZERO);
    let display = panel.start(&ram, scan, waveform, None, RefreshKind::Full, times);
    let number = match option {
        PlaneOption::Normal => 0,
        PlaneOption::Zero => 1,
        PlaneOption::Inverse => 2,
    };
    Some(vec![number, inside::luts(&display)[0].into()])
}

pub(super) fn leaves() -> Vec<Leaf> {
    vec![
        Leaf {
            name: "advance",
            answer: advance,
            question: advance_question,
        },
        Leaf {
            name: "within",
            answer: |arguments| {
                let counter = counter(arguments)?;
                Some(vec![counter.within(window(arguments)?).into()])
            },
            question: |_, random| counter_and_window(random),
        },
        Leaf {
            name: "index",
            answer: index,
            question: place_question,
        },
        Leaf {
            name: "bit",
            answer: bit,
            question: bit_question,
        },
        Leaf {
            name: "auto_write",
            answer: auto_write,
            question: |place, _| vec![i128::from(place % 256)],
        },
        Leaf {
            name: "plane_option",
            answer: plane_option,
            question: |place, _| vec![i128::from(place / 2 % 256), i128::from(place % 2)],
        },
    ]
}
