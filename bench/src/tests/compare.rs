//! The gates, the choice of LUTs and the end of a display, held to the reference on panels of every size and wiring.

mod cases;
mod sides;
mod tally;

use cases::Case;
use sides::{Reference, Told};
use tally::Tally;

/// Compares `count` panels; whether there was no difference.
pub(super) fn run(seed: u64, count: u64) -> bool {
    let (mut reference, mut tally) = (Reference::new(), Tally::default());
    for place in 0..count {
        let case = Case::of(seed, place);
        match reference.compare(&case, &Told::of(&case)) {
            Ok(seen) => tally.add(&case, &seen),
            Err(difference) => {
                println!("seed {seed}, panel {place}: {difference:?}");
                println!("{:?}\n{:?}\n{:?}", case.geometry, case.scanned, case.shown);
                println!("setting {:?}\nperiods {:?}", case.setting, case.periods);
                println!("after {place} panels with no difference");
                return false;
            }
        }
    }
    tally.print();
    println!("no difference");
    true
}

type Alteration = (&'static str, fn(&mut Told));

/// Wrong programs, each as what the proved side is told in its stead.
const NEAR_MISSES: [Alteration; 20] = [
    ("columns_reversed is ignored", |t| t.geometry.columns_reversed = false),
    ("rows_reversed is ignored", |t| t.geometry.rows_reversed = false),
    ("SM of the native scan is ignored", |t| {
        t.geometry.native_scan.sm = false
    }),
    ("GD of the native scan is ignored", |t| {
        t.geometry.native_scan.gd = false
    }),
    ("first_source is ignored", |t| t.geometry.first_source = 0),
    ("SM of 0x01 is ignored", |t| t.scanned.order.sm = false),
    ("GD of 0x01 is ignored", |t| t.scanned.order.gd = false),
    ("MUX is read without its 1", |t| t.scanned.lines -= 1),
    ("the options of 0x21 are ignored", |t| t.scanned.options = 0),
    ("the options of the planes are exchanged", |t| {
        t.scanned.options = t.scanned.options.rotate_left(4)
    }),
    ("the planes are exchanged", |t| t.planes_exchanged = true),
    ("an undriven pixel is moved by LUT 0", |t| t.undriven_moved = true),
    ("the border is forgotten", |t| t.shown.register = 0xC0),
    ("the border always follows a LUT", |t| t.shown.register &= 0x3F),
    ("the border's fixed level is that of bits 3:2", |t| {
        t.shown.register = t.shown.register & 0xCF | (t.shown.register & 0x0C) << 2
    }),
    ("the sign of the drive is fixed", |t| {
        t.shown.positive_drives_black = true
    }),
    ("a cut is ignored", |t| t.cut_ignored = true),
    ("the generation stays", |t| {
        t.shown.generation = t.shown.generation.wrapping_sub(1)
    }),
    ("every image is of a full refresh", |t| t.shown.partial = false),
    ("the image is dated by its start", |t| t.shown.at = t.shown.started),
];

/// Whether every near miss is told from the reference within `count` panels.
pub(super) fn near_misses(seed: u64, count: u64) -> bool {
    let mut reference = Reference::new();
    let mut all = true;
    for (name, alter) in NEAR_MISSES {
        let mut told = 0;
        for place in 0..count {
            let case = Case::of(seed, place);
            let mut altered = Told::of(&case);
            alter(&mut altered);
            told += u64::from(reference.compare(&case, &altered).is_err());
        }
        all &= told > 0;
        println!("told at {told} of {count} panels: {name}");
    }
    all
}
