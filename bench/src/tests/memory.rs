//! The RAM: the auto write of a plane, and a run of data bytes.

use std::hint::black_box;

use super::beside::{Table, timed};
use super::proved;
use super::random::Random;
use crate::ssd1677::ram::{Counter, Entry, PLANE_BYTES, Plane, Ram, Window};

/// A RAM of chance.
pub(super) fn ram(seed: u64) -> Ram {
    let mut random = Random::of_place(seed, 0);
    let mut ram = Ram::filled(0);
    for y in 0..680 {
        for column in 0..120 {
            let at = Counter { x: 8 * column, y };
            ram.write(Plane::BlackWhite, at, random.byte());
            ram.write(Plane::Red, at, random.byte());
        }
    }
    ram
}

pub(super) fn auto_writes(table: &Table) {
    for parameter in [0xF7, 0x23] {
        let (mut ram, mut plane) = (Ram::filled(0x5A), vec![0x5A; PLANE_BYTES]);
        table.row(
            &format!("auto_write, parameter {parameter:02X}h"),
            (PLANE_BYTES, "byte"),
            || timed(|| ram.auto_write(Plane::Red, black_box(parameter))),
            || timed(|| proved::auto_write(&mut plane, black_box(parameter))),
        );
        assert_eq!(ram.plane(Plane::Red), plane, "auto_write");
    }
}

pub(super) fn data_bytes(table: &Table) {
    let mut random = Random::of_place(2, 0);
    let bytes: Vec<u8> = (0..48_000).map(|_| random.byte()).collect();
    let window = Window { x_start: 0, x_end: 799, y_start: 479, y_end: 0 };
    for (what, mode) in [("x first, y down", 0b001), ("y first, y down", 0b101)] {
        let (mut ram, mut plane) = (Ram::filled(0), vec![0; PLANE_BYTES]);
        let (mut ends, mut end) = (Counter::default(), [0; 2]);
        table.row(
            &format!("write and step of the counter, {what}"),
            (bytes.len(), "byte"),
            || {
                timed(|| {
                    let (window, entry) = (black_box(window), Entry(black_box(mode)));
                    let mut counter = Counter { x: window.x_start, y: window.y_start };
                    for &byte in &bytes {
                        ram.write(Plane::BlackWhite, counter, byte);
                        counter.advance(window, entry);
                    }
                    ends = counter;
                })
            },
            || {
                timed(|| {
                    let window = [window.x_start, window.x_end, window.y_start, window.y_end];
                    end = proved::write(&mut plane, &bytes, black_box(window), black_box(mode));
                })
            },
        );
        assert_eq!(ram.plane(Plane::BlackWhite), plane, "write");
        assert_eq!([ends.x, ends.y], end, "counter");
    }
}
