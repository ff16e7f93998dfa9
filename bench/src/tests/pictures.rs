//! RAMs with pictures of other kinds than chance.

use super::random::Random;
use crate::ssd1677::ram::{Counter, Plane, Ram};

/// Eight pixels of a picture, by a seed, their column of bytes and their row.
pub(super) type Picture = fn(u64, u16, u16) -> u8;

/// Black and white squares of 64 pixels, by chance.
pub(super) fn squares(seed: u64, column: u16, y: u16) -> u8 {
    let mut random = Random::of_place(seed, u64::from(y / 64 * 15 + column / 8));
    if random.byte() < 128 { 0x00 } else { 0xFF }
}

/// Black digits of seven bars, 64×96 pixels each, on white.
pub(super) fn digits(seed: u64, column: u16, y: u16) -> u8 {
    const BARS: [u8; 10] = [0x77, 0x24, 0x5D, 0x6D, 0x2E, 0x6B, 0x7B, 0x25, 0x7F, 0x6F];
    let digit = Random::of_place(seed, u64::from(y / 96 * 15 + column / 8)).byte() % 10;
    let (x, y) = (column % 8, y % 96);
    let across = (2..6).contains(&x);
    let bar = match y {
        8..16 if across => 0,
        44..52 if across => 3,
        80..88 if across => 6,
        8..48 if x == 1 => 1,
        8..48 if x == 6 => 2,
        48..88 if x == 1 => 4,
        48..88 if x == 6 => 5,
        _ => return 0xFF,
    };
    if BARS[usize::from(digit)] >> bar & 1 == 1 { 0x00 } else { 0xFF }
}

pub(super) fn white(_: u64, _: u16, _: u16) -> u8 {
    0xFF
}

/// The new picture in 0x24 and the old one in 0x26, as a firmware leaves them.
pub(super) fn ram(picture: Picture, old: u64, new: u64) -> Ram {
    let mut ram = Ram::filled(0);
    for y in 0..680 {
        for column in 0..120 {
            let at = Counter { x: 8 * column, y };
            ram.write(Plane::BlackWhite, at, picture(new, column, y));
            ram.write(Plane::Red, at, picture(old, column, y));
        }
    }
    ram
}
