//! What was compared, in counts.

use super::cases::Case;
use super::sides::Seen;
use crate::ssd1677::waveform::Drive;

#[derive(Default)]
pub(super) struct Tally {
    panels: u64,
    pixels: u64,
    largest: u64,
    one_wide_or_high: u64,
    odd_heights: u64,
    first_source: u64,
    native: [u64; 4],
    reversed: [u64; 4],
    driver: [u64; 4],
    lines: [u64; 3],
    luts: [u64; 5],
    moved: [u64; 2],
    border: [u64; 3],
    swings: [u64; 4],
    outside: usize,
    black: [u64; 2],
}

/// The place of two bits among their four pairs.
fn pair(high: bool, low: bool) -> usize {
    usize::from(high) * 2 + usize::from(low)
}

impl Tally {
    pub(super) fn add(&mut self, case: &Case, seen: &Seen) {
        let (g, s) = (&case.geometry, &case.scanned);
        self.panels += 1;
        self.pixels += case.states.len() as u64;
        self.largest += u64::from(case.states.len() > 500_000);
        self.one_wide_or_high += u64::from(g.width == 1 || g.height == 1);
        self.odd_heights += u64::from(!g.height.is_multiple_of(2));
        self.first_source += u64::from(g.first_source > 0);
        self.native[pair(g.native_scan.sm, g.native_scan.gd)] += 1;
        self.reversed[pair(g.columns_reversed, g.rows_reversed)] += 1;
        self.driver[pair(s.order.sm, s.order.gd)] += 1;
        self.lines[usize::from(s.lines >= g.height) + usize::from(s.lines > g.height)] += 1;
        for (sum, count) in self.luts.iter_mut().zip(seen.luts) {
            *sum += count;
        }
        self.moved[0] += seen.moved_whole;
        self.moved[1] += seen.moved_cut;
        self.border[match seen.border {
            Some(Drive::Lut(_)) => 0,
            Some(Drive::Fixed(_)) => 1,
            None => 2,
        }] += 1;
        self.swings[match case.shown.swing {
            1 => 0,
            6_000_000_000_000 => 1,
            i64::MAX => 2,
            _ => 3,
        }] += 1;
        let swing = 0..=case.shown.swing;
        self.outside += case.states.iter().filter(|&state| !swing.contains(state)).count();
        self.black[usize::from(case.shown.positive_drives_black)] += 1;
    }

    pub(super) fn print(&self) {
        let Tally {
            panels,
            pixels,
            largest,
            one_wide_or_high,
            odd_heights,
            first_source,
            ..
        } = self;
        println!(
            "panels {panels}, {largest} of them of more than 500,000 pixels, {one_wide_or_high} one wide or high,"
        );
        println!("  {odd_heights} of odd height, {first_source} with a first source above 0");
        println!("pixels {pixels}, each at a start, an end that is whole and one that is cut");
        println!("native scan SM GD 00 01 10 11: {:?}", self.native);
        println!("reversed neither, rows, columns, both: {:?}", self.reversed);
        println!("scan of the driver SM GD 00 01 10 11: {:?}", self.driver);
        println!("lines below the height, equal, above: {:?}", self.lines);
        println!("pixels of LUT 0 to 3, undriven: {:?}", self.luts);
        println!(
            "ends whole {panels}, cut {panels}; states moved by them {:?}",
            self.moved
        );
        println!("border driven by a LUT, fixed, left: {:?}", self.border);
        println!("swing 1, 6·10^12, 2^63−1, other: {:?}", self.swings);
        println!("states below 0 or above the swing: {}", self.outside);
        println!("positive drives white, black: {:?}", self.black);
    }
}
