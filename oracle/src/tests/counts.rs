//! The counts of docs/replay-format.md (kind 18): the reference's pixels, counted anew, and the record beside them.

use std::io::{self, Write};

use super::bench::Bench;
use super::hash;

pub(super) fn write(bench: &Bench, out: &mut impl Write) -> io::Result<()> {
    let pixels = &bench.device.panel_image().pixels;
    let mut counts = [0; 256];
    for &grey in pixels {
        counts[usize::from(grey)] += 1;
    }
    writeln!(
        out,
        "counts {} {}",
        hash::of_counts(&counts),
        bench.waveform
    )
}
