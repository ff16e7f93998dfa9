//! The functions of crates/bench, from the archive that bench/build makes of crates/bench_c.

use crate::ssd1677::{GateScan, PanelGeometry};

mod archive {
    use super::Published;

    unsafe extern "C" {
        pub fn proved_grays(
            states: *const i64,
            states_len: usize,
            swing: i64,
            pixels: *mut u8,
            pixels_len: usize,
        ) -> bool;
        pub fn proved_transfer(
            setting: &[u8; 112],
            periods: &[u64; 16],
            lut: usize,
            swing: i64,
            positive_drives_black: bool,
            cut: bool,
            until: u64,
            out: &mut [i64; 3],
        ) -> bool;
        pub fn proved_combined(
            setting: &[u8; 112],
            periods: &[u64; 16],
            lut: usize,
            swing: i64,
            positive_drives_black: bool,
            out: &mut [i64; 3],
        ) -> bool;
        pub fn proved_gates(
            gates: *mut u16,
            gates_len: usize,
            width: u16,
            height: u16,
            first_source: u16,
            columns_reversed: bool,
            native_sm: bool,
            native_gd: bool,
            rows_reversed: bool,
        );
        pub fn proved_start(
            luts: *mut u8,
            luts_len: usize,
            gates: *const u16,
            gates_len: usize,
            red: *const u8,
            red_len: usize,
            black_white: *const u8,
            black_white_len: usize,
            width: u16,
            height: u16,
            first_source: u16,
            columns_reversed: bool,
            native_sm: bool,
            native_gd: bool,
            rows_reversed: bool,
            lines: u16,
            sm: bool,
            gd: bool,
            options: u8,
        ) -> bool;
        pub fn proved_finish(
            states: *mut i64,
            states_len: usize,
            luts: *const u8,
            luts_len: usize,
            pixels: *mut u8,
            pixels_len: usize,
            counts: *mut u32,
            counts_len: usize,
            setting: &[u8; 112],
            periods: &[u64; 16],
            swing: i64,
            positive_drives_black: bool,
            register: u8,
            partial: bool,
            border: i64,
            width: u16,
            height: u16,
            generation: u64,
            started: u64,
            at: u64,
            cut: bool,
            until: u64,
            header: &mut Published,
        ) -> i64;
        pub fn proved_auto_write(plane: *mut u8, plane_len: usize, parameter: u8);
        pub fn proved_write(
            plane: *mut u8,
            plane_len: usize,
            bytes: *const u8,
            bytes_len: usize,
            counter: &mut [u16; 2],
            window: &[u16; 4],
            mode: u8,
        );
    }
}

pub(super) fn grays(states: &[i64], swing: i64, pixels: &mut [u8]) -> bool {
    let (out, len) = (pixels.as_mut_ptr(), pixels.len());
    unsafe { archive::proved_grays(states.as_ptr(), states.len(), swing, out, len) }
}

/// The transfer of LUT `lut`, walked: what it adds, and its two ends.
pub(super) fn transfer(
    setting: &[u8; 112],
    periods: &[u64; 16],
    lut: usize,
    swing: i64,
    until: Option<u64>,
) -> [i64; 3] {
    let mut out = [0; 3];
    let (cut, end) = (until.is_some(), until.unwrap_or(0));
    let done =
        unsafe { archive::proved_transfer(setting, periods, lut, swing, true, cut, end, &mut out) };
    assert!(done, "refused");
    out
}

/// The same of a whole display, each group combined with itself.
pub(super) fn combined(setting: &[u8; 112], periods: &[u64; 16], lut: usize, swing: i64) -> [i64; 3] {
    let mut out = [0; 3];
    let done = unsafe { archive::proved_combined(setting, periods, lut, swing, true, &mut out) };
    assert!(done, "refused");
    out
}

/// The gate of every row, stored in a buffer.
pub(super) fn gates(gates: &mut [u16], g: &PanelGeometry) {
    unsafe {
        archive::proved_gates(
            gates.as_mut_ptr(),
            gates.len(),
            g.width,
            g.height,
            g.first_source,
            g.columns_reversed,
            g.native_scan.sm,
            g.native_scan.gd,
            g.rows_reversed,
        );
    }
}

/// What the choice of LUTs asks beside the buffers.
#[derive(Clone)]
pub(super) struct Choice {
    pub(super) geometry: PanelGeometry,
    pub(super) lines: u16,
    pub(super) order: GateScan,
    pub(super) options: u8,
}

pub(super) fn start(luts: &mut [u8], gates: &[u16], red: &[u8], black_white: &[u8], c: &Choice) {
    let g = &c.geometry;
    let done = unsafe {
        archive::proved_start(
            luts.as_mut_ptr(),
            luts.len(),
            gates.as_ptr(),
            gates.len(),
            red.as_ptr(),
            red.len(),
            black_white.as_ptr(),
            black_white.len(),
            g.width,
            g.height,
            g.first_source,
            g.columns_reversed,
            g.native_scan.sm,
            g.native_scan.gd,
            g.rows_reversed,
            c.lines,
            c.order.sm,
            c.order.gd,
            c.options,
        )
    };
    assert!(done, "refused");
}

/// A published image's header: width, height, the border's grey, generation, kind, interrupted,
/// started and at.
pub(super) type Published = [u64; 8];

/// How often each grey occurs in a picture.
pub(super) type Counts = [u32; 256];

/// The counts of a picture, counted anew: the reference has none.
pub(super) fn recounted(pixels: &[u8]) -> Counts {
    let mut counts = [0; 256];
    for &grey in pixels {
        counts[usize::from(grey)] += 1;
    }
    counts
}

/// A display that ends: what it is told, and the cut.
#[derive(Clone, Copy)]
pub(super) struct Ending<'a> {
    pub(super) setting: &'a [u8; 112],
    pub(super) periods: &'a [u64; 16],
    pub(super) swing: i64,
    pub(super) positive_drives_black: bool,
    pub(super) register: u8,
    pub(super) partial: bool,
    pub(super) size: (u16, u16),
    pub(super) generation: u64,
    pub(super) started: u64,
    pub(super) at: u64,
    pub(super) until: Option<u64>,
}

/// The border's state after the display, and the image's header.
pub(super) fn finish(
    states: &mut [i64],
    luts: &[u8],
    pixels: &mut [u8],
    counts: &mut Counts,
    border: i64,
    e: &Ending<'_>,
) -> (i64, Published) {
    // No header has this kind: a refused end leaves it.
    let mut header = [9; 8];
    let border = unsafe {
        archive::proved_finish(
            states.as_mut_ptr(),
            states.len(),
            luts.as_ptr(),
            luts.len(),
            pixels.as_mut_ptr(),
            pixels.len(),
            counts.as_mut_ptr(),
            counts.len(),
            e.setting,
            e.periods,
            e.swing,
            e.positive_drives_black,
            e.register,
            e.partial,
            border,
            e.size.0,
            e.size.1,
            e.generation,
            e.started,
            e.at,
            e.until.is_some(),
            e.until.unwrap_or(0),
            &mut header,
        )
    };
    assert!(header[4] != 9, "refused");
    (border, header)
}

pub(super) fn auto_write(plane: &mut [u8], parameter: u8) {
    unsafe { archive::proved_auto_write(plane.as_mut_ptr(), plane.len(), parameter) }
}

/// Writes a run of bytes; the counter afterwards.
pub(super) fn write(plane: &mut [u8], bytes: &[u8], window: [u16; 4], mode: u8) -> [u16; 2] {
    let mut counter = [window[0], window[2]];
    let (out, len) = (plane.as_mut_ptr(), plane.len());
    unsafe {
        archive::proved_write(out, len, bytes.as_ptr(), bytes.len(), &mut counter, &window, mode);
    }
    counter
}
