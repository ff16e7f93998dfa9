//! A device of crates/bench_device with the buffers that it is lent, run through a list of events.

use super::proved::{Counts, Published};
use super::traffic::Events;
use crate::ssd1677::ram::PLANE_BYTES;

const LOG_BYTES: usize = 1024 * 16;

unsafe extern "C" {
    fn proved_traffic(
        states: *mut i64,
        states_len: usize,
        luts: *mut u8,
        luts_len: usize,
        pixels: *mut u8,
        pixels_len: usize,
        counts: *mut u32,
        counts_len: usize,
        black_white: *mut u8,
        black_white_len: usize,
        red: *mut u8,
        red_len: usize,
        gates: *mut u16,
        gates_len: usize,
        log: *mut u8,
        log_len: usize,
        otp: *const u8,
        otp_len: usize,
        width: u16,
        height: u16,
        kinds: *const u8,
        kinds_len: usize,
        times: *const u64,
        times_len: usize,
        values: *const u8,
        values_len: usize,
        header: &mut Published,
    ) -> usize;
}

pub(super) struct Lent {
    size: (u16, u16),
    pub(super) states: Vec<i64>,
    pub(super) luts: Vec<u8>,
    pub(super) pixels: Vec<u8>,
    pub(super) counts: Counts,
    pub(super) black_white: Vec<u8>,
    pub(super) red: Vec<u8>,
    gates: Vec<u16>,
    pub(super) log: Vec<u8>,
}

impl Lent {
    pub(super) fn new(width: u16, height: u16) -> Lent {
        let pixels = usize::from(width) * usize::from(height);
        Lent {
            size: (width, height),
            states: vec![0; pixels],
            luts: vec![0; pixels],
            pixels: vec![0; pixels],
            counts: [0xDEAD; 256],
            black_white: vec![0; PLANE_BYTES],
            red: vec![0; PLANE_BYTES],
            gates: vec![0; usize::from(height)],
            log: vec![0; LOG_BYTES],
        }
    }

    /// A start and the events after it: how many were made, and the image's header.
    pub(super) fn traffic(&mut self, otp: &[u8], events: &Events) -> (usize, Published) {
        let mut header = [0; 8];
        let made = unsafe {
            proved_traffic(
                self.states.as_mut_ptr(),
                self.states.len(),
                self.luts.as_mut_ptr(),
                self.luts.len(),
                self.pixels.as_mut_ptr(),
                self.pixels.len(),
                self.counts.as_mut_ptr(),
                self.counts.len(),
                self.black_white.as_mut_ptr(),
                self.black_white.len(),
                self.red.as_mut_ptr(),
                self.red.len(),
                self.gates.as_mut_ptr(),
                self.gates.len(),
                self.log.as_mut_ptr(),
                self.log.len(),
                otp.as_ptr(),
                otp.len(),
                self.size.0,
                self.size.1,
                events.kinds.as_ptr(),
                events.kinds.len(),
                events.times.as_ptr(),
                events.times.len(),
                events.values.as_ptr(),
                events.values.len(),
                &mut header,
            )
        };
        (made, header)
    }
}
