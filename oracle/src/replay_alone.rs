//! The oracle's `replay` without its other programs: what oracle/near-misses compiles, since it does so often.

mod bench;
mod coldest;
mod configuration;
mod counts;
mod dump;
mod hash;
mod inside;
mod line;
mod loaded;
mod picture;
mod record;
mod replay;

use std::io::{self, Read, Write};

use super::Ssd1677;

impl crate::Judge for Ssd1677 {
    fn run(_: &[String]) -> bool {
        let mut out = io::BufWriter::with_capacity(1 << 16, io::stdout().lock());
        let mut events = Vec::new();
        // A closed input is an empty one.
        let _ = io::stdin().lock().read_to_end(&mut events);
        let done = replay::run(&events, &mut out);
        done.and_then(|whole| out.flush().map(|()| whole))
            .unwrap_or(false)
    }
}
