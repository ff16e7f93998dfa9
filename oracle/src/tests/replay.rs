//! The program `replay` of docs/replay-format.md over the reference.

use std::io::{self, Write};
use std::panic::{AssertUnwindSafe, catch_unwind};

use emu_core::Cycles;

use super::bench::Bench;
use super::configuration::{Configuration, Refusal};
use super::counts;
use super::dump;
use super::line::{LINE_BYTES, Line};
use super::picture;

struct Replay<'a, W> {
    out: &'a mut W,
    configuration: Configuration,
    bench: Option<Bench>,
    /// Whether a device that is gone asked for a waveform at −2048.
    asked_coldest: bool,
    /// The count that waits for the next line of data or read.
    count: Option<u64>,
}

/// Replays `input`; fails when the reference panicked on any line of it.
///
/// A panic is no part of the format: it writes `panic` and, to standard error, the line's number;
/// what the device then holds is unknown, so that nothing is started until the next start.
pub(super) fn run(input: &[u8], out: &mut impl Write) -> io::Result<bool> {
    let mut replay = Replay {
        out,
        configuration: Configuration::new(),
        bench: None,
        asked_coldest: false,
        count: None,
    };
    let mut whole = true;
    for (place, bytes) in input.chunks(LINE_BYTES).enumerate() {
        let number = place + 1;
        let Some(line) = Line::parse(bytes) else {
            writeln!(replay.out, "bad line {number}")?;
            break;
        };
        match catch_unwind(AssertUnwindSafe(|| replay.line(line))) {
            Ok(written) => written?,
            Err(_) => {
                whole = false;
                replay.drop_bench();
                eprintln!("line {number}: the reference panicked");
                writeln!(replay.out, "panic")?;
            }
        }
    }
    replay.drop_bench();
    if replay.asked_coldest {
        eprintln!("a waveform was asked for at -2048, where the port departs from the reference");
    }
    Ok(whole)
}

impl<W: Write> Replay<'_, W> {
    fn line(&mut self, line: Line) -> io::Result<()> {
        let value = line.value;
        match line.kind {
            8 => self.count = Some(line.number),
            10 => {
                self.configuration = Configuration::new();
                self.drop_bench();
                writeln!(self.out, "case {value}")?;
            }
            11 => self.configuration.fields[usize::from(value)] = line.number,
            12 => {
                let byte = line.number.to_le_bytes()[0];
                self.configuration.set_otp(usize::from(value), byte);
            }
            13 => self.start()?,
            // What a host hands to the port; the reference is handed nothing.
            15 | 16 => {}
            _ => self.event(line)?,
        }
        Ok(())
    }

    fn start(&mut self) -> io::Result<()> {
        // A start that panics leaves nothing started, as a refused one does.
        self.drop_bench();
        match self.configuration.start() {
            Ok(device) => {
                self.bench = Some(Bench::new(device));
                writeln!(self.out, "start ok")
            }
            Err(Refusal(number, value)) => writeln!(self.out, "start refused {number} {value}"),
        }
    }

    fn drop_bench(&mut self) {
        let bench = self.bench.take();
        self.asked_coldest |= bench.is_some_and(|bench| bench.asked_coldest);
    }

    /// A line that needs a device; before a start it only uses up the count.
    fn event(&mut self, line: Line) -> io::Result<()> {
        let time = line.number;
        let times = match line.kind {
            2 | 3 => self.count.take().unwrap_or(1),
            _ => 1,
        };
        let Some(bench) = &mut self.bench else {
            return Ok(());
        };
        let byte = line.value.to_le_bytes()[0];
        match line.kind {
            1 => bench.command(time, byte),
            2 => (0..times).for_each(|_| bench.data(time, byte)),
            3 => {
                for _ in 0..times {
                    match bench.read(time) {
                        Some(byte) => writeln!(self.out, "read {byte:02x}")?,
                        None => writeln!(self.out, "read --")?,
                    }
                }
            }
            4 => bench.reset(time, line.value == 1),
            5 => bench.advance(time),
            6 => {
                let busy = u8::from(bench.device.is_busy(Cycles(time)));
                let pin = u8::from(bench.device.busy_pin(Cycles(time)));
                writeln!(self.out, "query {busy} {pin}")?;
            }
            7 => dump::write(bench, self.out)?,
            // The register's width was tested with the line.
            9 => bench.set_ambient(u16::try_from(time).unwrap_or(u16::MAX)),
            17 => picture::write(bench.device.panel_image(), self.out)?,
            18 => counts::write(bench, self.out)?,
            _ => writeln!(self.out, "taken {}", bench.take_diagnostics())?,
        }
        Ok(())
    }
}
