//! What a run of events reaches, counted: so that a generated run can be seen to hold what it is
//! meant to hold.

use std::collections::{BTreeMap, BTreeSet};
use std::io::{self, Write};

use super::bench::Bench;
use super::configuration::{Configuration, Refusal};
use super::line::{LINE_BYTES, Line};
use super::{record, settings};
use crate::ssd1677::{Active, Current, GateScan, Power};

#[derive(Default)]
struct Tally {
    counts: BTreeMap<String, u64>,
    /// The command bytes that a device was sent, and those that it neither was busy, asleep nor in
    /// reset at.
    sent: BTreeSet<u16>,
    taken: BTreeSet<u16>,
}

impl Tally {
    fn add(&mut self, name: &str, count: u64) {
        if count > 0 {
            *self.counts.entry(name.to_owned()).or_default() += count;
        }
    }

    fn one(&mut self, name: &str, when: bool) {
        self.add(name, u64::from(when));
    }
}

/// What the device held before an event.
struct Before {
    generation: u64,
    dropped: u64,
    logged: usize,
    /// When the running refresh starts driving.
    started: Option<u64>,
    /// The LUT register.
    setting: settings::Setting,
    /// Whether the third byte of `0x01` comes next.
    gate_scan: bool,
}

impl Before {
    fn of(bench: &Bench) -> Before {
        let device = &bench.device;
        Before {
            generation: device.panel_image().generation,
            dropped: device.dropped_diagnostics(),
            logged: device.diagnostics.len(),
            started: device.display.as_ref().map(|display| display.started.get()),
            setting: device.regs.lut,
            gate_scan: matches!(
                device.current,
                Current::Active(Active {
                    command: 0x01,
                    received: 2,
                    ..
                })
            ),
        }
    }
}

/// Counts what the event `line` did, given what was before.
fn event(tally: &mut Tally, bench: &Bench, before: &Before, line: Line) {
    let device = &bench.device;
    let image = device.panel_image();
    let ends = image.generation - before.generation;
    tally.add("refresh ended or cut", ends);
    tally.one("refresh cut", ends > 0 && image.interrupted);
    tally.one("two refreshes in one call", ends > 1);
    let began = line.kind == 1 && line.value == 0x20 && ends > 0 && device.display.is_none();
    tally.one(
        "refresh ended by its own call",
        began && before.started.is_none(),
    );
    let dropped = line.kind == 4 && before.started.is_some() && ends == 0;
    tally.one(
        "refresh dropped before driving",
        dropped && device.display.is_none(),
    );
    tally.add(
        "diagnostics dropped",
        device.dropped_diagnostics() - before.dropped,
    );
    for diagnostic in device.diagnostics.iter().skip(before.logged) {
        tally.add(&format!("diagnostic {}", record::record(diagnostic)[8]), 1);
    }
    tally.one("events at 2^64-1", line.number == u64::MAX);
    if ends == 1 && image.interrupted {
        cut(tally, bench, before);
    }
    let started = device.display.as_ref().map(|display| display.started.get());
    if started.is_some() && started != before.started {
        let order = scan(device.regs.gate_scan);
        tally.add(&format!("refresh begun with {order}"), 1);
    }
    let tb = before.gate_scan && line.kind == 2 && line.value & 1 == 1;
    tally.one("TB written", tb);
}

/// Where in its frames a refresh was cut. The reset that cut it restored the registers, so the
/// setting is the one kept from before.
fn cut(tally: &mut Tally, bench: &Bench, before: &Before) {
    let image = bench.device.panel_image();
    let at = image.at.get() - image.started.get();
    let periods = &bench.device.config.timing.frame_period;
    // The edge at 0 ends no frame.
    let edges: Vec<u64> = settings::frame_ends(&before.setting, periods, 1 << 17)
        .into_iter()
        .skip(1)
        .map(|edge| bench.device.time_base.nanos_to_cycles(edge.into()).get())
        .collect();
    let ends_at = |moment: Option<u64>| moment.is_some_and(|m| edges.binary_search(&m).is_ok());
    tally.one("cut at the start of driving", at == 0);
    tally.one("cut at a frame's edge", ends_at(Some(at)));
    tally.one(
        "cut 1 cycle before a frame's edge",
        ends_at(at.checked_add(1)),
    );
    tally.one(
        "cut 1 cycle after a frame's edge",
        ends_at(at.checked_sub(1)),
    );
}

fn scan(order: GateScan) -> String {
    format!("SM {} GD {}", u8::from(order.sm), u8::from(order.gd))
}

/// Counts the panel of an accepted start.
fn panel(tally: &mut Tally, bench: &Bench) {
    let panel = &bench.device.config.panel;
    let order = scan(panel.native_scan);
    tally.add(&format!("panel of native {order}"), 1);
    let (rows, columns) = (panel.rows_reversed, panel.columns_reversed);
    tally.one("panel with rows reversed", rows && !columns);
    tally.one("panel with columns reversed", columns && !rows);
    tally.one("panel with rows and columns reversed", rows && columns);
    let size = (panel.width, panel.height);
    tally.one("panel of 960 x 680", size == (960, 680));
    tally.one("panel of 800 x 480", size == (800, 480));
    tally.one("panel of 1 x 1", size == (1, 1));
}

/// Writes how often each thing came about in `input`.
pub(super) fn run(input: &[u8], out: &mut impl Write) -> io::Result<bool> {
    let mut tally = Tally::default();
    let mut configuration = Configuration::new();
    let mut bench: Option<Bench> = None;
    let mut count = None;
    for line in input.chunks(LINE_BYTES).map_while(Line::parse) {
        tally.add(&format!("lines of kind {:2}", line.kind), 1);
        match (line.kind, &mut bench) {
            (8, _) => count = Some(line.number),
            (10, _) => {
                configuration = Configuration::new();
                bench = None;
            }
            (11, _) => configuration.fields[usize::from(line.value)] = line.number,
            (12, _) => configuration.set_otp(line.value.into(), line.number.to_le_bytes()[0]),
            (13, _) => match configuration.start() {
                Ok(device) => {
                    tally.add("start ok", 1);
                    panel(&mut tally, bench.insert(Bench::new(device)));
                }
                Err(Refusal(number, _)) => tally.add(&format!("start refused {number:2}"), 1),
            },
            (_, None) => count = count.filter(|_| !matches!(line.kind, 2 | 3)),
            (_, Some(bench)) => {
                let before = Before::of(bench);
                let times = match line.kind {
                    2 | 3 => count.take().unwrap_or(1),
                    _ => 1,
                };
                tally.add("calls", if line.kind < 6 { times } else { 0 });
                if line.kind == 1 {
                    command(&mut tally, bench, line);
                }
                perform(bench, line, times);
                event(&mut tally, bench, &before, line);
            }
        }
    }
    let (sent, taken) = (tally.sent.len() as u64, tally.taken.len() as u64);
    tally.add("of 256 command bytes sent", sent);
    tally.add("of 256 command bytes taken", taken);
    for (name, count) in &tally.counts {
        writeln!(out, "{count:10} {name}")?;
    }
    Ok(true)
}

/// Counts the command byte that comes next.
fn command(tally: &mut Tally, bench: &mut Bench, line: Line) {
    // The command does the same first.
    bench.advance(line.number);
    let device = &bench.device;
    tally.sent.insert(line.value);
    if device.power == Power::Running && !device.is_busy(device.now) {
        tally.taken.insert(line.value);
    }
}

fn perform(bench: &mut Bench, line: Line, times: u64) {
    let byte = line.value.to_le_bytes()[0];
    match line.kind {
        1 => bench.command(line.number, byte),
        2 => (0..times).for_each(|_| bench.data(line.number, byte)),
        3 => (0..times).for_each(|_| {
            bench.read(line.number);
        }),
        4 => bench.reset(line.number, line.value == 1),
        5 => bench.advance(line.number),
        9 => bench.set_ambient(u16::try_from(line.number).unwrap_or(u16::MAX)),
        14 => {
            bench.take_diagnostics();
        }
        _ => {}
    }
}
