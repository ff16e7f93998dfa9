//! The dump of docs/replay-format.md.

use std::io::{self, Write};

use super::bench::Bench;
use super::{hash, inside};
use crate::ssd1677::{Current, Kind, Params, Plane, Power, RefreshKind, Ssd1677};

fn hex(bytes: &[u8]) -> String {
    bytes.iter().map(|byte| format!("{byte:02x}")).collect()
}

/// An instant, or `-` where there is none.
fn instant(cycles: Option<emu_core::Cycles>) -> String {
    cycles.map_or_else(|| "-".to_owned(), |cycles| cycles.get().to_string())
}

fn refresh_kind(kind: RefreshKind) -> &'static str {
    match kind {
        RefreshKind::PowerOn => "poweron",
        RefreshKind::Full => "full",
        RefreshKind::Partial => "partial",
    }
}

/// The word of a kind and its counts.
fn kind_words(kind: Kind) -> (&'static str, u16, u16) {
    match kind {
        Kind::Write(Params::Exactly(count)) => ("exactly", count, count),
        Kind::Write(Params::Between(least, most)) => ("between", least, most),
        Kind::Write(Params::Stream) => ("stream", 0, 0),
        Kind::Read => ("read", 0, 0),
        Kind::Unsupported(_) => ("unsupported", 0, 0),
        Kind::Reserved => ("reserved", 0, 0),
    }
}

pub(super) fn write(bench: &mut Bench, out: &mut impl Write) -> io::Result<()> {
    let (bytes, count) = bench.log();
    let log = hash::of_bytes(bytes);
    let device = &bench.device;
    state(device, out)?;
    registers(device, out)?;
    current(device, out)?;
    match &device.display {
        None => writeln!(out, "display -")?,
        Some(display) => {
            let (started, ends) = (display.started.get(), display.ends.get());
            let kind = refresh_kind(display.kind);
            writeln!(out, "display {started} {ends} {kind} {:02x}", bench.border)?;
        }
    }
    writeln!(out, "log {count} {} {log}", device.dropped_diagnostics())?;
    glass(device, bench.luts, out)
}

fn state(device: &Ssd1677, out: &mut impl Write) -> io::Result<()> {
    let now = device.now;
    writeln!(out, "clock {}", now.get())?;
    let power = match device.power {
        Power::Running => "running",
        Power::Asleep => "asleep",
        Power::InReset => "reset",
    };
    let (clock, analog) = (u8::from(device.clock), u8::from(device.analog));
    writeln!(out, "power {power} {clock} {analog}")?;
    let busy = u8::from(device.is_busy(now));
    let pin = u8::from(device.busy_pin(now));
    let (deadline, until) = (instant(device.next_deadline()), instant(device.busy_until));
    writeln!(out, "busy {busy} {pin} {deadline} {until}")
}

fn registers(device: &Ssd1677, out: &mut impl Write) -> io::Result<()> {
    let regs = &device.regs;
    let (sm, gd) = (u8::from(regs.gate_scan.sm), u8::from(regs.gate_scan.gd));
    writeln!(out, "mux {} {sm} {gd}", regs.mux)?;
    let (entry, window) = (regs.entry.0, regs.window);
    let (x, y) = (
        (window.x_start, window.x_end),
        (window.y_start, window.y_end),
    );
    writeln!(out, "window {entry} {} {} {} {}", x.0, x.1, y.0, y.1)?;
    writeln!(out, "counter {} {}", regs.counter.x, regs.counter.y)?;
    let [first, second] = regs.update_control_1;
    writeln!(out, "control {first} {second} {}", regs.update_control_2)?;
    let (sensor, temperature, sense) = (regs.sensor, regs.temperature, regs.vcom_sense);
    let (border, red) = (regs.border, u8::from(regs.read_ram_red));
    writeln!(out, "misc {sensor} {temperature} {sense} {border} {red}")?;
    let (option, user_id) = (hex(&regs.display_option), hex(&regs.user_id));
    writeln!(out, "option {option} {user_id}")?;
    writeln!(out, "setting {}", hex(&regs.lut))?;
    let status = device.status;
    let (hv, vci) = (u8::from(status.hv_not_ready), u8::from(status.vci_low));
    writeln!(
        out,
        "status {hv} {vci} {}",
        u8::from(device.reserved_reported)
    )
}

fn current(device: &Ssd1677, out: &mut impl Write) -> io::Result<()> {
    let active = match device.current {
        Current::Idle => return writeln!(out, "current idle"),
        Current::Ignoring => return writeln!(out, "current ignoring"),
        Current::Active(active) => active,
    };
    let (kind, least, most) = kind_words(active.kind);
    write!(
        out,
        "current active {} {kind} {least} {most}",
        active.command
    )?;
    let (received, read) = (active.received, active.read);
    let extra = u8::from(active.extra_reported);
    let range = u8::from(active.range_reported);
    let nothing = u8::from(active.nothing_reported);
    writeln!(out, " {received} {read} {extra} {range} {nothing}")
}

fn glass(device: &Ssd1677, luts: u64, out: &mut impl Write) -> io::Result<()> {
    let image = device.panel_image();
    let (width, height, border) = (image.width, image.height, image.border);
    let (generation, kind) = (image.generation, refresh_kind(image.kind));
    write!(out, "image {width} {height} {border} {generation} {kind}")?;
    let interrupted = u8::from(image.interrupted);
    let (started, at) = (image.started.get(), image.at.get());
    writeln!(out, " {interrupted} {started} {at}")?;
    let glass = inside::glass(&device.panel);
    writeln!(out, "glass {} {}", glass.swing, glass.border)?;
    let planes = (device.ram(Plane::BlackWhite), device.ram(Plane::Red));
    let (black_white, red) = hash::of_two(planes.0, planes.1);
    let states = hash::of_states(&glass.states);
    let pixels = hash::of_bytes(&image.pixels);
    let gates = hash::of_words(&glass.gate_of_row);
    writeln!(
        out,
        "hash {black_white} {red} {states} {pixels} {luts} {gates}"
    )
}
