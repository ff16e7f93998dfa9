//! The whole device at 800×480. What events take is what a list with them takes beyond the list without.

use std::time::Duration;

use super::beside::Table;
use super::random::Random;
use super::traffic::{Events, Sides};
use super::waveform::longest;
use crate::ssd1677::Ssd1677Config;

const SECOND: u64 = 1_000_000_000;

/// How often the lists have what they time, so that it is long beside what both lists share.
const BYTES: usize = 1_000_000;
const ALONE: usize = 100_000;
const FRAMES: usize = 5;
const CYCLES: usize = 10;
/// The partial refreshes of a day, one a minute.
const REFRESHES: u16 = 1440;

fn pair(value: u16) -> [u8; 2] {
    value.to_le_bytes()
}

/// 0x44, 0x45, 0x4E and 0x4F: columns and rows of a window, and the counter at its start.
fn window(events: &mut Events, (left, right): (u16, u16), (top, bottom): (u16, u16)) {
    events.command(0x44, &[pair(left), pair(right)].concat());
    events.command(0x45, &[pair(top), pair(bottom)].concat());
    events.command(0x4E, &pair(left));
    events.command(0x4F, &pair(top));
}

/// What a firmware sends after a reset: lines and scan, border, sensor, entry mode.
fn prepared(events: &mut Events) {
    events.wait(SECOND);
    events.command(0x01, &[0xDF, 0x01, 0x02]);
    events.command(0x3C, &[0x01]);
    events.command(0x18, &[0x80]);
    events.command(0x11, &[0x03]);
}

fn picture(random: &mut Random, bytes: usize) -> Vec<u8> {
    (0..bytes).map(|_| random.byte()).collect()
}

/// Both planes, whole.
fn frame(events: &mut Events, random: &mut Random) {
    for plane in [0x24, 0x26] {
        window(events, (0, 799), (0, 479));
        events.command(plane, &picture(random, 48_000));
    }
}

/// 0x22 and 0x20, and the clock's move after them.
fn activated(events: &mut Events, control: u8, nanoseconds: u64) {
    events.command(0x22, &[control]);
    events.command(0x20, &[]);
    events.wait(nanoseconds);
}

/// Resets, each after `more`.
fn cycles(events: &mut Events, more: impl Fn(&mut Events)) {
    for _ in 0..CYCLES {
        more(events);
        events.reset();
        prepared(events);
    }
}

/// A digit of 64×25 pixels: to 0x24, shown by mode Two, then to 0x26 as what the glass now has.
fn partial(events: &mut Events, random: &mut Random, number: u16) {
    let (left, top) = (number % 11 * 64, number % 17 * 25);
    let digit = picture(random, 200);
    window(events, (left, left + 63), (top, top + 24));
    events.command(0x24, &digit);
    activated(events, 0xFC, SECOND);
    window(events, (left, left + 63), (top, top + 24));
    events.command(0x26, &digit);
    events.wait(58 * SECOND);
}

/// What `more` takes beyond `base`, the best of some rounds on each side.
fn beyond(sides: &mut Sides, rounds: u32, base: Option<&Events>, more: &Events) -> [Duration; 2] {
    let mut without = [Duration::MAX; 2];
    let mut with = [Duration::MAX; 2];
    for round in 0..rounds {
        // Neither side is always the first.
        for turn in 0..2 {
            let side = (round + turn) as usize % 2;
            let run = [Sides::rust, Sides::proved][side];
            let least = base.map_or(Duration::ZERO, |base| run(sides, base));
            without[side] = without[side].min(least);
            with[side] = with[side].min(run(sides, more));
        }
    }
    sides.compare();
    [0, 1].map(|side| with[side].saturating_sub(without[side]))
}

fn long_waveform() -> Ssd1677Config {
    let mut config = Ssd1677Config::gdeq0426t82();
    config.otp[0].setting = longest();
    config
}

/// So many entries, the first alone of mode One and for the temperature after a reset: it is found last.
fn with_entries(count: usize) -> Ssd1677Config {
    let mut config = Ssd1677Config::gdeq0426t82();
    let (found, other) = (config.otp[1].clone(), config.otp[2].clone());
    config.otp = vec![other; count];
    config.otp[0] = found;
    config
}

pub(super) fn rows(table: &Table) {
    let random = &mut Random::of_place(3, 0);
    let sides = &mut Sides::new(Ssd1677Config::gdeq0426t82());
    let rounds = table.rounds();
    let row = |what: &str, counted, times| table.write(what, counted, times);
    row("start, `new`", (1, "start"), beyond(sides, rounds, None, &Events::default()));

    let ready = Events::default().then(prepared);
    let first = ready.then(|e| {
        window(e, (0, 799), (0, 479));
        e.command(0x24, &[]);
    });
    let bytes = first.then(|e| e.data(&picture(random, BYTES)));
    row("a RAM byte of 0x24, after others", (BYTES, "byte"), beyond(sides, rounds, Some(&first), &bytes));

    // A clock move after each byte, so that no byte follows another.
    let moves = first.then(|e| (0..ALONE).for_each(|_| e.wait(1)));
    let alone = first.then(|e| {
        for byte in picture(random, ALONE) {
            e.data(&[byte]);
            e.wait(1);
        }
    });
    row("a RAM byte of 0x24 alone, between clock moves", (ALONE, "byte"), beyond(sides, rounds, Some(&moves), &alone));

    // 0x7F, which does nothing: what is left is the call, and 12's look at every entry (#106).
    let commands = ready.then(|e| (0..ALONE).for_each(|_| e.command(0x7F, &[])));
    for count in [3, 16, 64] {
        let sides = &mut Sides::new(with_entries(count));
        let what = format!("a command alone, table of {count} entries");
        row(&what, (ALONE, "command"), beyond(sides, rounds, Some(&ready), &commands));
    }

    // A load of the waveform alone, looked for in the whole table after 12's look at it.
    let loads = ready.then(|e| (0..ALONE / 10).for_each(|_| activated(e, 0x91, SECOND)));
    let waits = ready.then(|e| (0..ALONE / 10).for_each(|_| activated(e, 0x81, SECOND)));
    for count in [3, 16, 64] {
        let sides = &mut Sides::new(with_entries(count));
        let what = format!("a waveform looked for and loaded, table of {count} entries");
        row(&what, (ALONE / 10, "load"), beyond(sides, rounds, Some(&waits), &loads));
    }

    let framed = ready.then(|e| frame(e, random));
    let frames = framed.then(|e| (0..FRAMES).for_each(|_| frame(e, random)));
    row("both planes written whole", (FRAMES, "frame"), beyond(sides, rounds, Some(&framed), &frames));

    // A display that a reset finds before its first frame is dropped: the activation alone.
    let idle = framed.then(|e| cycles(e, |e| e.wait(1)));
    let dropped = framed.then(|e| cycles(e, |e| activated(e, 0xF7, 1)));
    let ended = framed.then(|e| cycles(e, |e| activated(e, 0xF7, 10 * SECOND)));
    row("activation, mode One, not its end", (CYCLES, "activation"), beyond(sides, rounds, Some(&idle), &dropped));
    row("end of that refresh", (CYCLES, "end"), beyond(sides, rounds, Some(&dropped), &ended));

    let slow = &mut Sides::new(long_waveform());
    let walked = framed.then(|e| cycles(e, |e| activated(e, 0xF7, 1000 * SECOND)));
    let what = "activation and end, ten groups of 256 repeats";
    row(what, (CYCLES, "refresh"), beyond(slow, rounds, Some(&idle), &walked));

    let day = framed.then(|e| (0..REFRESHES).for_each(|number| partial(e, random, number)));
    // A round takes many seconds.
    let few = rounds.div_ceil(20);
    let what = format!("a day of {REFRESHES} partial refreshes, best of {few}");
    row(&what, (REFRESHES.into(), "refresh"), beyond(sides, few, Some(&framed), &day));
}
