//! Lists of events of chance, fed to the proved device in one call and made one by one of the reference: RAM data in bursts among all else that a bus
//! carries, on panels of many sizes.

use super::random::Random;
use super::traffic::{Events, Sides};
use crate::ssd1677::Ssd1677Config;

const SECOND: u64 = 1_000_000_000;

/// What the lists held, over all of them.
#[derive(Default)]
struct Held {
    events: usize,
    data: usize,
    generations: u64,
    records: usize,
}

fn bytes(random: &mut Random, most: u64) -> Vec<u8> {
    (0..random.between(0, most)).map(|_| random.byte()).collect()
}

/// A place in RAM or just beside it, low byte first.
fn place(random: &mut Random, inside: u64) -> [u8; 2] {
    let value = if random.one_in(6) { random.below(1024) } else { random.below(inside) };
    u16::try_from(value).expect("ten bits").to_le_bytes()
}

/// Entry mode, window and counter, each now and then.
fn pointed(events: &mut Events, random: &mut Random) {
    if random.one_in(2) {
        events.command(0x11, &[u8::try_from(random.below(8)).expect("a mode")]);
    }
    for (command, inside) in [(0x44, 960), (0x45, 680)] {
        if random.one_in(2) {
            events.command(command, &[place(random, inside), place(random, inside)].concat());
        }
    }
    for (command, inside) in [(0x4E, 960), (0x4F, 680)] {
        if random.one_in(2) {
            events.command(command, &place(random, inside));
        }
    }
}

/// RAM data of 0x24 or 0x26, with clock moves between some of the bytes.
fn streamed(events: &mut Events, random: &mut Random) {
    pointed(events, random);
    let most = if random.one_in(40) { 70_000 } else { 400 };
    events.command(random.pick(&[0x24, 0x26]), &bytes(random, most));
    for _ in 0..random.below(4) {
        spent(events, random);
        events.data(&bytes(random, 50));
    }
}

/// Time goes by, a little or a lot, or goes back.
fn spent(events: &mut Events, random: &mut Random) {
    let span = random.pick(&[0, 1, 400, SECOND / 50, SECOND, 20 * SECOND]);
    match random.below(4) {
        0 => events.wait(random.between(0, span)),
        1 => events.back(random.between(0, span)),
        _ => events.wait(span),
    }
}

/// The parameters of a command; those of `0x1A` never −2048, where the port departs from the reference (#107).
fn above_coldest(command: u8, mut parameters: Vec<u8>) -> Vec<u8> {
    if let (0x1A, [high @ 0x80, ..]) = (command, parameters.as_mut_slice()) {
        *high = 0x81;
    }
    parameters
}

fn event(events: &mut Events, random: &mut Random) {
    match random.below(12) {
        0..6 => streamed(events, random),
        6 => {
            let other = random.byte();
            events.command(0x22, &[random.pick(&[0xF7, 0xFC, 0xC7, 0xB1, 0x83, other])]);
            events.command(0x20, &bytes(random, 2));
        }
        7 => spent(events, random),
        8 => events.reset(),
        9 => events.read(random.between(1, 9)),
        10 => {
            let command = random.byte();
            events.command(command, &above_coldest(command, bytes(random, 12)));
        }
        _ => events.command(random.pick(&[0x01, 0x12, 0x10, 0x21, 0x27, 0x3C, 0x46, 0x47]), &bytes(random, 4)),
    }
}

/// The list of a place, and its configuration.
fn list(random: &mut Random) -> (Ssd1677Config, Events) {
    let mut config = Ssd1677Config::gdeq0426t82();
    let most = if random.one_in(50) { (960, 680) } else { (64, 40) };
    config.panel.width = u16::try_from(random.between(1, most.0)).expect("a width");
    config.panel.height = u16::try_from(random.between(1, most.1)).expect("a height");
    let mut events = Events::default();
    for _ in 0..random.between(1, 60) {
        event(&mut events, random);
    }
    (config, events)
}

/// Compares `count` lists; whether there was no difference.
pub(super) fn run(seed: u64, count: u64) -> bool {
    let mut held = Held::default();
    for place in 0..count {
        let (config, events) = list(&mut Random::of_place(seed, place));
        let mut sides = Sides::new(config);
        sides.rust(&events);
        sides.proved(&events);
        match sides.told() {
            Ok(told) => {
                held.events += events.kinds.len();
                held.data += events.data_count();
                held.generations += told.generation;
                held.records += told.records;
            }
            Err(what) => {
                println!("seed {seed}, list {place} of {} events: they differ in {what}", events.kinds.len());
                return false;
            }
        }
    }
    println!(
        "seed {seed}: {count} lists, {} events, {} of them data, {} refreshes ended or cut, {} diagnostics, no difference",
        held.events, held.data, held.generations, held.records
    );
    true
}

/// How many of `count` lists notice that the proved side is handed one event less.
pub(super) fn near_misses(seed: u64, count: u64) -> bool {
    let mut noticed = 0;
    for place in 0..count {
        let random = &mut Random::of_place(seed, place);
        let (config, events) = list(random);
        let mut sides = Sides::new(config);
        if events.kinds.is_empty() {
            continue;
        }
        let gone = usize::try_from(random.below(events.kinds.len() as u64)).expect("a place");
        sides.rust(&events);
        sides.proved(&events.without(gone));
        noticed += u64::from(sides.told().is_err());
    }
    println!("seed {seed}: {noticed} of {count} lists notice that one event of chance is left out");
    0 < noticed
}
