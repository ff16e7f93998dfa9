//! Seeded sequences of events in the replay format, in families (oracle/README.md).

mod broken;
mod bus;
mod counts;
mod driving;
mod exhaustive;
mod firmware;
mod memory;
mod script;
mod seldom;
mod starts;
mod ticks;

use std::io::{self, Write};

use script::Script;

use super::line::{LINE_BYTES, Line};
use super::random::Random;

/// A family of sequences.
type Family = (&'static str, fn(&mut Script));

const FAMILIES: [Family; 19] = [
    ("firmware", firmware::run),
    ("reset", driving::reset_timing),
    ("cut", driving::cut_edges),
    ("ends", driving::two_ends),
    ("sleep", bus::sleep),
    ("parameters", bus::parameters),
    ("reads", bus::reads),
    ("busy", bus::busy),
    ("counters", memory::counters),
    ("options", memory::options),
    ("clocks", driving::clocks),
    ("extremes", driving::extremes),
    ("geometry", memory::geometry),
    ("logs", bus::logs),
    ("streams", memory::streams),
    ("starts", starts::starts),
    ("supplies", starts::supplies),
    ("waveforms", starts::waveforms),
    ("chaos", bus::chaos),
];

/// Those that are long, or look at what the others come to seldom; written only by name.
const BY_NAME: [Family; 5] = [
    ("pairs", exhaustive::pairs),
    ("values", exhaustive::values),
    ("seldom", seldom::run),
    ("ticks", ticks::run),
    ("counts", counts::run),
];

/// Writes `count` sequences, the families in turn, or those of one family alone. Each begins with a
/// new case and ends with a dump and a small panel's picture; a sequence depends on the seed and on
/// its own number alone.
pub(super) fn run(
    seed: u64,
    count: u64,
    family: Option<&str>,
    out: &mut impl Write,
) -> io::Result<bool> {
    let mut all = FAMILIES.iter().chain(&BY_NAME);
    let chosen: Vec<Family> = match family {
        None => FAMILIES.to_vec(),
        Some(name) => all
            .clone()
            .filter(|(known, _)| *known == name)
            .copied()
            .collect(),
    };
    if chosen.is_empty() {
        let names: Vec<&str> = all.by_ref().map(|(name, _)| *name).collect();
        eprintln!("the families are: {}", names.join(" "));
        return Ok(false);
    }
    let families = chosen.len() as u64;
    let mut again: u64 = 0;
    for case in 0..count {
        let (_, write) = chosen[usize::try_from(case % families).expect("a family")];
        let (script, drawn) = draw(write, seed, case, case / families);
        again += u64::from(1 < drawn);
        out.write_all(script.finish().as_bytes())?;
    }
    if 0 < again {
        eprintln!("{again} of {count} sequences asked for a waveform at -2048 and were drawn anew");
    }
    Ok(true)
}

/// Draws a sequence until it asks for no waveform at −2048, where the port departs from the reference (#107): the
/// sequence, and how many were drawn.
fn draw(write: fn(&mut Script), seed: u64, case: u64, place: u64) -> (Script, u64) {
    for stream in 0..1000 {
        let random = Random::of_place(seed ^ (stream << 32), case);
        let mut script = Script::new(case, place, random);
        write(&mut script);
        if !script.asked_coldest {
            return (script, stream + 1);
        }
    }
    panic!("sequence {case} asks for a waveform at -2048 however it is drawn")
}

/// Writes the events of `input` with a question for the counts (kind 18) after each dump. The families ask for none but
/// `counts`, so that what they wrote before there was one stays as it was.
pub(super) fn counted(input: &[u8], out: &mut impl Write) -> io::Result<bool> {
    let question = Line {
        number: 0,
        kind: 18,
        value: 0,
    };
    for bytes in input.chunks(LINE_BYTES) {
        out.write_all(bytes)?;
        if Line::parse(bytes).is_some_and(|line| line.kind == 7) {
            write!(out, "{question}")?;
        }
    }
    Ok(true)
}

/// Writes the run that ends at bad line number `way`; whether there is one.
pub(super) fn broken(way: usize, out: &mut impl Write) -> io::Result<bool> {
    match broken::run(way) {
        Some(text) => write!(out, "{text}").map(|()| true),
        None => Ok(false),
    }
}
