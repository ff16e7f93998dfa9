//! The bounds that the program `sensitivity` writes (SCOPE, Sensitivity), against exact sums over
//! what the reference decodes, and against what the reference's own transfers do.

mod case;

use std::io::{self, Write};

use super::random::Random;
use super::settings;
use crate::glass::gray;
use crate::ssd1677::waveform::Drive;
use case::{Bounds, Case, case};

fn text(expected: &Result<Bounds, u8>) -> String {
    match expected {
        Err(number) => format!("{number:3}\n"),
        Ok(bounds) => bounds
            .iter()
            .enumerate()
            .map(|(lut, (bound, steps))| format!("{lut:3}{bound:20}{steps:4}\n"))
            .collect(),
    }
}

/// So many runs have every refusal, bounds met and bounds at S among them.
const MANY: u64 = 1000;

/// What was seen.
#[derive(Default)]
struct Tally {
    refusals: [u64; 4],
    bounds: u64,
    zero: u64,
    capped: u64,
    results: u64,
    met: u64,
    met_below: u64,
    steps_met: u64,
    pairs: u64,
    /// The first result that goes past its bound.
    past: Option<String>,
}

impl Tally {
    fn refused(&mut self, number: u8) {
        let place = [4, 5, 11, 91].iter().position(|&known| known == number);
        self.refusals[place.expect("a refusal")] += 1;
    }

    fn bounded(&mut self, bound: u64, swing: i64) {
        self.bounds += 1;
        self.zero += u64::from(bound == 0);
        self.capped += u64::from(bound == swing.unsigned_abs());
    }

    /// Results of states under both codes, beside the bound.
    fn results(&mut self, case: &Case, (bound, steps): (u64, u8), results: [(i64, i64); 2]) {
        let swing = case.swing();
        for (before, after) in results {
            let apart = before.abs_diff(after);
            let shown = gray(before, swing).abs_diff(gray(after, swing));
            if apart > bound || shown > steps {
                let past = format!("{apart} past {bound}, or {shown} greys past {steps}");
                self.past.get_or_insert(past);
            }
            self.results += 1;
            self.met += u64::from(apart == bound && bound > 0);
            self.met_below += u64::from(apart == bound && bound > 0 && bound < swing as u64);
            self.steps_met += u64::from(shown == steps && steps > 0);
        }
    }

    /// The first of what must occur that did not.
    fn unseen(&self) -> Option<&'static str> {
        let [four, five, eleven, ninety_one] = self.refusals;
        let needed = [
            (four, "refusal 4"),
            (five, "refusal 5"),
            (eleven, "refusal 11"),
            (ninety_one, "refusal 91"),
            (self.capped, "bound at S"),
            (self.met, "bound met"),
            (self.met_below, "bound below S met"),
        ];
        let unseen = needed.iter().find(|(count, _)| *count == 0)?;
        Some(unseen.1)
    }

    fn pair(&mut self, states: (i64, i64), results: (i64, i64)) {
        self.pairs += 1;
        if results.0.abs_diff(results.1) > states.0.abs_diff(states.1) {
            self.past
                .get_or_insert(format!("{states:?} end farther apart: {results:?}"));
        }
    }

    fn write(&self, count: u64, out: &mut impl Write) -> io::Result<()> {
        let [four, five, eleven, ninety_one] = self.refusals;
        writeln!(
            out,
            "{count} runs alike; refused with 4, 5, 11, 91: {four}, {five}, {eleven}, {ninety_one}"
        )?;
        writeln!(
            out,
            "{} bounds equal to exact sums; {} are 0, {} are S",
            self.bounds, self.zero, self.capped
        )?;
        writeln!(
            out,
            "{} results within them; {} meet a bound above 0, {} of them one below S; {} meet its greys",
            self.results, self.met, self.met_below, self.steps_met
        )?;
        writeln!(
            out,
            "{} pairs of states end no farther apart than they began",
            self.pairs
        )
    }
}

/// The moments at which a display is taken: whole, at 2^64−1, and at frames' edges and one off.
fn moments(case: &Case, random: &mut Random) -> Vec<Option<u64>> {
    let mut moments = vec![None, Some(u64::MAX)];
    let ends = settings::frame_ends(&case.setting, &case.periods, 4096);
    for _ in 0..2 {
        let edge = random.pick(&ends);
        moments.extend([edge.saturating_sub(1), edge, edge.saturating_add(1)].map(Some));
    }
    moments
}

fn claims(case: &Case, bounds: &Bounds, random: &mut Random, tally: &mut Tally) {
    let (before, after) = (case.waveform(case.before), case.waveform(case.after));
    let swing = case.swing();
    let state = |random: &mut Random| (random.any_size() % (swing as u64 + 1)) as i64;
    let moments = moments(case, random);
    for (lut, &bound) in bounds.iter().enumerate() {
        tally.bounded(bound.0, swing);
        for black in [false, true] {
            for &until in &moments {
                let first = before.transfer(Drive::Lut(lut), swing, black, until);
                let second = after.transfer(Drive::Lut(lut), swing, black, until);
                let (x, y) = (state(random), state(random));
                let results = |state| (first.apply(state), second.apply(state));
                for pair in [[0, swing], [x, y], [swing / 2, swing - x]] {
                    tally.results(case, bound, pair.map(results));
                    tally.pair((pair[0], pair[1]), (results(pair[0]).0, results(pair[1]).0));
                }
            }
        }
    }
}

/// Runs `program` on generated cases; whether it wrote what it must, no result went past it, and
/// among many runs there were all that must be.
pub(super) fn run(program: &str, seed: u64, count: u64, out: &mut impl Write) -> io::Result<bool> {
    let mut tally = Tally::default();
    for place in 0..count {
        let random = &mut Random::of_place(seed, place);
        let case = case(random);
        let expected = case.expected();
        let wanted = text(&expected);
        let written = match case.run(program) {
            Ok(written) => written,
            Err(failed) => {
                writeln!(out, "case {place}: {failed}")?;
                return Ok(false);
            }
        };
        if written != wanted {
            writeln!(out, "case {place}: {}", case.arguments.join(" "))?;
            writeln!(out, "must write\n{wanted}and wrote\n{written}")?;
            return Ok(false);
        }
        match expected {
            Err(number) => tally.refused(number),
            Ok(bounds) => claims(&case, &bounds, random, &mut tally),
        }
        if let Some(past) = &tally.past {
            writeln!(out, "case {place}: {}: {past}", case.arguments.join(" "))?;
            return Ok(false);
        }
    }
    tally.write(count, out)?;
    let unseen = tally.unseen().filter(|_| count >= MANY);
    if let Some(what) = unseen {
        writeln!(out, "no {what} among {count} runs")?;
    }
    Ok(unseen.is_none())
}
