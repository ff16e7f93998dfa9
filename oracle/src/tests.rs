//! The oracle's programs (oracle/README.md). The reference names this module `tests`.

mod bench;
mod charge;
mod coldest;
mod configuration;
mod configurations;
mod counts;
mod dump;
mod figures;
mod generate;
mod hash;
mod inside;
mod leaf;
mod line;
mod listing;
mod loaded;
mod picture;
mod random;
mod record;
mod records;
mod replay;
mod sensitivity;
mod settings;
mod sheet;
mod tally;

use std::io::{self, Read, Write};

use super::Ssd1677;

const USAGE: &str = "usage: oracle replay < events
       oracle broken WAY
       oracle tally < events
       oracle generate SEED COUNT [FAMILY]
       oracle counted < events
       oracle leaf < questions
       oracle leaf-generate NAME|all SEED COUNT
       oracle listing < setting
       oracle listings < settings
       oracle settings SEED COUNT
       oracle sheet < text
       oracle sheets < cases
       oracle sheets-generate SEED COUNT
       oracle sheets-voltages
       oracle charge [PERIOD..] < table
       oracle charge-table SEED PLACE
       oracle charge-periods SEED PLACE
       oracle sensitivity PROGRAM SEED COUNT
       oracle records
       oracle figures";

impl crate::Judge for Ssd1677 {
    fn run(arguments: &[String]) -> bool {
        let words: Vec<&str> = arguments.iter().map(String::as_str).collect();
        let mut out = io::BufWriter::with_capacity(1 << 16, io::stdout().lock());
        let done = match words.as_slice() {
            ["replay"] => replay::run(&input(), &mut out),
            ["generate", seed, count, family @ ..] if family.len() <= 1 => {
                let family = family.first().copied();
                match (seed.parse(), count.parse()) {
                    (Ok(seed), Ok(count)) => generate::run(seed, count, family, &mut out),
                    _ => return usage(),
                }
            }
            ["counted"] => generate::counted(&input(), &mut out),
            ["broken", way] => match way.parse() {
                Ok(way) => generate::broken(way, &mut out),
                Err(_) => return usage(),
            },
            ["tally"] => tally::run(&input(), &mut out),
            ["leaf"] => leaf::run(&input(), &mut out),
            ["leaf-generate", name, seed, count] => match (seed.parse(), count.parse()) {
                (Ok(seed), Ok(count)) => leaf::generate(name, seed, count, &mut out),
                _ => return usage(),
            },
            ["listing"] => write!(out, "{}", listing::listing(&input())).map(|()| true),
            ["listings"] => listing::run(&input(), &mut out),
            ["settings", seed, count] => match (seed.parse(), count.parse()) {
                (Ok(seed), Ok(count)) => listing::generate(seed, count, &mut out),
                _ => return usage(),
            },
            ["sheet"] => sheet::one(&input(), &mut out),
            ["sheets"] => sheet::run(&input(), &mut out),
            ["sheets-generate", seed, count] => match (seed.parse(), count.parse()) {
                (Ok(seed), Ok(count)) => sheet::generate(seed, count, &mut out),
                _ => return usage(),
            },
            ["sheets-voltages"] => sheet::voltages(&mut out),
            ["charge", periods @ ..] => match charge::periods_of(periods) {
                Some(periods) => charge::run(&input(), &periods, &mut out),
                None => return usage(),
            },
            ["charge-table", seed, place] => match (seed.parse(), place.parse()) {
                (Ok(seed), Ok(place)) => charge::table(seed, place, &mut out),
                _ => return usage(),
            },
            ["charge-periods", seed, place] => match (seed.parse(), place.parse()) {
                (Ok(seed), Ok(place)) => charge::periods(seed, place, &mut out),
                _ => return usage(),
            },
            ["sensitivity", program, seed, count] => match (seed.parse(), count.parse()) {
                (Ok(seed), Ok(count)) => sensitivity::run(program, seed, count, &mut out),
                _ => return usage(),
            },
            ["records"] => records::run(&mut out),
            ["figures"] => figures::run(&mut out),
            _ => return usage(),
        };
        done.and_then(|agreed| out.flush().map(|()| agreed))
            .unwrap_or(false)
    }
}

fn usage() -> bool {
    eprintln!("{USAGE}");
    false
}

/// All of standard input.
fn input() -> Vec<u8> {
    let mut bytes = Vec::new();
    // A closed input is an empty one.
    let _ = io::stdin().lock().read_to_end(&mut bytes);
    bytes
}
