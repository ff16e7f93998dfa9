//! Times the proved functions of crates/bench and crates/bench_device beside the reference, or
//! compares the two on many panels: two programs, so that nothing is put behind the text of a
//! reference that is timed. The reference names this module `tests`.

#[cfg(time)]
mod beside;
#[cfg(compare)]
mod compare;
#[cfg(time)]
mod device;
#[cfg(time)]
mod finish;
#[cfg(time)]
mod glass;
#[cfg(time)]
mod inside;
#[cfg(time)]
mod lent;
#[cfg(time)]
mod lists;
#[cfg(time)]
mod memory;
#[cfg(time)]
mod pictures;
mod proved;
mod random;
#[cfg(time)]
mod record;
#[cfg(compare)]
mod settings;
#[cfg(time)]
mod traffic;
#[cfg(time)]
mod waveform;

use super::Ssd1677;

#[cfg(time)]
fn functions(table: &beside::Table) {
    glass::grays(table);
    waveform::transfers(table);
    glass::starts(table);
    finish::rows(table);
    memory::auto_writes(table);
    memory::data_bytes(table);
}

#[cfg(time)]
impl crate::Judge for Ssd1677 {
    fn run(arguments: &[String]) -> bool {
        let numbers: Vec<u32> = arguments.iter().skip(1).flat_map(|word| word.parse()).collect();
        match (arguments.first().map(String::as_str), numbers.as_slice()) {
            (Some("functions"), &[rounds]) => functions(&beside::Table::new(rounds)),
            (Some("device"), &[rounds]) => device::rows(&beside::Table::new(rounds)),
            (Some("lists"), &[seed, count]) => return lists::run(seed.into(), count.into()),
            (Some("lists-near-misses"), &[seed, count]) => {
                return lists::near_misses(seed.into(), count.into());
            }
            _ => {
                eprintln!("usage: time functions|device ROUNDS, or time lists|lists-near-misses SEED COUNT");
                return false;
            }
        }
        true
    }
}

#[cfg(compare)]
impl crate::Judge for Ssd1677 {
    fn run(arguments: &[String]) -> bool {
        let numbers: Vec<u64> = arguments.iter().skip(1).flat_map(|word| word.parse()).collect();
        match (arguments.first().map(String::as_str), numbers.as_slice()) {
            (Some("compare"), &[seed, count]) => compare::run(seed, count),
            (Some("near-misses"), &[seed, count]) => compare::near_misses(seed, count),
            _ => {
                eprintln!("usage: compare compare|near-misses SEED COUNT");
                false
            }
        }
    }
}
