//! The oracle: the reference of docs/src, compiled unchanged, as the judge of equality.
//!
//! The work is done in ssd1677/tests.rs, a child of the reference's own module, because a child sees
//! what its parent keeps private. That module is private to its parent in turn, so it is reached
//! through the trait below.

// The reference is compiled for what the oracle asks of it, not for all it offers.
#![allow(dead_code, unused_imports)]

mod glass;
mod lines;
mod ssd1677;

/// A program over the controller: reads standard input, writes standard output.
trait Judge {
    /// Runs the subcommand of `arguments`; whether it succeeded.
    fn run(arguments: &[String]) -> bool;
}

fn main() -> std::process::ExitCode {
    let arguments: Vec<String> = std::env::args().skip(1).collect();
    if <ssd1677::Ssd1677 as Judge>::run(&arguments) {
        std::process::ExitCode::SUCCESS
    } else {
        std::process::ExitCode::FAILURE
    }
}
