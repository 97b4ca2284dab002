//! Compares the library's reading of arbitration messages with the reading here.
//!
//! Usage: compare-messages [SEED [NUMBER]], with the number of messages drawn.
//! Exit status 0: no difference; 1: a difference; 2: wrong arguments, or
//! something was not reached that a comparison must reach.

mod cases;
mod fault;
mod reached;

use std::process::ExitCode;

use random::Random;
use trial::Arguments;

const USUAL_NUMBER: usize = 60_000;

fn main() -> ExitCode {
    trial::run_with_arguments("compare-messages", USUAL_NUMBER, compare)
}

fn compare(Arguments { seed, number }: Arguments) -> ExitCode {
    calls::compared(seed, "messages", reached::nothing(), reached::watch, |mut take| {
        let mut random = Random::from_seed(seed);
        cases::short(&mut take);
        for _ in 0..number {
            cases::drawn(&mut random, &mut take);
        }
    })
}
