//! Compares the lists that the library writes with those of the writer here.
//!
//! Usage: compare-writing [SEED [NUMBER]], with the number of calls drawn. Exit
//! status 0: no difference; 1: a difference; 2: wrong arguments, or something was
//! not reached that a comparison must reach.

mod call;
mod cases;
mod reached;

use std::process::ExitCode;

use random::Random;
use trial::Arguments;

const USUAL_NUMBER: usize = 60_000;

fn main() -> ExitCode {
    trial::run_with_arguments("compare-writing", USUAL_NUMBER, compare)
}

fn compare(Arguments { seed, number }: Arguments) -> ExitCode {
    calls::compared(seed, "calls", reached::nothing(), reached::watch, |take| {
        let mut random = Random::from_seed(seed);
        cases::built(&mut random).iter().for_each(&mut *take);
        for _ in 0..number {
            take(&cases::drawn(&mut random));
        }
    })
}
