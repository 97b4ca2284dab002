//! Compares the library with the reference on generated lists.
//!
//! Usage: compare [SEED [NUMBER]]. Exit status 0: no difference; 1: a
//! difference; 2: wrong arguments, or something was not reached that a
//! comparison must reach.

mod before;
mod cases;
mod damage;
mod lent;
mod reached;
mod shrink;

use std::process::ExitCode;

use cases::Case;
use random::Random;
use reached::Reached;
use trial::{Arguments, Comparison};

const USUAL_NUMBER: usize = 40_000;

fn main() -> ExitCode {
    trial::run_with_arguments("compare", USUAL_NUMBER, compare)
}

fn compare(Arguments { seed, number }: Arguments) -> ExitCode {
    let mut random = Random::from_seed(seed);
    let mut reached = Reached::nothing();
    let mut comparison = Comparison::begin();
    let built = cases::built(&mut random);
    let drawn = std::iter::repeat_with(|| cases::drawn(&mut random));
    for case in built.into_iter().chain(drawn).take(number) {
        let (expected, difference) = lent::compare(&case);
        reached.watch(&case, expected);
        comparison.count(&case, case.list.len(), difference.is_some());
    }
    let missing = reached.print();
    comparison.end(seed, "lists", missing, print_difference)
}

fn print_difference(case: &Case) {
    let case = shrink::shrink(case);
    let (_, difference) = lent::compare(&case);
    println!("smallest list that differs, with {} bytes of output:", case.room);
    print!("{}", trial::hex(&case.list));
    println!("{}", difference.unwrap_or_default());
}
