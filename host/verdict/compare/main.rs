//! Compares the library's verdict on two lists with the one here, on lists of
//! which it is known whether they come to the same, and on others.
//!
//! Usage: compare-verdicts [SEED [NUMBER]], with the number of pairs. Exit status
//! 0: no difference; 1: a difference; 2: wrong arguments, or something was not
//! reached that a comparison must reach.

mod call;
mod cases;
mod reached;

use std::process::ExitCode;

use call::Call;
use random::Random;
use trial::{Arguments, Comparison};

const USUAL_NUMBER: usize = 12_000;

fn main() -> ExitCode {
    trial::run_with_arguments("compare-verdicts", USUAL_NUMBER, compare)
}

fn compare(Arguments { seed, number }: Arguments) -> ExitCode {
    let mut random = Random::from_seed(seed);
    let mut reached = reached::nothing();
    let mut comparison = Comparison::begin();
    let built = cases::built(&mut random);
    let drawn = std::iter::repeat_with(|| cases::drawn(&mut random));
    for call in built.into_iter().chain(drawn).take(number) {
        let (result, difference) = call.compare();
        reached::watch(&mut reached, &call, result);
        let size = call.pair.first.len() + call.pair.second.len();
        comparison.count(&call, size, difference.is_some());
    }
    reached.print();
    let missing = reached.print_missing(&[]);
    comparison.end(seed, "pairs of lists", missing, print_difference)
}

fn print_difference(call: &Call) {
    println!("smallest lists that differ, with {} bytes for the places:", call.room);
    println!("{}\n{}", trial::hex(&call.pair.first), trial::hex(&call.pair.second));
    println!("{}", call.compare().1.unwrap_or_default());
}
