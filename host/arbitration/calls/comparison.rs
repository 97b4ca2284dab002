//! Many calls held against the reading, and what is said of them at the end.

use std::process::ExitCode;

use trial::{Comparison, Counts};

/// Longer input is printed as it is, since the time to shrink it grows with its square.
const MOST_SHRUNK: usize = 4_096;

/// A call on some bytes and a buffer.
pub trait Compared: Clone {
    /// What the reading returns, and a word on the difference if there is one.
    fn compare(&self) -> (u32, Option<String>);
    /// The bytes that are read.
    fn input(&self) -> &[u8];
    /// The same call on other bytes.
    fn with(&self, input: &[u8]) -> Self;
    /// How the buffer was lent, in words.
    fn lent(&self) -> String;
}

/// Compares the calls that are handed over. `watch` counts what a call reached for which
/// the reading returned a number.
pub fn compared<C: Compared>(
    seed: u64,
    kind: &str,
    mut reached: Counts,
    watch: fn(&mut Counts, &C, u32),
    hand_over: impl FnOnce(&mut dyn FnMut(&C)),
) -> ExitCode {
    let mut comparison = Comparison::begin();
    hand_over(&mut |call| {
        let (result, difference) = call.compare();
        watch(&mut reached, call, result);
        comparison.count(call, call.input().len(), difference.is_some());
    });
    reached.print();
    let missing = reached.print_missing(&[]);
    comparison.end(seed, kind, missing, print_difference)
}

fn print_difference<C: Compared>(call: &C) {
    let differs = |input: &[u8]| call.with(input).compare().1.is_some();
    let input = call.input().to_vec();
    let short = input.len() <= MOST_SHRUNK;
    let smaller = call.with(&if short { trial::shrunk(input, differs) } else { input });
    println!("smallest that differs, {}:", smaller.lent());
    print!("{}", trial::hex(smaller.input()));
    println!("{}", smaller.compare().1.unwrap_or_default());
}
