//! The arguments of a comparison: [SEED [NUMBER]].

use std::process::ExitCode;

const USUAL_SEED: u64 = 1;

pub struct Arguments {
    pub seed: u64,
    pub number: usize,
}

/// Runs a comparison with the program's arguments; exit status 2 if they are
/// wrong.
pub fn run_with_arguments(
    program: &str,
    usual_number: usize,
    comparison: fn(Arguments) -> ExitCode,
) -> ExitCode {
    let given: Vec<String> = std::env::args().skip(1).collect();
    match Arguments::read(&given, usual_number) {
        Some(arguments) => comparison(arguments),
        None => {
            eprintln!("usage: {program} [SEED [NUMBER]]");
            ExitCode::from(2)
        }
    }
}

impl Arguments {
    fn read(given: &[String], usual_number: usize) -> Option<Self> {
        let seed = given.first().map_or(Some(USUAL_SEED), |text| text.parse().ok())?;
        let number = given.get(1).map_or(Some(usual_number), |text| text.parse().ok())?;
        Some(Arguments { seed, number }).filter(|_| given.len() <= 2)
    }
}
