//! Has the program `tour` play event lists and show, after every step, the answer, the
//! ids that the switch holds, and the master and the largest id that the state keeps.
//! Compares answers and ids with the reference, and what is kept with what a search of
//! the ids finds.
//!
//! Usage: kept TOUR, with the path of the program. Exit status 0: no difference; 1: a
//! difference, or something was not reached that must be.

mod cases;
mod reached;
mod script;
mod taken;

use std::process::{Command, ExitCode};

use cases::Case;
use random::Random;
use reached::Reached;
use reference::Step;

const LISTS: usize = 300;

fn main() -> ExitCode {
    let given: Vec<String> = std::env::args().skip(1).collect();
    trial::ended(match &given[..] {
        [tour] => compare(tour),
        _ => Err("usage: kept TOUR".to_string()),
    })
}

fn compare(tour: &str) -> Result<(), String> {
    let mut random = Random::from_seed(1);
    let mut reached = Reached::nothing();
    let mut steps = 0;
    for _ in 0..LISTS {
        let case = cases::drawn(&mut random);
        plays(tour, &case).map_err(|difference| smaller(tour, &case).unwrap_or(difference))?;
        taken::taken(&case).iter().for_each(|step| reached.watch(step));
        steps += case.steps.len();
    }
    println!("{LISTS} lists with {steps} steps");
    match reached.print() {
        0 => Ok(()),
        missing => Err(format!("{missing} of these not reached")),
    }
}

/// A word on the first line that `tour` prints otherwise than expected, if there is one.
fn plays(tour: &str, case: &Case) -> Result<(), String> {
    let script = script::script(case);
    let expected = script::expected(case);
    let printed = trial::printed(&mut Command::new(tour), script.as_bytes())?;
    let printed = String::from_utf8_lossy(&printed);
    if printed == expected {
        return Ok(());
    }
    let lines = expected.lines().zip(printed.lines());
    let step = lines.take_while(|(wanted, line)| wanted == line).count();
    let line = |text: &str| text.lines().nth(step).unwrap_or_default().to_string();
    let (wanted, line) = (line(&expected), line(&printed));
    Err(format!(
        "{script}answer, ids, master and largest id at step {step}: {line} and not {wanted}"
    ))
}

/// The same word for the smallest list found that still differs.
fn smaller(tour: &str, case: &Case) -> Option<String> {
    let with = |steps: &[Step]| plays(tour, &Case { nodes: case.nodes, steps: steps.to_vec() });
    let steps = trial::shrunk(case.steps.clone(), |steps| with(steps).is_err());
    with(&steps).err()
}
