//! A comparison, case after case: what every program that makes one does alike.

use std::process::ExitCode;
use std::time::Instant;

pub struct Comparison<C> {
    begun: Instant,
    compared: usize,
    differences: usize,
    /// The smallest case that differs, with its size.
    smallest: Option<(usize, C)>,
}

impl<C: Clone> Comparison<C> {
    pub fn begin() -> Self {
        Comparison { begun: Instant::now(), compared: 0, differences: 0, smallest: None }
    }

    /// Counts a case, and keeps it if it is the smallest that differs.
    pub fn count(&mut self, case: &C, size: usize, differs: bool) {
        self.compared += 1;
        if !differs {
            return;
        }
        self.differences += 1;
        if self.smallest.as_ref().map_or(true, |&(known, _)| size < known) {
            self.smallest = Some((size, case.clone()));
        }
    }

    /// Prints the outcome: how many of `what` were compared, and the smallest that differs. Exit
    /// status 1 for a difference, 2 if something was not reached that must be.
    pub fn end(self, seed: u64, what: &str, missing: usize, print: fn(&C)) -> ExitCode {
        println!("seed {seed}, {:.1?}", self.begun.elapsed());
        if let Some((_, case)) = &self.smallest {
            print(case);
        }
        println!("{} {what} compared, {} differences", self.compared, self.differences);
        match (self.differences, missing) {
            (0, 0) => ExitCode::SUCCESS,
            (0, _) => ExitCode::from(2),
            _ => ExitCode::from(1),
        }
    }
}
