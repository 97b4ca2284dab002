//! Runs the programs `compare` and `merges` on files and compares what they print
//! with the verdicts here; on small logs, also with what all merges come to.
//!
//! Usage: programs compare PROGRAM SCRATCH or programs merges PROGRAM SCRATCH, with
//! the path of the program and of a folder for files. Exit status 0: no
//! difference; 1: a difference.

mod lists;
mod logs;

use std::path::{Path, PathBuf};
use std::process::{Command, ExitCode};

fn main() -> ExitCode {
    let given: Vec<String> = std::env::args().skip(1).collect();
    let given: Vec<&str> = given.iter().map(String::as_str).collect();
    trial::ended(match given[..] {
        ["compare", program, scratch] => trial_of(program, scratch, lists::all),
        ["merges", program, scratch] => trial_of(program, scratch, logs::all),
        _ => Err("usage: programs compare|merges PROGRAM SCRATCH".to_string()),
    })
}

type Tests = fn(&Program) -> Result<(), String>;

fn trial_of(program: &str, scratch: &str, tests: Tests) -> Result<(), String> {
    std::fs::create_dir_all(scratch).map_err(|error| error.to_string())?;
    tests(&Program { path: program.into(), scratch: scratch.into() })
}

pub struct Program {
    pub path: PathBuf,
    pub scratch: PathBuf,
}

impl Program {
    /// The program prints what is expected; what it says on standard error is free.
    pub fn prints(&self, arguments: &[&Path], expected: &str) -> Result<(), String> {
        let mut command = Command::new(&self.path);
        let output = command.args(arguments).output();
        let output = output.map_err(|error| format!("{}: {error}", self.path.display()))?;
        if output.stdout == expected.as_bytes() {
            return Ok(());
        }
        let printed = String::from_utf8_lossy(&output.stdout);
        Err(format!("{command:?}\nexpected\n{expected}printed\n{printed}"))
    }

    pub fn write(&self, name: &str, content: &[u8]) -> Result<PathBuf, String> {
        let path = self.scratch.join(name);
        std::fs::write(&path, content).map_err(|error| error.to_string())?;
        Ok(path)
    }
}
