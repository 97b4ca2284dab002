//! Whole runs of the program for merged logs, and of the same in plain Rust.

use std::process::Command;

use judge::{Log, Logged};
use pairs::{log_text, merged};
use random::Random;
use reference::limits::MOST_RECORDS;

use crate::turns;

const MOST_ROUNDS: usize = 10;

pub fn measure_all(rounds: usize, program: &str, plain: &str) {
    let mut random = Random::from_seed(1);
    println!(
        "\n{:26}{:>8}{:>7}{:>15}{:>15}{:>7}",
        "merged logs", "records", "lines", "program", "plain", "ratio"
    );
    let mut records = merged(&mut random, 8, MOST_RECORDS, 10);
    let measure = |name, bound, records: &[Logged]| {
        let log = Log { nodes: 8, bound, records: records.to_vec() };
        measure(name, &log_text(&log), rounds.min(MOST_ROUNDS), [program, plain]);
    };
    measure("clocks ten records apart", 50, &records);
    for (place, record) in records.iter_mut().enumerate() {
        record.time = 10 * place as u64;
    }
    measure("clocks that agree", 5, &records);
    for (place, record) in records.iter_mut().enumerate() {
        // Own acts of the nodes: nothing is in doubt, and every pair is looked at.
        let node = 1 + place % 8;
        record.log = node as u64;
        record.step = (3 + (place % 5) as u8, node as u8);
    }
    measure("longest search", u64::MAX / 2, &records);
}

fn measure(name: &str, text: &str, rounds: usize, [program, plain]: [&str; 2]) {
    let file = std::env::temp_dir().join(format!("log-{}", std::process::id()));
    std::fs::write(&file, text).expect("a file for the log");
    let printed = Command::new(plain).arg(&file).output().expect("the plain program").stdout;
    let run = |command: &str| {
        turns::time(|| {
            let output = Command::new(command).arg(&file).output().expect("a program that runs");
            assert_eq!(output.stdout, printed, "the two differ");
        })
    };
    let (library, reference) = turns::least(rounds, || run(program), || run(plain));
    let _ = std::fs::remove_file(&file);
    let each = |time| turns::each(time, 1_000_000);
    println!(
        "{:26}{:>8}{:>7}{:>12.2} ms{:>12.2} ms{:>7.2}",
        name,
        text.lines().count() - 1,
        printed.iter().filter(|&&byte| byte == b'\n').count(),
        each(library),
        each(reference),
        each(library) / each(reference),
    );
}
