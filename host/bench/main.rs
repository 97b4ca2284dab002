//! Nanoseconds a record, or a message, of the library and of the references, and
//! the stack that the library needs.
//!
//! Usage: bench [ROUNDS [PROGRAM PLAIN]]. Both run turn about in one process,
//! each into a cleared buffer; the least time of all rounds counts. With the
//! program for merged logs and the same in plain Rust, these are measured too.

mod logs;
mod messages;
mod stack;
mod turns;
mod verdicts;
mod workloads;

use library::Call;
use workloads::Workload;

const USUAL_ROUNDS: usize = 60;

fn main() {
    let given: Vec<String> = std::env::args().skip(1).collect();
    let rounds = given.first().and_then(|text| text.parse().ok()).unwrap_or(USUAL_ROUNDS);
    println!(
        "{:26}{:>8}{:>7}{:>8}{:>11}{:>11}{:>7}{:>13}",
        "workload", "records", "done", "writes", "library", "reference", "ratio", "stack bytes"
    );
    for workload in workloads::all() {
        measure(&workload, rounds);
    }
    messages::measure_all(rounds);
    verdicts::measure_all(rounds);
    if let [_, program, plain] = &given[..] {
        logs::measure_all(rounds, program, plain);
    }
}

fn measure(workload: &Workload, rounds: usize) {
    let mut out = vec![0; workload.room()];
    let result = reference::run(&workload.list, &mut out);
    let done = out[..workload.records].iter().filter(|&&answer| answer == 0).count();
    let run = |call: Call| {
        let mut out = vec![0; workload.room()];
        turns::time(|| assert_eq!(call(&workload.list, &mut out), result, "the two differ"))
    };
    let (library, reference) = turns::least(rounds, || run(library::run), || run(reference::run));
    let each = |time| turns::each(time, workload.records);
    println!(
        "{:26}{:>8}{:>6}%{:>8}{:>8.1} ns{:>8.1} ns{:>7.1}{:>13}",
        workload.name,
        workload.records,
        100 * done / workload.records,
        result - reference::limits::RAN,
        each(library),
        each(reference),
        each(library) / each(reference),
        stack::used_by(|| library::run(&workload.list, &mut out)),
    );
}
