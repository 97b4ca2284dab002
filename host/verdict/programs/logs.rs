//! Merged logs: long and short, well written and badly.

use std::path::Path;

use judge::{difference, history, steps_of, Log, Logged, LONGEST_TEXT};
use pairs::{log_text, merged, small_log};
use random::Random;
use reference::limits::MOST_RECORDS;

use crate::Program;

const SMALL: usize = 400;
const LONGER: usize = 150;
const WRITTEN_BADLY: usize = 300;

/// Numbers at the ends of their ranges, and past them; a first line behind empty
/// ones, or none; a pair that stands against the clocks.
const EDGES: [&str; 24] = [
    "8 0\n1 1 255 255\n2 1 0 0",
    "1 0\n9999999999999999999 9999999999999999999 3 1\n0 0 1 1",
    "2 9999999999999999999\n1 9999999999999999999 3 1\n2 9999999999999999999 1 1",
    "2 9999999999999999999\n1 0 3 1\n2 9999999999999999999 1 1",
    "2 9999999999999999998\n1 0 3 1\n2 9999999999999999999 1 1",
    "0 1\n1 1 1 1",
    "9 1\n1 1 1 1",
    "2 10000000000000000000\n1 1 1 1",
    "2 00000000000000000001\n1 1 1 1",
    "2 0000000000000000001\n1 1 1 1",
    "2 1\n10000000000000000000 1 1 1",
    "2 1\n1 18446744073709551617 1 1",
    "2 1\n1 1 256 1",
    "2 1\n1 1 1 256",
    "2 1\n1 1 1",
    "2 1\n1 1 1 1 1",
    "",
    "\n \t\n",
    "\n\r\n 2 1\n\n1 1 3 1\n2 1 1 1",
    "\n\n2",
    "\n2 1\n1 1 1",
    "2 0\n1 10 1 1\n2 5 3 1",
    "2 5\n1 10 1 1\n2 5 3 1",
    "2 4\n1 10 1 1\n2 5 3 1",
];

pub fn all(program: &Program) -> Result<(), String> {
    refusals(program)?;
    for text in EDGES {
        merges(program, text.as_bytes())?;
    }
    let mut random = Random::from_seed(4);
    small_ones(program, &mut random)?;
    for _ in 0..LONGER {
        let log = longer(&mut random);
        merges(program, log_text(&log).as_bytes())?;
    }
    println!("{LONGER} longer logs compared");
    for _ in 0..WRITTEN_BADLY {
        let text = log_text(&small_log(&mut random));
        merges(program, &rewritten(&mut random, &text))?;
    }
    println!("{WRITTEN_BADLY} logs compared that are written otherwise");
    Ok(())
}

/// The program prints for a file what is expected here, which is returned.
fn merges(program: &Program, text: &[u8]) -> Result<String, String> {
    let file = program.write("log", text)?;
    let expected = judge::merges_text(text);
    program.prints(&[&file], &expected).map(|()| expected)
}

/// Arguments and files that cannot be used, and the longest that can.
fn refusals(program: &Program) -> Result<(), String> {
    const USAGE: &str = "usage: merges FILE\n";
    let log: &Path = &program.write("log", b"1 0\n")?;
    let missing: &Path = &program.scratch.join("missing");
    program.prints(&[], USAGE)?;
    program.prints(&[log, log], USAGE)?;
    program.prints(&[missing], "refused file\n")?;
    program.prints(&[log], "same\n")?;
    for len in [LONGEST_TEXT, LONGEST_TEXT + 1] {
        let text = "1 0\n1 0 1 1\n";
        merges(program, (text.to_string() + &" ".repeat(len - text.len())).as_bytes())?;
    }
    for records in [MOST_RECORDS, MOST_RECORDS + 1] {
        merges(program, ("1 0\n".to_string() + &"0 0 1 1\n".repeat(records)).as_bytes())?;
    }
    Ok(())
}

/// Small logs, some with a record out of its time, held against all of their
/// merges.
fn small_ones(program: &Program, random: &mut Random) -> Result<(), String> {
    let (mut sure, mut differing, mut against) = (0, 0, 0);
    for _ in 0..SMALL {
        let mut log = small_log(random);
        if random.percent(30) {
            displace(random, &mut log.records);
        }
        let text = log_text(&log);
        let printed = merges(program, text.as_bytes())?;
        let all = log.merges();
        held_against(&log, &all, &printed).map_err(|fault| text + &fault)?;
        sure += usize::from(printed == "same\n" && all.len() > 1);
        differing += usize::from(printed.contains("differs") && all.contains(&log.records));
        against += usize::from(printed.contains("against"));
    }
    println!("{SMALL} small logs held against all of their merges");
    println!("{sure} with several merges and no doubt, {differing} with one that differs");
    println!("{against} with a pair against the clocks");
    if sure < 20 || differing < 20 || against < 20 {
        return Err("too few of a kind".to_string());
    }
    Ok(())
}

/// Where no doubt is printed, all merges that the clocks allow have one history;
/// where they allow the merge at hand, no pair is against them, and an exchange
/// that makes a difference is one of the merges.
fn held_against(log: &Log, all: &[Vec<Logged>], printed: &str) -> Result<(), String> {
    let ours = history(log.nodes, &steps_of(&log.records));
    let others = all.iter().map(|merge| history(log.nodes, &steps_of(merge)));
    let differences: Vec<String> = others.map(|other| difference(&ours, &other)).collect();
    if printed == "same\n" && differences.iter().any(|line| line != "agrees\n") {
        return Err("no doubt, but merges with other histories".to_string());
    }
    if !all.contains(&log.records) {
        return Ok(());
    }
    if printed.contains("against") {
        return Err("against the clocks, but they allow the merge".to_string());
    }
    let mut said = printed.lines().filter(|line| line.starts_with("differs"));
    match said.find(|line| !differences.contains(&format!("{line}\n"))) {
        Some(line) => Err(format!("{line}, but no merge does")),
        None => Ok(()),
    }
}

/// Moves a record to another place.
fn displace(random: &mut Random, records: &mut Vec<Logged>) {
    let moved = records.remove(random.below(records.len()));
    records.insert(random.between(0, records.len()), moved);
}

/// A log by habit, with doubts few or many, its records sometimes not in the
/// order of their times.
fn longer(random: &mut Random) -> Log {
    let nodes = random.pick(&[1, 2, 3, 8]);
    let (len, gap) = (random.pick(&[20, 200, 2_000]), random.pick(&[1, 10, 1_000]));
    let mut records = merged(random, nodes, len, gap);
    for _ in 0..random.pick(&[0, 0, 3]).min(records.len()) {
        displace(random, &mut records);
    }
    Log { nodes, bound: random.pick(&[0, 1, 5, 100, u64::MAX / 2]), records }
}

/// The text with other blanks, empty lines and zeros in front, or with a fault.
fn rewritten(random: &mut Random, text: &str) -> Vec<u8> {
    let mut bytes = random.pick(&[&b""[..], b"", b"\n", b" \r\n\n"]).to_vec();
    for byte in text.bytes() {
        let more: &[&[u8]] = match byte {
            b' ' => &[b" ", b"  ", b"\t", b" \r ", b" 0"],
            b'\n' => &[b"\n", b"\n", b" \n", b"\r\n", b"\n\n", b"\n \t\n "],
            _ => &[],
        };
        match more {
            [] => bytes.push(byte),
            _ => bytes.extend(random.pick(more)),
        }
    }
    if random.percent(50) {
        let at = random.below(bytes.len());
        bytes[at] = random.pick(b"0129 \n\tx-.\0\xFF");
    }
    if random.percent(20) {
        bytes.truncate(random.between(0, bytes.len()));
    }
    bytes
}
