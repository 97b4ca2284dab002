//! A merged log as text: the node count and the clocks' bound on the first line,
//! then a record a line: log, time, kind, node. Empty lines are passed over,
//! before the first as well.

use reference::limits::{MOST_NODES, MOST_RECORDS};
use reference::Step;

pub const LONGEST_TEXT: usize = 2_097_152;
const MOST_DIGITS: usize = 19;

#[derive(PartialEq, Debug)]
pub struct Log {
    pub nodes: u8,
    pub bound: u64,
    pub records: Vec<Logged>,
}

#[derive(Clone, Copy, PartialEq, Debug)]
pub struct Logged {
    /// In the text, from 1.
    pub line: usize,
    pub log: u64,
    pub time: u64,
    pub step: Step,
}

#[derive(PartialEq, Debug)]
pub enum BadLog {
    Long,
    Line(usize),
}

pub fn read_log(text: &[u8]) -> Result<Log, BadLog> {
    if text.len() > LONGEST_TEXT {
        return Err(BadLog::Long);
    }
    let all = (1..).zip(text.split(|&byte| byte == b'\n'));
    let mut lines = all.filter(|(_, bytes)| !bytes.iter().all(is_blank));
    let (line, head) = lines.next().ok_or(BadLog::Line(1))?;
    let (nodes, bound) = first_line(head).ok_or(BadLog::Line(line))?;
    let mut records = Vec::new();
    for (line, bytes) in lines {
        let record = record(line, bytes).filter(|_| records.len() < MOST_RECORDS);
        records.push(record.ok_or(BadLog::Line(line))?);
    }
    Ok(Log { nodes, bound, records })
}

fn first_line(line: &[u8]) -> Option<(u8, u64)> {
    match numbers(line)?[..] {
        [nodes, bound] if (1..=MOST_NODES as u64).contains(&nodes) => Some((nodes as u8, bound)),
        _ => None,
    }
}

fn record(line: usize, bytes: &[u8]) -> Option<Logged> {
    match numbers(bytes)?[..] {
        [log, time, kind @ 0..=255, node @ 0..=255] => {
            Some(Logged { line, log, time, step: (kind as u8, node as u8) })
        }
        _ => None,
    }
}

fn is_blank(byte: &u8) -> bool {
    matches!(byte, b' ' | b'\t' | b'\r')
}

/// The numbers of a line, if there is nothing else.
fn numbers(line: &[u8]) -> Option<Vec<u64>> {
    let words = line.split(is_blank).filter(|word| !word.is_empty());
    words.map(number).collect()
}

fn number(word: &[u8]) -> Option<u64> {
    let digits = word.len() <= MOST_DIGITS && word.iter().all(u8::is_ascii_digit);
    let join = |number: u64, digit: &u8| 10 * number + u64::from(digit - b'0');
    digits.then(|| word.iter().fold(0, join))
}
