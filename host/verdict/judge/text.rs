//! What the two programs print.

use reference::{EventList, Step};

use crate::call::steps;
use crate::doubt::may_stand_before;
use crate::history::{difference, history};
use crate::log::{read_log, BadLog, Log, Logged};
use crate::verdict::{verdict, Verdict};

/// The most pairs in doubt that are printed.
pub const DOUBTS_SHOWN: usize = 16;

/// What `compare` prints for the bytes of two files.
pub fn compare_text(first: &[u8], second: &[u8]) -> String {
    let (first, second) = match (EventList::read(first), EventList::read(second)) {
        (Err(refusal), _) => return format!("refused first {}\n", refusal as u32),
        (_, Err(refusal)) => return format!("refused second {}\n", refusal as u32),
        (Ok(first), Ok(second)) => (first, second),
    };
    if first.nodes != second.nodes {
        return format!("refused nodes {} {}\n", first.nodes, second.nodes);
    }
    let (one, two) = (steps(&first), steps(&second));
    let (ours, theirs) = (history(first.nodes, &one), history(first.nodes, &two));
    [
        verdict_line(verdict(first.nodes, &one, &two)),
        format!("writes {} {}\n", ours.len(), theirs.len()),
        difference(&ours, &theirs),
    ]
    .concat()
}

fn verdict_line(verdict: Verdict) -> String {
    match verdict {
        Verdict::Same => "same\n".to_string(),
        Verdict::Order([p, q], [r, s]) => format!("order {p} {q} {r} {s}\n"),
        Verdict::OnlyFirst(p) => format!("only first {p}\n"),
        Verdict::OnlySecond(s) => format!("only second {s}\n"),
    }
}

/// What `merges` prints for the bytes of a file.
pub fn merges_text(text: &[u8]) -> String {
    match read_log(text) {
        Ok(log) => doubts_text(&log),
        Err(BadLog::Long) => "refused long\n".to_string(),
        Err(BadLog::Line(line)) => format!("refused line {line}\n"),
    }
}

fn doubts_text(log: &Log) -> String {
    let doubts = log.doubts(DOUBTS_SHOWN + 1);
    if doubts.is_empty() {
        return "same\n".to_string();
    }
    let ours = history(log.nodes, &steps_of(&log.records));
    let mut text = String::new();
    for &(x, y) in doubts.iter().take(DOUBTS_SHOWN) {
        let (early, late) = (&log.records[x], &log.records[y]);
        let as_they_stand = may_stand_before(log.bound, early, late);
        let word = if as_they_stand { "doubt" } else { "against" };
        text += &format!("{word} {} {}\n", words(early), words(late));
        text += &match log.exchanged(x, y) {
            Some(records) => difference(&ours, &history(log.nodes, &steps_of(&records))),
            None => "open\n".to_string(),
        };
    }
    if doubts.len() > DOUBTS_SHOWN {
        text += "more\n";
    }
    text
}

fn words(record: &Logged) -> String {
    let Logged { line, log, time, step: (kind, node) } = record;
    format!("{line} {log} {time} {kind} {node}")
}

pub fn steps_of(records: &[Logged]) -> Vec<Step> {
    records.iter().map(|record| record.step).collect()
}
