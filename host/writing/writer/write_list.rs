//! The list that a text asks for: `nodes` and their number on the first line, then
//! a step a line: kind and node. Lines without words are passed over.

use reference::codes::Refusal;
use reference::Step;

use crate::call::{judged, node_count, with_trailer};
use crate::names::kind_of;

pub const LONGEST_TEXT: usize = 2_097_152;
const MOST_DIGITS: usize = 19;

/// What is wrong with a line: it cannot be read, or what it asks for is refused.
enum Fault {
    Unreadable,
    Refused(Refusal),
}

/// What `write_list` writes for a text, or what it says on standard error.
pub fn list_of(text: &[u8]) -> Result<Vec<u8>, String> {
    if text.len() > LONGEST_TEXT {
        return Err("refused long\n".to_string());
    }
    let all = (1..).zip(text.split(|&byte| byte == b'\n').map(words));
    let mut lines = all.filter(|(_, words)| !words.is_empty());
    let (line, head) = lines.next().unwrap_or((1, Vec::new()));
    let nodes = first_line(&head).map_err(|fault| told(line, fault))?;
    let mut steps = Vec::new();
    for (line, words) in lines {
        let (kind, node) = step(nodes, &words).map_err(|fault| told(line, fault))?;
        steps.extend([kind, node]);
    }
    with_trailer(nodes, &steps).map_err(|refusal| format!("refused {}\n", refusal as u32))
}

fn told(line: usize, fault: Fault) -> String {
    match fault {
        Fault::Unreadable => format!("refused line {line}\n"),
        Fault::Refused(refusal) => format!("refused {} line {line}\n", refusal as u32),
    }
}

/// The words of a line in front of its comment.
fn words(line: &[u8]) -> Vec<&[u8]> {
    let is_blank = |byte: &u8| matches!(byte, b' ' | b'\t' | b'\r');
    let end = line.iter().position(|&byte| byte == b'#').unwrap_or(line.len());
    line[..end].split(is_blank).filter(|word| !word.is_empty()).collect()
}

fn first_line(words: &[&[u8]]) -> Result<u8, Fault> {
    match words {
        [b"nodes", count] => {
            let count = number(count).ok_or(Fault::Unreadable)?;
            node_count(count.into()).map_err(Fault::Refused)
        }
        _ => Err(Fault::Unreadable),
    }
}

fn step(nodes: u8, words: &[&[u8]]) -> Result<Step, Fault> {
    match words {
        [kind, node] => {
            let kind = kind_of(kind).or_else(|| number(kind)).ok_or(Fault::Unreadable)?;
            let node = number(node).ok_or(Fault::Unreadable)?;
            judged(nodes, kind, Some(node)).map_err(Fault::Refused)?;
            Ok((kind, node))
        }
        _ => Err(Fault::Unreadable),
    }
}

/// A word of digits, if it is at most 255.
fn number(word: &[u8]) -> Option<u8> {
    let digits = word.len() <= MOST_DIGITS && word.iter().all(u8::is_ascii_digit);
    let join = |number: u64, digit: &u8| 10 * number + u64::from(digit - b'0');
    let number = digits.then(|| word.iter().fold(0, join))?;
    u8::try_from(number).ok()
}
