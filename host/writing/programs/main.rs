//! Runs the programs `write_list` and `read_list` on texts and lists, and
//! `write_list` on what `read_list` printed, and compares standard output and
//! standard error with the writer here.
//!
//! Usage: list-programs WRITE_LIST READ_LIST, with the paths of the programs, in the
//! repository's folder. Exit status 0: no difference; 1: a difference.

mod event_lists;
mod texts;

use std::process::{Command, ExitCode};

use random::Random;

fn main() -> ExitCode {
    let given: Vec<String> = std::env::args().skip(1).collect();
    trial::ended(match &given[..] {
        [write_list, read_list] => compare(write_list, read_list),
        _ => Err("usage: list-programs WRITE_LIST READ_LIST".to_string()),
    })
}

fn compare(write_list: &str, read_list: &str) -> Result<(), String> {
    let mut random = Random::from_seed(1);
    let texts = [texts::edges(), texts::long(), texts::drawn(&mut random)].concat();
    for text in &texts {
        let part = if text.len() < 1_000 { random.pick(&[1, 7, 1_000]) } else { 1 << 16 };
        answers(write_list, text, part, writer::list_of(text))?;
    }
    let lists = [event_lists::built(), event_lists::drawn(&mut random)].concat();
    let examples = event_lists::examples().map_err(|error| format!("examples: {error}"))?;
    for list in lists.iter().chain(&examples) {
        there_and_back(write_list, read_list, list)?;
    }
    println!("{} texts, {} lists, {} examples", texts.len(), lists.len(), examples.len());
    Ok(())
}

/// The text of a list, and the list that the text gives: the same without notes, if
/// all of its records exist.
fn there_and_back(write_list: &str, read_list: &str, list: &[u8]) -> Result<(), String> {
    let text = answers(read_list, list, 1 << 16, writer::text_of(list))?;
    let back = answers(write_list, &text, 1 << 16, writer::list_of(&text))?;
    match event_lists::without_notes(list) {
        Some(wanted) if back != wanted => {
            Err(format!("{}comes back as\n{}", trial::hex(list), trial::hex(&back)))
        }
        _ => Ok(()),
    }
}

/// What a program writes to standard output, if that is as expected and nothing else
/// is said: nothing, where a line on standard error is expected.
fn answers(
    program: &str,
    input: &[u8],
    part: usize,
    expected: Result<Vec<u8>, String>,
) -> Result<Vec<u8>, String> {
    let output = trial::ran(&mut Command::new(program), input, part)?;
    let (out, said) = match expected {
        Ok(bytes) => (bytes, String::new()),
        Err(line) => (Vec::new(), line),
    };
    if output.stdout == out && output.stderr == said.as_bytes() {
        return Ok(out);
    }
    let [input, out, wrote, says] = [input, &out, &output.stdout, &output.stderr].map(start);
    let (expected, answered) = (format!("{out:?}, {said:?}"), format!("{wrote:?}, {says:?}"));
    Err(format!("{input:?}\nexpected {expected}\nanswered {answered}\n{program} differs"))
}

/// The first bytes, to be shown.
fn start(bytes: &[u8]) -> String {
    String::from_utf8_lossy(&bytes[..bytes.len().min(1_000)]).into_owned()
}
