//! The program `captured` on captures of any length, in parts of any size, and what
//! `arbitration` says of what looks like a stream message, against the reading here.
//!
//! Usage: captured-frames CAPTURED ARBITRATION, with the paths of the programs. Exit status
//! 0: no difference; 1: a difference.

use std::process::{Command, ExitCode};

use messages::{capture, framed, stream_message, Written};
use random::Random;
use reading::{captured_text, looks_streamed, text_of, LOOKS_STREAMED, MOST_INPUT};

/// Captures and messages that are drawn.
const DRAWN: usize = 400;
/// Frames of a long capture.
const FRAMES: usize = 20_000;

fn main() -> ExitCode {
    let given: Vec<String> = std::env::args().skip(1).collect();
    trial::ended(match &given[..] {
        [captured, arbitration] => compare(captured, arbitration),
        _ => Err("usage: captured-frames CAPTURED ARBITRATION".to_string()),
    })
}

fn compare(captured: &str, arbitration: &str) -> Result<(), String> {
    let mut random = Random::from_seed(1);
    for _ in 0..DRAWN {
        let capture = capture(&mut random);
        let part = random.pick(&[1, 3, 7, 4_096, 1 << 20]);
        prints(captured, &capture, part)?;
    }
    for capture in [edges(), long(&mut random)].concat() {
        prints(captured, &capture, 1 << 16)?;
    }
    for _ in 0..DRAWN {
        says(arbitration, &taken_for_a_message(&mut random))?;
    }
    // Longer than a message may be: what is read of it still looks like frames.
    says(arbitration, &long(&mut random)[0])
}

/// The program prints what the reading has for it, and says nothing else.
fn prints(program: &str, capture: &[u8], part: usize) -> Result<(), String> {
    let expected = captured_text(capture);
    let output = trial::ran(&mut Command::new(program), capture, part)?;
    if output.stdout == expected.as_bytes() && output.stderr.is_empty() {
        return Ok(());
    }
    let printed = String::from_utf8_lossy(&output.stdout);
    let differs = |line: &(&str, &str)| line.0 != line.1;
    let line = expected.lines().zip(printed.lines()).find(differs);
    let start = &capture[..capture.len().min(512)];
    Err(format!("{}expected, and printed: {line:?}", trial::hex(start)))
}

/// The longest message, one byte more, and heads that say so with other flags.
fn edges() -> Vec<Vec<u8>> {
    let longest = |more: usize| {
        let less = Written::new().bytes(2, &[0; MOST_INPUT / 2]).bytes.len() - MOST_INPUT / 2;
        framed(&Written::new().bytes(2, &vec![0; MOST_INPUT - less + more]).bytes)
    };
    let first = framed(&[0x0A, 0]);
    let mut compressed = longest(1);
    compressed[0] = 1;
    vec![
        Vec::new(),
        longest(0),
        [&longest(0)[..], &first].concat(),
        [&first[..], &longest(1), &first].concat(),
        [&first[..], &longest(1)[..100]].concat(),
        [&first[..], &longest(0)[..100]].concat(),
        [&first[..], &compressed].concat(),
        [&first[..], &[0, 255, 255, 255, 255]].concat(),
        [&first[..], &[0, 255, 255, 255]].concat(),
    ]
}

/// Captures that are much longer than a frame may be, whole and with a fault at the end.
fn long(random: &mut Random) -> Vec<Vec<u8>> {
    let good = || loop {
        let message = stream_message(random);
        if reading::read_message(&message).is_ok() {
            return framed(&message);
        }
    };
    let whole: Vec<u8> = std::iter::repeat_with(good).take(FRAMES).flatten().collect();
    assert!(whole.len() > 4 * MOST_INPUT);
    let cut = whole[..whole.len() - 1].to_vec();
    vec![whole, cut]
}

/// A frame, a stream message, or an arbitration message, some of them changed.
fn taken_for_a_message(random: &mut Random) -> Vec<u8> {
    let message = match random.below(4) {
        0 => capture(random),
        1 | 2 => stream_message(random),
        _ => messages::whole(random),
    };
    if random.percent(20) {
        return messages::damaged(random, &message);
    }
    message
}

/// `arbitration` prints what it prints, and says on standard error what this looks like.
fn says(program: &str, message: &[u8]) -> Result<(), String> {
    let output = trial::ran(&mut Command::new(program), message, 1 << 16)?;
    let read = &message[..message.len().min(MOST_INPUT + 1)];
    let expected = if looks_streamed(read) { LOOKS_STREAMED } else { "" };
    if output.stdout == text_of(message).as_bytes() && output.stderr == expected.as_bytes() {
        return Ok(());
    }
    let said = String::from_utf8_lossy(&output.stderr);
    Err(format!("{}expected {expected:?}, said {said:?}", trial::hex(read)))
}
