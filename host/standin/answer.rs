//! What the programs for texts of lists do alike.

use std::io::{self, stderr, stdin, stdout, Read, Write};

type Answer = Result<Vec<u8>, String>;

/// Answers standard input, of which at most one byte more than `most` is read.
pub fn answer(most: usize, answer_to: fn(&[u8]) -> Answer) -> io::Result<()> {
    let mut input = Vec::new();
    stdin().take(most as u64 + 1).read_to_end(&mut input)?;
    match answer_to(&input) {
        Ok(bytes) => stdout().write_all(&bytes),
        Err(refusal) => stderr().write_all(refusal.as_bytes()),
    }
}
