//! What the program prints for a message.

use crate::frames::{held, read_frame, Carried, HEAD_BYTES};
use crate::merge::Arbitration;

/// The longest input that the program reads as a message.
pub const MOST_INPUT: usize = 65_536;
/// Its refusal of a longer one.
const TOO_LONG: u32 = 8;

/// What the program prints for its input.
pub fn text_of(input: &[u8]) -> String {
    if input.len() > MOST_INPUT {
        return refused(TOO_LONG);
    }
    match crate::read(input) {
        Ok(arbitration) => text(&arbitration),
        Err(refusal) => refused(refusal as u32),
    }
}

fn refused(number: u32) -> String {
    format!("refused {number}\n")
}

/// A line a field.
pub fn text(arbitration: &Arbitration) -> String {
    let role = arbitration.role.unwrap_or_default();
    let election_id = arbitration.election_id.unwrap_or_default();
    let status = arbitration.status.unwrap_or_default();
    [
        format!("device_id {}\n", arbitration.device_id),
        format!("role {}\n", presence(arbitration.role.is_some())),
        format!("role.id {}\n", role.id),
        format!("election_id {}\n", presence(arbitration.election_id.is_some())),
        format!("election_id.high {}\n", election_id.high),
        format!("election_id.low {}\n", election_id.low),
        format!("status {}\n", presence(arbitration.status.is_some())),
        format!("status.code {}\n", status.code),
    ]
    .concat()
}

fn presence(present: bool) -> &'static str {
    if present {
        "present"
    } else {
        "absent"
    }
}

/// What `arbitration` says on standard error of what looks like a stream message.
pub const LOOKS_STREAMED: &str =
    "arbitration: this looks like a stream message; captured reads those\n";

/// What the program `captured` prints for its input: a text for each frame and a
/// line at the end, which is how many they are or the first refusal.
pub fn captured_text(input: &[u8]) -> String {
    let mut text = String::new();
    let mut number = 0;
    let mut offset = 0;
    while offset < input.len() {
        number += 1;
        match bounded(input, offset) {
            Ok(carried) => text += &format!("{number} {}", carried_text(carried)),
            Err(refusal) => return text + &format!("refused frame {number} {offset} {refusal}\n"),
        }
        offset += HEAD_BYTES + held(input, offset).map_or(0, <[u8]>::len);
    }
    text + &format!("frames {number}\n")
}

/// The frame at an offset, if it is not too long for the program.
fn bounded(input: &[u8], offset: usize) -> Result<Carried, u32> {
    match input[offset..] {
        [0, a, b, c, d, ..] if u32::from_be_bytes([a, b, c, d]) as usize > MOST_INPUT => {
            Err(TOO_LONG)
        }
        _ => Ok(read_frame(input, offset)?.carried),
    }
}

fn carried_text(carried: Carried) -> String {
    match carried {
        Carried::Nothing => "nothing\n".to_string(),
        Carried::Arbitration(arbitration) => format!("arbitration\n{}", text(&arbitration)),
        Carried::Other(2) => "packet\n".to_string(),
        Carried::Other(field) => format!("field {field}\n"),
    }
}
