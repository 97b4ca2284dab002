//! Where the first fault of a message is, for the count of what was reached.

use reading::wire::{number, Refusal};

/// What a fault was met in.
#[derive(Clone, Copy, PartialEq)]
pub enum In {
    Tag,
    Number,
    Length,
    /// The bytes that a length or a wire type calls for.
    Value,
}

pub struct Fault {
    pub refusal: Refusal,
    pub found: In,
    /// The tag of the field, if it was read.
    pub tag: u64,
    pub embedded: bool,
}

/// The first fault of a message, if it has one.
pub fn first(message: &[u8]) -> Option<Fault> {
    walk(message, false).err()
}

fn walk(mut bytes: &[u8], embedded: bool) -> Result<(), Fault> {
    while !bytes.is_empty() {
        let at = |found, tag| move |refusal| Fault { refusal, found, tag, embedded };
        let tag = number(&mut bytes).map_err(at(In::Tag, 0))?;
        let (field, wire_type) = (tag >> 3, tag & 7);
        if !(1..1 << 29).contains(&field) {
            return Err(at(In::Tag, tag)(Refusal::BadTag));
        }
        let len = match wire_type {
            0 => number(&mut bytes).map(|_| 0).map_err(at(In::Number, tag))?,
            1 => 8,
            2 => number(&mut bytes).map_err(at(In::Length, tag))?,
            5 => 4,
            _ => return Err(at(In::Tag, tag)(Refusal::BadTag)),
        };
        if len > bytes.len() as u64 {
            return Err(at(In::Value, tag)(Refusal::CutShort));
        }
        let (value, rest) = bytes.split_at(len as usize);
        if wire_type == 2 && !embedded && (2..=4).contains(&field) {
            walk(value, true)?;
        }
        bytes = rest;
    }
    Ok(())
}
