//! The frames of a gRPC stream, as its protocol over HTTP/2 lays them out, and in
//! each a StreamMessageRequest or StreamMessageResponse of p4runtime.proto 1.0.0.

use crate::merge::{Arbitration, Merge};
use crate::wire::{Refusal, Value};
use crate::{FIELDS_BYTES, NO_ROOM};

pub const FRAME_CUT_SHORT: u32 = 21;
pub const FRAME_COMPRESSED: u32 = 22;
/// A flag and a length of four bytes.
pub const HEAD_BYTES: usize = 5;
/// What the call puts: the fields and the next offset.
pub const TOLD_BYTES: usize = 48;
/// What the call returns for a frame that was read, less the alternative.
pub const CARRYING: u32 = 256;

/// What a stream message carries: the last alternative that it gives.
#[derive(Clone, Copy, PartialEq, Default, Debug)]
pub enum Carried {
    #[default]
    Nothing,
    Arbitration(Arbitration),
    /// Fields 2 to 5.
    Other(u64),
}

#[derive(Clone, Copy, PartialEq, Debug)]
pub struct Frame {
    pub carried: Carried,
    /// Where the next frame begins.
    pub next: usize,
}

impl Merge for Carried {
    fn take(&mut self, field: u64, value: Value) -> Result<(), Refusal> {
        match (field, value, *self) {
            (1, Value::Bytes(bytes), before) => {
                let mut arbitration = match before {
                    Carried::Arbitration(arbitration) => arbitration,
                    _ => Arbitration::default(),
                };
                arbitration.merge(bytes)?;
                *self = Carried::Arbitration(arbitration);
            }
            (2..=5, Value::Bytes(_), _) => *self = Carried::Other(field),
            _ => (),
        }
        Ok(())
    }
}

impl Carried {
    /// The alternative's field number, or 0.
    pub fn kind(self) -> u64 {
        match self {
            Carried::Nothing => 0,
            Carried::Arbitration(_) => 1,
            Carried::Other(field) => field,
        }
    }

    pub fn fields(self) -> Arbitration {
        match self {
            Carried::Arbitration(arbitration) => arbitration,
            _ => Arbitration::default(),
        }
    }
}

/// A stream message without its frame.
pub fn read_message(message: &[u8]) -> Result<Carried, Refusal> {
    let mut carried = Carried::default();
    carried.merge(message)?;
    Ok(carried)
}

/// The bytes that the frame at an offset holds.
pub fn held(capture: &[u8], offset: usize) -> Result<&[u8], u32> {
    let bytes = capture.get(offset..).unwrap_or_default();
    let flag = bytes.first().ok_or(FRAME_CUT_SHORT)?;
    if *flag != 0 {
        return Err(FRAME_COMPRESSED);
    }
    match bytes {
        [_, a, b, c, d, rest @ ..] => {
            let len = u32::from_be_bytes([*a, *b, *c, *d]);
            rest.get(..len as usize).ok_or(FRAME_CUT_SHORT)
        }
        _ => Err(FRAME_CUT_SHORT),
    }
}

pub fn read_frame(capture: &[u8], offset: usize) -> Result<Frame, u32> {
    let message = held(capture, offset)?;
    let carried = read_message(message).map_err(|refusal| refusal as u32)?;
    Ok(Frame { carried, next: offset + HEAD_BYTES + message.len() })
}

/// The C call: 256 and the alternative, with the fields and the next offset in the
/// first 48 bytes; or the number of the refusal with every byte as it was.
pub fn frame_into(capture: &[u8], offset: usize, told: &mut [u8]) -> u32 {
    match (read_frame(capture, offset), told.get_mut(..TOLD_BYTES)) {
        (Err(refusal), _) => refusal,
        (Ok(_), None) => NO_ROOM,
        (Ok(frame), Some(told)) => {
            let (fields, next) = told.split_at_mut(FIELDS_BYTES);
            fields.copy_from_slice(&frame.carried.fields().to_bytes());
            next.copy_from_slice(&(frame.next as u64).to_le_bytes());
            CARRYING + frame.carried.kind() as u32
        }
    }
}

/// Whether what was given as an arbitration message looks like what a capture has:
/// a whole frame, or a stream message with an arbitration message in it of which
/// nothing else is read.
pub fn looks_streamed(message: &[u8]) -> bool {
    let nothing = match crate::read(message) {
        Ok(read) => read == Arbitration::default(),
        Err(_) => true,
    };
    held(message, 0).is_ok()
        || nothing && matches!(read_message(message), Ok(Carried::Arbitration(_)))
}
