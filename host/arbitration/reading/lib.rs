//! Reads a MasterArbitrationUpdate of p4runtime.proto 1.0.0 as it goes over the
//! wire. Written from protobuf's published encoding and the request alone,
//! without a look at the verified library, which is compared with it and
//! measured against it. The frames that carry such messages came later, and are
//! written from gRPC's framing and p4runtime.proto.

mod frames;
mod merge;
#[cfg(test)]
mod tests;
mod text;
pub mod wire;

pub use frames::{
    frame_into, held, looks_streamed, read_frame, read_message, Carried, Frame, CARRYING,
    FRAME_COMPRESSED, FRAME_CUT_SHORT, HEAD_BYTES, TOLD_BYTES,
};
pub use merge::{Arbitration, ElectionId, Role, Status};
pub use text::{captured_text, text, text_of, LOOKS_STREAMED, MOST_INPUT};
use wire::Refusal;

use merge::Merge;

/// What a call returns for a message that was read.
pub const READ: u32 = 0;
/// What it returns for a good message if there is no room for its fields.
pub const NO_ROOM: u32 = 12;
pub const FIELDS_BYTES: usize = 40;

pub fn read(message: &[u8]) -> Result<Arbitration, Refusal> {
    let mut arbitration = Arbitration::default();
    arbitration.merge(message)?;
    Ok(arbitration)
}

/// The C call: 0 with the fields in the first 40 bytes, or the number of the
/// refusal with every byte as it was.
pub fn read_into(message: &[u8], fields: &mut [u8]) -> u32 {
    match (read(message), fields.get_mut(..FIELDS_BYTES)) {
        (Err(refusal), _) => refusal as u32,
        (Ok(_), None) => NO_ROOM,
        (Ok(arbitration), Some(fields)) => {
            fields.copy_from_slice(&arbitration.to_bytes());
            READ
        }
    }
}
