//! Arbitration messages for the comparison and the measurements.

mod damage;
mod drawn;
mod stream;
mod write;

pub use damage::damaged;
pub use drawn::{
    all_fields, any_bytes, any_number, faulty, long, portable, update, whole, TELLING,
};
pub use stream::{capture, framed, portable_stream, stream_message};
pub use write::{number, padded, Written};
