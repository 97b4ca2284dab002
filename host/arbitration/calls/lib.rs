//! Calls of the library, on lent buffers, held against the reading, and what every
//! comparison of a call on some bytes and a buffer does alike.

mod comparison;
mod frame;
mod message;

pub use comparison::{compared, Compared};
pub use frame::FrameCall;
pub use message::Call;

use trial::Lent;

/// What every call has beside what it is asked: the bytes that are read, and how
/// the buffers are lent.
#[derive(Clone)]
pub struct Lending {
    pub input: Vec<u8>,
    /// Length of the buffer for what is given out.
    pub room: usize,
    /// Empty slices are lent as NULL.
    pub nulls: bool,
    /// How far the buffers are from an even start.
    pub shift: usize,
    /// What the buffer holds before.
    pub fill: u8,
}

impl Lending {
    /// Some bytes, with just the room that is needed.
    pub fn of(input: &[u8], room: usize) -> Self {
        Lending { input: input.to_vec(), room, nulls: false, shift: 0, fill: 0xA5 }
    }

    /// What the reading, or another reference, returns, and a word on how the library
    /// differs from it.
    pub fn compare(
        &self,
        reference: impl Fn(&[u8], &mut [u8]) -> u32,
        library: impl Fn(&[u8], &mut [u8]) -> u32,
    ) -> (u32, Option<String>) {
        let before: Vec<u8> = (0..self.room).map(|at| (at * 37) as u8 ^ self.fill).collect();
        let mut expected = before.clone();
        let result = reference(&self.input, &mut expected);
        let mut input = Lent::new(&self.input, self.shift);
        let mut out = Lent::new(&before, self.shift);
        let returned = library(input.content(), out.content());
        let difference = if returned != result {
            Some(format!("the library returns {returned}, the reference {result}"))
        } else {
            let of_input = input.difference("input", &self.input);
            of_input.or_else(|| out.difference("buffer", &expected))
        };
        (result, difference)
    }
}
