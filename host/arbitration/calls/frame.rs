//! The call that reads a frame of a capture.

use crate::{Compared, Lending};

#[derive(Clone)]
pub struct FrameCall {
    pub offset: usize,
    pub lending: Lending,
}

impl FrameCall {
    /// A call at the front of a capture, with just the room that is needed.
    pub fn of(capture: &[u8]) -> Self {
        FrameCall { offset: 0, lending: Lending::of(capture, reading::TOLD_BYTES) }
    }
}

impl Compared for FrameCall {
    fn compare(&self) -> (u32, Option<String>) {
        let nulls = self.lending.nulls;
        let call = if nulls { library::read_frame_with_nulls } else { library::read_frame };
        self.lending.compare(
            |capture, told| reading::frame_into(capture, self.offset, told),
            |capture, told| call(capture, self.offset, told),
        )
    }

    fn input(&self) -> &[u8] {
        &self.lending.input
    }

    fn with(&self, input: &[u8]) -> Self {
        let lending = Lending { input: input.to_vec(), ..self.lending.clone() };
        FrameCall { offset: self.offset, lending }
    }

    fn lent(&self) -> String {
        format!("at offset {} with {} bytes of room", self.offset, self.lending.room)
    }
}
