//! The call that reads an arbitration message.

use crate::{Compared, Lending};

#[derive(Clone)]
pub struct Call {
    pub lending: Lending,
}

impl Call {
    /// A call with just the room that is needed.
    pub fn of(message: &[u8]) -> Self {
        Call { lending: Lending::of(message, reading::FIELDS_BYTES) }
    }
}

impl Compared for Call {
    fn compare(&self) -> (u32, Option<String>) {
        let nulls = self.lending.nulls;
        let call: library::Call =
            if nulls { library::read_arbitration_with_nulls } else { library::read_arbitration };
        self.lending.compare(reading::read_into, call)
    }

    fn input(&self) -> &[u8] {
        &self.lending.input
    }

    fn with(&self, input: &[u8]) -> Self {
        Call { lending: Lending { input: input.to_vec(), ..self.lending.clone() } }
    }

    fn lent(&self) -> String {
        format!("with {} bytes for the fields", self.lending.room)
    }
}
