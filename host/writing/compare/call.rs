//! The call that writes a list.

use calls::{Compared, Lending};

#[derive(Clone)]
pub struct WriteCall {
    pub nodes: u32,
    /// The steps, and how they and the buffer for the list are lent.
    pub lending: Lending,
}

impl Compared for WriteCall {
    fn compare(&self) -> (u32, Option<String>) {
        let call = if self.lending.nulls { library::write_with_nulls } else { library::write };
        self.lending.compare(
            |steps, out| writer::write(self.nodes, steps, out),
            |steps, out| call(self.nodes, steps, out),
        )
    }

    fn input(&self) -> &[u8] {
        &self.lending.input
    }

    fn with(&self, input: &[u8]) -> Self {
        let lending = Lending { input: input.to_vec(), ..self.lending.clone() };
        WriteCall { nodes: self.nodes, lending }
    }

    fn lent(&self) -> String {
        format!("with {} nodes and {} bytes of room", self.nodes, self.lending.room)
    }
}
