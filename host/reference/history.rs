//! The history of accepted writes, kept in the bytes lent for it.

use crate::limits::{ENTRY_BYTES, HISTORY_CAPACITY};
use crate::mastership::Term;

#[derive(PartialEq, Debug)]
pub struct History<'a> {
    bytes: &'a mut [u8],
    len: usize,
}

impl<'a> History<'a> {
    pub fn empty(bytes: &'a mut [u8]) -> Self {
        History { bytes, len: 0 }
    }

    pub fn len(&self) -> usize {
        self.len
    }

    pub fn is_empty(&self) -> bool {
        self.len == 0
    }

    pub fn is_full(&self) -> bool {
        self.len == HISTORY_CAPACITY
    }

    /// Appends; the caller has seen that the history is not full.
    pub fn push(&mut self, node: u8, term: Term) {
        let [low, high] = term.0.to_le_bytes();
        let at = self.len * ENTRY_BYTES;
        self.bytes[at..at + ENTRY_BYTES].copy_from_slice(&[node, 0, low, high]);
        self.len += 1;
    }

    pub fn iter(&self) -> impl Iterator<Item = (u8, Term)> + '_ {
        let entries = self.bytes.chunks_exact(ENTRY_BYTES).take(self.len);
        entries.map(|entry| (entry[0], Term(u16::from_le_bytes([entry[2], entry[3]]))))
    }
}
