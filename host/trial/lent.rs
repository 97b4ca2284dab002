//! Buffers lent to the library, with guards around them.

const GUARD: u8 = 0x5C;
const GUARD_BYTES: usize = 64;

/// A copy of some bytes between two guards, starting where `shift` says.
pub struct Lent {
    bytes: Vec<u8>,
    start: usize,
    end: usize,
}

impl Lent {
    pub fn new(content: &[u8], shift: usize) -> Self {
        let start = GUARD_BYTES + shift;
        let end = start + content.len();
        let mut bytes = vec![GUARD; end + GUARD_BYTES];
        bytes[start..end].copy_from_slice(content);
        Lent { bytes, start, end }
    }

    pub fn content(&mut self) -> &mut [u8] {
        &mut self.bytes[self.start..self.end]
    }

    /// A word on the first byte, here or in the guards, that is not as expected.
    pub fn difference(&self, name: &str, expected: &[u8]) -> Option<String> {
        let guards = self.bytes[..self.start].iter().chain(&self.bytes[self.end..]);
        if guards.into_iter().any(|&byte| byte != GUARD) {
            return Some(format!("the library changed bytes outside the lent {name}"));
        }
        let content = &self.bytes[self.start..self.end];
        let at = content.iter().zip(expected).position(|(byte, wanted)| byte != wanted)?;
        let (byte, wanted) = (content[at], expected[at]);
        Some(format!("{name}, byte {at}: the library leaves {byte} and not {wanted}"))
    }
}
