//! Writing the wire format.

/// The most bytes of a number.
pub const LONGEST_NUMBER: usize = 10;

/// A number in as few bytes as it needs.
pub fn number(value: u64) -> Vec<u8> {
    padded(value, 1)
}

/// A number in `len` bytes, or as many as it needs.
pub fn padded(mut value: u64, len: usize) -> Vec<u8> {
    let mut bytes = Vec::new();
    while value >= 0x80 || bytes.len() + 1 < len {
        bytes.push(value as u8 | 0x80);
        value >>= 7;
    }
    bytes.push(value as u8);
    bytes
}

/// A message in the making.
#[derive(Clone, Default)]
pub struct Written {
    pub bytes: Vec<u8>,
}

impl Written {
    pub fn new() -> Self {
        Self::default()
    }

    pub fn tag(mut self, field: u64, wire_type: u64) -> Self {
        self.bytes.extend(number(field << 3 | wire_type));
        self
    }

    pub fn raw(mut self, bytes: &[u8]) -> Self {
        self.bytes.extend(bytes);
        self
    }

    pub fn number(self, field: u64, value: u64) -> Self {
        self.tag(field, 0).raw(&number(value))
    }

    pub fn bytes(self, field: u64, value: &[u8]) -> Self {
        self.tag(field, 2).raw(&number(value.len() as u64)).raw(value)
    }
}
