//! Messages at random.

use random::Random;

use crate::damage::fault;
use crate::write::{padded, Written, LONGEST_NUMBER};

/// The embedded messages of an arbitration update.
const ROLE: u64 = 2;
const ELECTION_ID: u64 = 3;
const STATUS: u64 = 4;

/// A number, often one at the end of a range.
pub fn any_number(random: &mut Random) -> u64 {
    match random.below(4) {
        0 => random.pick(&[0, 1, 127, 128, u64::MAX, u64::MAX - 1]),
        1 => (1_u64 << random.below(64)).wrapping_sub(random.below(2) as u64),
        2 => random.below(300) as u64,
        _ => random.word() >> random.below(64),
    }
}

/// A good message: known fields, unknown ones, and known ones with another wire
/// type, in any order and number, some numbers longer than need be.
pub fn whole(random: &mut Random) -> Vec<u8> {
    let most = random.pick(&[2, 4, 6, 12]);
    Drawing { random, longest: LONGEST_NUMBER, faults: 0 }.fields(most, true)
}

/// The same with tags and lengths of at most five bytes, as protobuf's own
/// readers ask.
pub fn portable(random: &mut Random) -> Vec<u8> {
    Drawing { random, longest: 5, faults: 0 }.fields(8, true)
}

/// The same with faults among the fields, embedded ones too.
pub fn faulty(random: &mut Random) -> Vec<u8> {
    let most = random.pick(&[2, 4, 6]);
    Drawing { random, longest: LONGEST_NUMBER, faults: 20 }.fields(most, true)
}

struct Drawing<'a> {
    random: &'a mut Random,
    /// The most bytes of a tag or length.
    longest: usize,
    /// Percentage of the fields that are faulty.
    faults: usize,
}

impl Drawing<'_> {
    fn fields(&mut self, most: usize, outer: bool) -> Vec<u8> {
        let mut message = Written::new();
        for _ in 0..self.random.between(0, most) {
            message = if self.random.percent(self.faults) {
                message.raw(&fault(self.random))
            } else {
                self.field(message, outer)
            };
        }
        message.bytes
    }

    fn field(&mut self, message: Written, outer: bool) -> Written {
        let field = match self.random.below(10) {
            0 => self.random.pick(&[15, 16, 2_047, 2_048, 19_000, (1 << 29) - 1]),
            1 => self.random.between(5, 40) as u64,
            _ => self.random.between(1, 4) as u64,
        };
        let embedded = outer && (ROLE..=STATUS).contains(&field);
        let usual = if embedded { 2 } else { 0 };
        let stray = self.random.percent(20);
        let wire_type = if stray { self.random.pick(&[0, 1, 2, 5]) } else { usual };
        let message = message.raw(&self.number(field << 3 | wire_type, self.longest));
        match wire_type {
            0 => {
                let value = any_number(self.random);
                message.raw(&self.number(value, LONGEST_NUMBER))
            }
            1 => message.raw(&self.random.bytes(8)),
            2 => {
                let content = if embedded { self.fields(4, false) } else { blob(self.random) };
                let len = self.number(content.len() as u64, self.longest);
                message.raw(&len).raw(&content)
            }
            _ => message.raw(&self.random.bytes(4)),
        }
    }

    /// A number, sometimes in more bytes than it needs.
    fn number(&mut self, value: u64, longest: usize) -> Vec<u8> {
        let long = self.random.percent(10);
        padded(value, if long { self.random.between(2, longest) } else { 1 })
    }
}

fn blob(random: &mut Random) -> Vec<u8> {
    let len = random.pick(&[0, 1, 2, 9, 130]);
    random.bytes(len)
}

/// Bytes that make tags, lengths and numbers.
pub const TELLING: [u8; 20] = [
    0x08, 0x10, 0x12, 0x1A, 0x22, 0x09, 0x0D, 0x2A, 0x28, 0x0B, 0x00, 0x01, 0x02, 0x04, 0x0A, 0x7F,
    0x80, 0x81, 0x88, 0xFF,
];

/// Any bytes, mostly telling ones.
pub fn any_bytes(random: &mut Random) -> Vec<u8> {
    let evenly = random.percent(20);
    let most = random.pick(&[4, 12, 12, 40]);
    let len = random.between(0, most);
    let mut byte = || if evenly { random.byte() } else { random.pick(&TELLING) };
    (0..len).map(|_| byte()).collect()
}

/// Every field once, with any numbers above 0.
pub fn all_fields(random: &mut Random) -> Vec<u8> {
    let mut wide = || any_number(random).max(1);
    let (device_id, role, election_id) = (wide(), wide(), [wide(), wide()]);
    update(device_id, role, election_id, random.between(1, 16) as u64)
}

/// Every field once, in the order and the form in which protobuf writes them.
pub fn update(device_id: u64, role: u64, [high, low]: [u64; 2], code: u64) -> Vec<u8> {
    Written::new()
        .number(1, device_id)
        .bytes(ROLE, &Written::new().number(1, role).bytes)
        .bytes(ELECTION_ID, &Written::new().number(1, high).number(2, low).bytes)
        .bytes(STATUS, &Written::new().number(1, code).bytes)
        .bytes
}

/// A message of about `len` bytes, most of them in unknown fields.
pub fn long(random: &mut Random, len: usize) -> Vec<u8> {
    let mut message = Written::new().raw(&all_fields(random));
    while message.bytes.len() + 40 < len {
        let field = random.between(5, 2_000) as u64;
        message = match random.below(4) {
            0 => message.number(field, any_number(random)),
            1 => message.tag(field, 1).raw(&random.bytes(8)),
            2 => message.tag(field, 5).raw(&random.bytes(4)),
            _ => {
                let len = random.below(24);
                message.bytes(field, &random.bytes(len))
            }
        };
    }
    message.bytes
}
