//! Messages with something amiss.

use random::Random;

use crate::drawn::any_number;
use crate::write::{number, padded};

type Way = fn(&mut Random, &mut Vec<u8>);

const WAYS: [Way; 7] =
    [cut_short, change_byte, change_bit, insert_byte, drop_byte, insert_number, insert_fault];

/// The message with one to three changes.
pub fn damaged(random: &mut Random, message: &[u8]) -> Vec<u8> {
    let mut bytes = message.to_vec();
    for _ in 0..random.pick(&[1, 1, 1, 2, 3]) {
        random.pick(&WAYS)(random, &mut bytes);
    }
    bytes
}

fn cut_short(random: &mut Random, bytes: &mut Vec<u8>) {
    bytes.truncate(random.between(0, bytes.len()));
}

fn change_byte(random: &mut Random, bytes: &mut Vec<u8>) {
    if !bytes.is_empty() {
        let at = random.below(bytes.len());
        bytes[at] = random.byte();
    }
}

fn change_bit(random: &mut Random, bytes: &mut Vec<u8>) {
    if !bytes.is_empty() {
        let at = random.below(bytes.len());
        bytes[at] ^= 1 << random.below(8);
    }
}

fn insert_byte(random: &mut Random, bytes: &mut Vec<u8>) {
    bytes.insert(random.between(0, bytes.len()), random.byte());
}

fn drop_byte(random: &mut Random, bytes: &mut Vec<u8>) {
    if !bytes.is_empty() {
        bytes.remove(random.below(bytes.len()));
    }
}

fn insert_number(random: &mut Random, bytes: &mut Vec<u8>) {
    let value = number(any_number(random));
    insert(random, bytes, &value);
}

fn insert_fault(random: &mut Random, bytes: &mut Vec<u8>) {
    let fault = fault(random);
    insert(random, bytes, &fault);
}

fn insert(random: &mut Random, bytes: &mut Vec<u8>, inserted: &[u8]) {
    let at = random.between(0, bytes.len());
    bytes.splice(at..at, inserted.iter().copied());
}

/// A field, or the start of one, that is refused: a tag that no field has, a
/// number with a tenth byte that is too large, or a value that is cut short if
/// little follows.
pub fn fault(random: &mut Random) -> Vec<u8> {
    let field = random.between(1, 6) as u64;
    match random.below(4) {
        0 => bad_tag(random, field),
        1 => too_large(random),
        2 => [number(field << 3 | random.pick(&[0, 2])), too_large(random)].concat(),
        _ => {
            let tag = number(field << 3 | random.pick(&[0, 1, 2, 2, 5]));
            let value = random.pick(&[&[][..], &[0x80], &[0xFF, 0xFF], &[0x03, 0x08]]);
            [tag, value.to_vec()].concat()
        }
    }
}

fn bad_tag(random: &mut Random, field: u64) -> Vec<u8> {
    let wire_type = random.below(8) as u64;
    let tag = match random.below(4) {
        0 => wire_type,
        1 => random.pick(&[1 << 32, 1 << 32 | 8, 1 << 35 | 8, 1 << 63 | 8]) | wire_type,
        _ => field << 3 | random.pick(&[3, 4, 6, 7]),
    };
    padded(tag, random.pick(&[1, 1, 1, 2, 5, 10]))
}

fn too_large(random: &mut Random) -> Vec<u8> {
    let tenth = random.pick(&[2, 3, 0x40, 0x7F, 0x80, 0x81, 0xFF]);
    let low = random.pick(&[0x80, 0x88, 0xFF]);
    [&[low; 9][..], &[tenth, 0, 0]].concat()
}
