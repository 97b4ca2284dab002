//! Stream messages and frames of them at random.

use random::Random;

use crate::damage::{damaged, fault};
use crate::drawn::{all_fields, any_number, faulty, portable, whole};
use crate::write::Written;

/// A gRPC frame around some bytes, not compressed.
pub fn framed(message: &[u8]) -> Vec<u8> {
    [&[0][..], &(message.len() as u32).to_be_bytes(), message].concat()
}

/// A stream message: alternatives, mostly arbitration, and fields that are none.
pub fn stream_message(random: &mut Random) -> Vec<u8> {
    let mut message = Written::new();
    let most = random.pick(&[1, 1, 2, 4]);
    for _ in 0..random.between(0, most) {
        message = match random.below(10) {
            0..=5 => message.bytes(1, &arbitration(random)),
            6 | 7 => {
                let (field, len) = (random.between(2, 5) as u64, random.below(12));
                message.bytes(field, &random.bytes(len))
            }
            8 => message.number(random.between(1, 7) as u64, any_number(random)),
            _ => other(random, message),
        };
    }
    message.bytes
}

/// A good stream message of alternatives alone, all of which protobuf's own readers
/// take: several, so that they are merged and set aside.
pub fn portable_stream(random: &mut Random) -> Vec<u8> {
    let mut message = Written::new();
    for _ in 0..random.between(0, 4) {
        message = match random.below(3) {
            0 => {
                let field = random.between(2, 5) as u64;
                message.bytes(field, &Written::new().bytes(9, &random.bytes(3)).bytes)
            }
            _ => message.bytes(1, &portable(random)),
        };
    }
    message.bytes
}

fn arbitration(random: &mut Random) -> Vec<u8> {
    match random.below(10) {
        0..=4 => all_fields(random),
        5..=8 => whole(random),
        _ => faulty(random),
    }
}

/// A field that is no alternative, or no field at all.
fn other(random: &mut Random, message: Written) -> Written {
    match random.below(4) {
        0 => message.bytes(random.pick(&[6, 7, 16, 2_047]), &[0x0B]),
        1 => message.tag(random.between(1, 5) as u64, 1).raw(&random.bytes(8)),
        2 => message.tag(random.between(1, 5) as u64, 5).raw(&random.bytes(4)),
        _ => message.raw(&fault(random)),
    }
}

/// A capture of up to four frames, some of them with something amiss.
pub fn capture(random: &mut Random) -> Vec<u8> {
    let frames = random.between(0, 4);
    let mut capture = Vec::new();
    for _ in 0..frames {
        let mut frame = framed(&stream_message(random));
        match random.below(30) {
            0 => frame[0] = random.pick(&[1, 2, 128, 255]),
            1 => frame[random.between(1, 4)] ^= random.pick(&[1, 2, 128, 255]),
            2 => frame = damaged(random, &frame),
            _ => (),
        }
        capture.extend(frame);
    }
    if random.percent(10) {
        capture.truncate(random.between(0, capture.len()));
    }
    capture
}
