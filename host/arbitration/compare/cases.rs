//! Messages to be compared: all short ones, and drawn ones with what becomes of
//! them when they are cut or changed.

use calls::{Call, Lending};
use messages::TELLING;
use random::Random;
use reading::FIELDS_BYTES;

/// A drawn message that is longer is cut at some of its bytes only.
const CUT_EVERYWHERE: usize = 60;
const DAMAGES: usize = 8;

/// Every message of at most two bytes, and those of three and four telling ones.
pub fn short(mut take: impl FnMut(&Call)) {
    let all: Vec<u8> = (0..=255).collect();
    for (len, bytes) in [(0, &all[..]), (1, &all), (2, &all), (3, &TELLING), (4, &TELLING)] {
        for mut choice in 0..bytes.len().pow(len) {
            let mut digit = || {
                let byte = bytes[choice % bytes.len()];
                choice /= bytes.len();
                byte
            };
            let message: Vec<u8> = (0..len).map(|_| digit()).collect();
            take(&Call::of(&message));
        }
    }
}

/// A message at random, all or some of its prefixes, and some changes.
pub fn drawn(random: &mut Random, mut take: impl FnMut(&Call)) {
    let message = match random.below(20) {
        0..=9 => messages::whole(random),
        10..=14 => messages::faulty(random),
        15..=18 => messages::any_bytes(random),
        _ => messages::all_fields(random),
    };
    let everywhere = message.len() <= CUT_EVERYWHERE;
    for cut in 0..message.len() {
        if everywhere || random.below(message.len()) < CUT_EVERYWHERE {
            take(&lent(random, message[..cut].to_vec()));
        }
    }
    for _ in 0..DAMAGES {
        let damaged = messages::damaged(random, &message);
        take(&lent(random, damaged));
    }
    take(&lent(random, message));
}

/// The message with buffers of any kind, mostly just long enough.
fn lent(random: &mut Random, message: Vec<u8>) -> Call {
    let room = match random.below(20) {
        0 => FIELDS_BYTES - 1,
        1 => random.below(FIELDS_BYTES),
        2 => 0,
        3 | 4 => FIELDS_BYTES + random.below(100),
        _ => FIELDS_BYTES,
    };
    let (shift, fill) = (random.below(8), random.byte());
    let nulls = random.percent(50);
    Call { lending: Lending { input: message, room, nulls, shift, fill } }
}
