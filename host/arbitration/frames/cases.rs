//! Captures to be compared: short ones, and drawn ones at each of their frames and
//! elsewhere, with what becomes of them when they are cut or changed.

use calls::{FrameCall, Lending};
use messages::TELLING;
use random::Random;
use reading::{read_frame, TOLD_BYTES};

const DAMAGES: usize = 4;

/// Every capture of at most two bytes, each head with a byte other than 0 in it, and
/// frames of two and three telling bytes with the right length, one less and one more.
pub fn short(mut take: impl FnMut(&FrameCall)) {
    take(&FrameCall::of(&[]));
    for first in 0..=255 {
        take(&FrameCall::of(&[first]));
        for second in 0..=255 {
            take(&FrameCall::of(&[first, second]));
        }
        for place in 0..5 {
            let mut head = vec![0; 5];
            head[place] = first;
            take(&FrameCall::of(&head));
            head.resize(300, 0x30);
            take(&FrameCall::of(&head));
        }
    }
    for len in [2, 3] {
        for choice in 0..TELLING.len().pow(len) {
            let digit = |place| TELLING[choice / TELLING.len().pow(place) % TELLING.len()];
            let message: Vec<u8> = (0..len).map(digit).collect();
            for said in len - 1..=len + 1 {
                let capture = [&[0, 0, 0, 0, said as u8][..], &message].concat();
                take(&FrameCall::of(&capture));
            }
        }
    }
}

/// A capture at random: at its frames, at its end and elsewhere; and some changes of it.
pub fn drawn(random: &mut Random, mut take: impl FnMut(&FrameCall)) {
    let capture = messages::capture(random);
    walk(random, &capture, &mut take);
    for _ in 0..DAMAGES {
        let damaged = messages::damaged(random, &capture);
        walk(random, &damaged, &mut take);
    }
}

fn walk(random: &mut Random, capture: &[u8], take: &mut impl FnMut(&FrameCall)) {
    let mut offset = 0;
    loop {
        take(&lent(random, capture, offset));
        match read_frame(capture, offset) {
            Ok(frame) => offset = frame.next,
            Err(_) => break,
        }
    }
    let beyond = capture.len() + random.below(9);
    let elsewhere = random.pick(&[beyond, usize::MAX, usize::MAX - 4, 1 << 63]);
    take(&lent(random, capture, elsewhere));
    let anywhere = random.between(0, capture.len());
    take(&lent(random, capture, anywhere));
}

/// The capture with buffers of any kind, mostly just long enough.
fn lent(random: &mut Random, capture: &[u8], offset: usize) -> FrameCall {
    let room = match random.below(20) {
        0 => TOLD_BYTES - 1,
        1 => random.below(TOLD_BYTES),
        2 => 0,
        3 | 4 => TOLD_BYTES + random.below(100),
        _ => TOLD_BYTES,
    };
    let (shift, fill, nulls) = (random.below(8), random.byte(), random.percent(50));
    FrameCall { offset, lending: Lending { input: capture.to_vec(), room, nulls, shift, fill } }
}
