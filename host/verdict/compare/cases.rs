//! Pairs of lists with the buffers that they are judged with.

use judge::PLACES_BYTES;
use pairs::Pair;
use random::Random;

use crate::call::Call;

pub fn built(random: &mut Random) -> Vec<Call> {
    pairs::built(random).into_iter().map(|pair| lent(random, pair)).collect()
}

/// Two lists at random, sometimes damaged, sometimes with a buffer that is too
/// short or too long.
pub fn drawn(random: &mut Random) -> Call {
    let mut pair = pairs::drawn(random);
    if random.percent(8) {
        pairs::damage(random, &mut pair);
    }
    let mut call = lent(random, pair);
    if random.percent(5) {
        call.room = random.pick(&[0, 1, PLACES_BYTES - 1, PLACES_BYTES + 1, 100]);
    }
    call
}

fn lent(random: &mut Random, pair: Pair) -> Call {
    let (nulls, shift, fill) = (random.percent(50), random.below(8), random.byte());
    Call { pair, room: PLACES_BYTES, nulls, shift, fill }
}
