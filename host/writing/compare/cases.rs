//! Steps to be written, and the buffers for their lists.

use calls::Lending;
use lists::{even_steps, Step};
use random::Random;
use reference::limits::{MOST_RECORDS, TRAILER_BYTES};

use crate::call::WriteCall;

/// Node counts at the ends of their range, and some that are good in their low bits.
const COUNTS: [u32; 11] = [0, 1, 8, 9, 255, 256, 257, 264, 266, (1 << 31) + 1, u32::MAX];

/// What a last step that is cut short has left.
const CUT: [u8; 6] = [0, 1, 11, 12, 13, 14];

/// Every edge: node counts, numbers of steps, bad steps at every place; each with no
/// room, and with room around the length that is needed.
pub fn built(random: &mut Random) -> Vec<WriteCall> {
    let mut asked: Vec<(u32, Vec<u8>)> = Vec::new();
    for nodes in COUNTS {
        let steps = [&[][..], &[1, 1], &[13, 0], &[14, 1], &[1, 9], &[1]];
        asked.extend(steps.map(|steps| (nodes, steps.to_vec())));
    }
    let short = (1..=8).flat_map(|nodes| [0, 1, 2, 5].map(|count| (nodes, count)));
    let long = [MOST_RECORDS - 1, MOST_RECORDS, MOST_RECORDS + 1].map(|count| (8, count));
    for (nodes, count) in short.chain(long) {
        let steps = good_and_spoilt(random, nodes, count);
        asked.extend(steps.into_iter().map(|steps| (nodes.into(), steps)));
    }
    let mut in_rooms = |(nodes, steps): &(u32, Vec<u8>)| {
        let needed = steps.len() + TRAILER_BYTES;
        [0, needed - 1, needed, needed + 1].map(|room| lent(random, *nodes, steps, room))
    };
    asked.iter().flat_map(|asked| in_rooms(asked)).collect()
}

/// Good steps, and the same with a bad one in front of each of the first and last, or
/// with one that is cut short behind them.
fn good_and_spoilt(random: &mut Random, nodes: u8, count: usize) -> Vec<Vec<u8>> {
    let good = bytes(&even_steps(random, nodes, count));
    let mut all = vec![good.clone()];
    for place in (0..=count).filter(|place| *place < 3 || *place + 3 > count) {
        let (front, rest) = good.split_at(2 * place);
        all.extend(bad_steps(nodes).map(|step| [front, &bytes(&[step]), rest].concat()));
    }
    all.extend(CUT.map(|kind| [&good[..], &[kind]].concat()));
    all
}

fn bad_steps(nodes: u8) -> [Step; 7] {
    [(0, 1), (14, 0), (255, 255), (1, 0), (11, nodes + 1), (12, 1), (13, nodes)]
}

/// Steps at random, sometimes with bad ones among them, and any buffer.
pub fn drawn(random: &mut Random) -> WriteCall {
    let nodes = random.between(1, 8) as u8;
    let most = if random.percent(1) { 3_000 } else { 40 };
    let count = random.between(0, most);
    let mut steps = even_steps(random, nodes, count);
    for _ in 0..random.pick(&[0, 0, 1, 2]).min(count) {
        let any = (random.byte(), random.byte());
        steps[random.below(count)] =
            if random.percent(50) { any } else { random.pick(&bad_steps(nodes)) };
    }
    let mut steps = bytes(&steps);
    if random.percent(10) {
        steps.push(random.pick(&CUT));
    }
    let needed = steps.len() + TRAILER_BYTES;
    let (less, more) = (random.below(needed), random.between(1, 100));
    let room = random.pick(&[needed, needed, less, needed + more]);
    let nodes = if random.percent(3) { random.pick(&COUNTS) } else { nodes.into() };
    lent(random, nodes, &steps, room)
}

fn lent(random: &mut Random, nodes: u32, steps: &[u8], room: usize) -> WriteCall {
    let (nulls, shift, fill) = (random.percent(50), random.below(8), random.byte());
    WriteCall { nodes, lending: Lending { input: steps.to_vec(), room, nulls, shift, fill } }
}

fn bytes(steps: &[Step]) -> Vec<u8> {
    steps.iter().flat_map(|&(kind, node)| [kind, node]).collect()
}
