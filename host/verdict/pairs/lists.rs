//! Pairs of event lists that come to the same, or do not.

use ::lists::{even_steps, with_trailer, Habits, Step, Walk};
use random::Random;
use reference::independent;
use reference::limits::{HISTORY_BYTES, LONGEST_LIST, MOST_RECORDS, TRAILER_BYTES};

/// What is known of two lists by the way they were made.
#[derive(Clone, Copy, PartialEq)]
pub enum Known {
    Same,
    NotSame,
    Nothing,
}

#[derive(Clone)]
pub struct Pair {
    pub first: Vec<u8>,
    pub second: Vec<u8>,
    pub known: Known,
}

/// The longest lists: the same, in the order that takes longest, and with a
/// difference at the very end.
pub fn built(random: &mut Random) -> Vec<Pair> {
    let half = MOST_RECORDS / 2;
    let (ones, twos) = (vec![(3, 1); half], vec![(3, 2); half]);
    let (first, second) = ([&ones[..], &twos].concat(), [&twos[..], &ones].concat());
    let mut other_end = first.clone();
    other_end[MOST_RECORDS - 1] = (3, 3);
    vec![
        pair(random, Known::Same, &first, &second, 2),
        pair(random, Known::Same, &first, &first, 3),
        pair(random, Known::NotSame, &first, &other_end, 3),
        pair(random, Known::NotSame, &first[1..], &second, 2),
        pair(random, Known::Same, &[], &[], 8),
    ]
}

/// Two lists at random.
pub fn drawn(random: &mut Random) -> Pair {
    let nodes = random.pick(&[1, 2, 2, 3, 4, 8]);
    let first = drawn_steps(random, nodes);
    let (known, second) = other(random, nodes, &first);
    pair(random, known, &first, &second, nodes)
}

fn pair(random: &mut Random, known: Known, first: &[Step], second: &[Step], nodes: u8) -> Pair {
    let mut list = |steps: &[Step]| {
        let most_notes = LONGEST_LIST - with_trailer(&[], steps, nodes).len();
        let len = random.pick(&[0, 0, 0, 1, 30]).min(most_notes);
        with_trailer(&random.bytes(len), steps, nodes)
    };
    Pair { first: list(first), second: list(second), known }
}

/// Steps by habit or evenly drawn, some of which may not exist.
fn drawn_steps(random: &mut Random, nodes: u8) -> Vec<Step> {
    let most = random.pick(&[3, 8, 30, 100, 300]);
    let most = if random.percent(1) { 3_000 } else { most };
    let len = random.between(0, most);
    let mut steps = if random.percent(60) {
        let mut history = [0; HISTORY_BYTES];
        let mut walk = Walk::new(nodes, &mut history);
        walk.wander(random, &Habits::LIFE_CYCLE, len);
        walk.steps
    } else {
        even_steps(random, nodes, len)
    };
    let strangers = random.pick(&[0, 0, 0, 1, 20]);
    for step in &mut steps {
        if random.percent(strangers) {
            let kind = random.pick(&[0, 1, 3, 11, 12, 13, 14, 255]);
            *step = (kind, random.pick(&[0, 1, nodes, nodes + 1, 255]));
        }
    }
    steps
}

/// Another list made of the same records or nearly so, and what is known of it.
fn other(random: &mut Random, nodes: u8, first: &[Step]) -> (Known, Vec<Step>) {
    let mut second = first.to_vec();
    let tries = random.pick(&[0, 1, 3, 30]) * first.len();
    exchange(random, nodes, &mut second, tries);
    let known = match random.below(8) {
        0..=2 => Known::Same,
        3 | 4 => exchange_dependent(random, nodes, &mut second),
        5 => drop_record(random, &mut second),
        6 => {
            second.insert(random.between(0, second.len()), (random.between(1, 11) as u8, 1));
            Known::NotSame
        }
        _ => {
            change_records(random, nodes, &mut second);
            Known::Nothing
        }
    };
    (known, second)
}

/// Tries so many exchanges of neighbours and makes those of independent ones.
pub fn exchange(random: &mut Random, nodes: u8, steps: &mut [Step], tries: usize) {
    for _ in 0..if steps.len() > 1 { tries } else { 0 } {
        let at = random.below(steps.len() - 1);
        if independent(nodes, steps[at], steps[at + 1]) {
            steps.swap(at, at + 1);
        }
    }
}

/// Two neighbours change places that are neither independent nor equal, if there
/// are such.
fn exchange_dependent(random: &mut Random, nodes: u8, steps: &mut [Step]) -> Known {
    let dependent = |&at: &usize| {
        let (one, two) = (steps[at], steps[at + 1]);
        one != two && !independent(nodes, one, two)
    };
    let places: Vec<usize> = (1..steps.len()).map(|at| at - 1).filter(dependent).collect();
    if places.is_empty() {
        return Known::Same;
    }
    let at = random.pick(&places);
    steps.swap(at, at + 1);
    Known::NotSame
}

fn drop_record(random: &mut Random, steps: &mut Vec<Step>) -> Known {
    if steps.is_empty() {
        return Known::Same;
    }
    steps.remove(random.below(steps.len()));
    Known::NotSame
}

fn change_records(random: &mut Random, nodes: u8, steps: &mut [Step]) {
    for _ in 0..if steps.is_empty() { 0 } else { random.between(1, 3) } {
        let at = random.below(steps.len());
        steps[at] = match random.below(3) {
            0 => steps[random.below(steps.len())],
            1 => (random.byte(), random.byte()),
            _ => even_steps(random, nodes, 1)[0],
        };
    }
}

/// Damages one of the lists or both.
pub fn damage(random: &mut Random, pair: &mut Pair) {
    pair.known = Known::Nothing;
    let which = random.below(3);
    if which != 0 {
        spoil(random, &mut pair.first);
    }
    if which != 1 {
        spoil(random, &mut pair.second);
    }
}

/// A list that is refused, or has another node count.
fn spoil(random: &mut Random, list: &mut Vec<u8>) {
    let trailer = list.len() - TRAILER_BYTES;
    match random.below(6) {
        0 => list.truncate(random.below(TRAILER_BYTES)),
        1 => list.resize(LONGEST_LIST + 1, 0),
        2 => list[trailer + random.between(9, 11)] ^= random.between(1, 255) as u8,
        3 => list[trailer + 8] = random.pick(&[0, 9, 255]),
        4 => list[trailer + 8] = random.between(1, 8) as u8,
        _ => list[trailer + random.below(8)] ^= random.between(1, 255) as u8,
    }
}
