//! Event lists at random, as long as a script has room for.

use lists::{claim, even_steps, take_over, Habits, Walk};
use random::Random;
use reference::kinds::*;
use reference::limits::{HISTORY_BYTES, MOST_NODES};
use reference::Step;

use crate::script::{most_steps, writable};

pub struct Case {
    pub nodes: u8,
    pub steps: Vec<Step>,
}

/// Controllers that come and go for ever, and seldom write.
const RESTLESS: Habits = Habits {
    kinds: [0, 60, 30, 200, 100, 100, 2, 2, 40, 10, 100, 2, 1, 40],
    refused: 5,
    ..Habits::LIFE_CYCLE
};

pub fn drawn(random: &mut Random) -> Case {
    let nodes = random.between(1, MOST_NODES) as u8;
    let len = most_steps(nodes);
    let steps = match random.below(10) {
        0 => (0..len).map(|_| (random.below(16) as u8, random.below(10) as u8)).collect(),
        1 => even_steps(random, nodes, len),
        _ => walked(random, nodes, len),
    };
    Case { nodes, steps: steps.into_iter().map(writable).collect() }
}

fn walked(random: &mut Random, nodes: u8, len: usize) -> Vec<Step> {
    let mut history = [0; HISTORY_BYTES];
    let mut walk = Walk::new(nodes, &mut history);
    match random.below(10) {
        0..=2 => demote(random, &mut walk),
        3 if nodes > 1 => fill_responses(random, &mut walk),
        _ => (),
    }
    let habits = match random.below(3) {
        0 => Habits::LIFE_CYCLE,
        1 => RESTLESS,
        _ => Habits::drawn(random),
    };
    walk.wander(random, &habits, len);
    walk.steps
}

/// The first of some nodes is the switch's master, leaves the service and joins it behind
/// the others, which gives it a smaller id. They are so few that no event queue fills.
fn demote(random: &mut Random, walk: &mut Walk) {
    let joined = 1..=walk.state.nodes.min(5);
    joined.clone().for_each(|node| walk.take_all(node, &[JOIN]));
    for node in joined.filter(|&node| node == 1 || random.percent(40)) {
        claim(walk, node);
    }
    walk.take_all(1, &[LEAVE, JOIN]);
    claim(walk, 1);
}

/// The switch's master comes and goes until another, which takes no response, has a full
/// queue of them. When that one connects decides whether the queue stops an update or a
/// close.
fn fill_responses(random: &mut Random, walk: &mut Walk) {
    if random.percent(50) {
        walk.take_all(2, &[CONNECT]);
    }
    take_over(walk, 1);
    walk.take_all(2, &[CONNECT]);
    while !walk.state.streams[1].responses.is_full() {
        walk.take_all(1, &[CLOSE]);
        claim(walk, 1);
    }
    walk.take_all(1, &[CLOSE]);
}
