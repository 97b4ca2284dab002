//! The paper's independent pairs, held against states that runs reach.

use random::Random;

use super::*;
use crate::independent;

fn random_step(random: &mut Random, nodes: u8) -> Step {
    let kind = random.between(1, 13) as u8;
    let node = random.between(1, usize::from(nodes)) as u8;
    (kind, if kind >= SHUTDOWN { 0 } else { node })
}

/// Steps that were done, so that the walk gets somewhere.
fn walk(random: &mut Random, nodes: u8) -> Vec<Step> {
    let mut state = fresh(nodes);
    let mut done = Vec::new();
    for _ in 0..random.below(600) {
        let step = random_step(random, nodes);
        let wanted = step.0 != SHUTDOWN || random.percent(5);
        if wanted && state.step(step.0, step.1).is_ok() {
            done.push(step);
        }
    }
    done
}

fn replay(nodes: u8, steps: &[Step]) -> State<'static> {
    let mut state = fresh(nodes);
    must(&mut state, steps);
    state
}

#[test]
fn listed_pairs_change_places() {
    let mut random = Random::from_seed(2);
    let mut tried = 0;
    while tried < 4_000 {
        let nodes = random.between(1, 4) as u8;
        let (one, two) = (random_step(&mut random, nodes), random_step(&mut random, nodes));
        if !independent(nodes, one, two) {
            continue;
        }
        let steps = walk(&mut random, nodes);
        let (mut forward, mut backward) = (replay(nodes, &steps), replay(nodes, &steps));
        let answers = play(&mut forward, &[one, two]);
        let swapped = play(&mut backward, &[two, one]);
        assert_eq!([answers[0], answers[1]], [swapped[1], swapped[0]], "{one:?} {two:?}");
        assert_eq!(forward, backward, "{one:?} {two:?}");
        tried += 1;
    }
}

#[test]
fn strangers_are_independent_of_nothing() {
    let known: Vec<Step> = (1..=11).map(|kind| (kind, 2)).chain([(12, 0), (13, 0)]).collect();
    for stranger in [(0, 1), (14, 1), (255, 0), (3, 0), (3, 4), (12, 1), (13, 255)] {
        for &step in known.iter().chain([&stranger]) {
            assert!(!independent(3, stranger, step), "{stranger:?} {step:?}");
            assert!(!independent(3, step, stranger), "{step:?} {stranger:?}");
        }
    }
}

#[test]
fn no_step_is_independent_of_itself() {
    for kind in 0..=255 {
        for node in 0..=9 {
            assert!(!independent(8, (kind, node), (kind, node)));
        }
    }
}
