//! Steps chosen with an eye on the state that they lead to.

use random::Random;
use reference::codes::{Outcome, Refusal};
use reference::kinds::*;
use reference::limits::MOST_NODES;
use reference::State;

use crate::Step;

/// How often a walk takes which steps.
#[derive(Clone)]
pub struct Habits {
    /// The weight of each kind; place 0 is for kinds that do not exist.
    pub kinds: [usize; 14],
    /// Only so many nodes do more than learn.
    pub active: usize,
    /// Percentage of the steps not allowed that the walk keeps.
    pub refused: usize,
    /// Percentage of the steps with any byte as their node.
    pub strangers: usize,
}

impl Habits {
    /// Controllers that come, win the switch, write and go.
    pub const LIFE_CYCLE: Habits = Habits {
        kinds: [0, 20, 10, 150, 100, 100, 100, 100, 40, 10, 100, 100, 1, 40],
        active: MOST_NODES,
        refused: 15,
        strangers: 0,
    };

    /// The life cycle with some kinds rare, frequent or left out, so that queues
    /// fill that are seldom emptied.
    pub fn drawn(random: &mut Random) -> Habits {
        let mut habits = Habits::LIFE_CYCLE;
        for _ in 0..random.below(5) {
            habits.kinds[random.between(1, 13)] = random.pick(&[0, 2, 20, 200, 800]);
        }
        if random.percent(20) {
            for kind in [RECEIVE_UPDATE, RECEIVE_WRITE, SHUTDOWN] {
                habits.kinds[usize::from(kind)] /= 50;
            }
        }
        habits.kinds[usize::from(JOIN)] += 1;
        habits.kinds[0] = random.pick(&[0, 0, 5]);
        habits.active = random.pick(&[1, 2, 2, 3, 4, MOST_NODES]);
        habits.refused = random.pick(&[0, 5, 50]);
        habits.strangers = random.pick(&[0, 0, 1]);
        habits
    }

    fn kind(&self, random: &mut Random) -> u8 {
        let mut left = random.below(self.kinds.iter().sum());
        for (kind, &weight) in self.kinds.iter().enumerate() {
            if left < weight {
                return if kind == 0 { random.pick(&[0, 14, 15, 128, 255]) } else { kind as u8 };
            }
            left -= weight;
        }
        unreachable!("the weights sum up to more than the number drawn")
    }

    fn step(&self, random: &mut Random, nodes: u8) -> Step {
        let kind = self.kind(random);
        if random.percent(self.strangers) {
            return (kind, random.byte());
        }
        let nodes = usize::from(nodes);
        let most = if kind == LEARN { nodes } else { nodes.min(self.active) };
        let node = random.between(1, most) as u8;
        (kind, if kind == SHUTDOWN || kind == STARTUP { 0 } else { node })
    }
}

/// A run in the making: its steps so far and the state after them.
pub struct Walk<'a> {
    pub state: State<'a>,
    pub steps: Vec<Step>,
}

impl<'a> Walk<'a> {
    pub fn new(nodes: u8, history: &'a mut [u8]) -> Self {
        Walk { state: State::fresh(nodes, history), steps: Vec::new() }
    }

    /// Takes a step whatever its answer is.
    pub fn take(&mut self, kind: u8, node: u8) -> Outcome {
        self.steps.push((kind, node));
        self.state.step(kind, node)
    }

    pub fn take_all(&mut self, node: u8, kinds: &[u8]) {
        for &kind in kinds {
            let _ = self.take(kind, node);
        }
    }

    /// Repeats a step until it is refused.
    pub fn exhaust(&mut self, kind: u8, node: u8) {
        while self.take(kind, node).is_ok() {}
    }

    /// Goes on by habit until there are `len` steps. Steps that the rule does
    /// not allow are mostly passed over.
    pub fn wander(&mut self, random: &mut Random, habits: &Habits, len: usize) {
        let mut tries = 20 * len;
        while self.steps.len() < len && tries > 0 {
            tries -= 1;
            let (kind, node) = habits.step(random, self.state.nodes);
            let refused = self.state.step(kind, node) == Err(Refusal::NotAllowed);
            if !refused || random.percent(habits.refused) {
                self.steps.push((kind, node));
            }
        }
    }
}
