//! The lists that are measured.

use lists::{even_steps, with_trailer, Habits, Step, Walk};
use random::Random;
use reference::kinds::*;
use reference::limits::{HISTORY_BYTES, MOST_RECORDS};

pub struct Workload {
    pub name: &'static str,
    pub list: Vec<u8>,
    pub records: usize,
}

impl Workload {
    fn new(name: &'static str, steps: &[Step], nodes: u8) -> Self {
        Workload { name, list: with_trailer(&[], steps, nodes), records: steps.len() }
    }

    pub fn room(&self) -> usize {
        self.records + HISTORY_BYTES
    }
}

pub fn all() -> Vec<Workload> {
    let mut random = Random::from_seed(1);
    let even = even_steps(&mut random, 8, MOST_RECORDS);
    let eight = walked(8, |walk| walk.wander(&mut random, &Habits::LIFE_CYCLE, MOST_RECORDS));
    let three = walked(3, |walk| walk.wander(&mut random, &Habits::LIFE_CYCLE, MOST_RECORDS));
    let writes = walked(8, write_on);
    let terms = walked(1, |walk| {
        lists::last_term(walk, 0);
        walk.take_all(1, &[JOIN]);
    });
    vec![
        Workload::new("random kinds, 8 nodes", &even, 8),
        Workload::new("life cycle, 8 nodes", &eight, 8),
        Workload::new("life cycle, 3 nodes", &three, 3),
        Workload::new("history filled, 8 nodes", &writes, 8),
        Workload::new("term 10,000, 1 node", &terms, 1),
    ]
}

fn walked(nodes: u8, script: impl FnOnce(&mut Walk)) -> Vec<Step> {
    let mut history = [0; HISTORY_BYTES];
    let mut walk = Walk::new(nodes, &mut history);
    script(&mut walk);
    walk.steps
}

/// One master writes until the history is full, and goes on all the same.
fn write_on(walk: &mut Walk) {
    lists::fill_history(walk, 1);
    while walk.steps.len() + 3 <= MOST_RECORDS {
        walk.take_all(1, &[SEND_WRITE, HANDLE_WRITE, RECEIVE_WRITE]);
    }
}
