//! The steps of a list as the reference takes them.

use reference::codes::answer_byte;
use reference::limits::{HISTORY_BYTES, MOST_NODES};
use reference::mastership::ElectionId;
use reference::{State, Step};

use crate::cases::Case;

/// The ids that the switch holds.
pub type Ids = [ElectionId; MOST_NODES];

pub struct Taken {
    pub kind: u8,
    pub node: u8,
    pub answer: u8,
    pub before: Ids,
    pub after: Ids,
}

pub fn taken(case: &Case) -> Vec<Taken> {
    let mut history = [0; HISTORY_BYTES];
    let mut state = State::fresh(case.nodes, &mut history);
    let take = |&(kind, node): &Step| {
        let before = state.ids;
        let answer = answer_byte(state.step(kind, node));
        Taken { kind, node, answer, before, after: state.ids }
    };
    case.steps.iter().map(take).collect()
}
