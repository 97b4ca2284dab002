//! Tests of the reference, by the headings of the scope paper.

mod independent;
mod lists;
mod range;
mod rules;
mod situations;

use crate::codes::answer_byte;
use crate::kinds::*;
use crate::limits::{HISTORY_BYTES, QUEUE_CAPACITY};
use crate::State;
use crate::Step;

/// A node that has learned of its mastership becomes the switch's master and
/// is told so.
pub const WIN_SWITCH: [u8; 4] = [CONNECT, SEND_UPDATE, HANDLE_UPDATE, RECEIVE_UPDATE];
pub const WRITE: [u8; 3] = [SEND_WRITE, HANDLE_WRITE, RECEIVE_WRITE];

pub fn fresh(nodes: u8) -> State<'static> {
    State::fresh(nodes, vec![0; HISTORY_BYTES].leak())
}

pub fn play(state: &mut State, steps: &[Step]) -> Vec<u8> {
    steps.iter().map(|&(kind, node)| answer_byte(state.step(kind, node))).collect()
}

/// Steps that must all be done.
pub fn must(state: &mut State, steps: &[Step]) {
    for &(kind, node) in steps {
        assert_eq!(state.step(kind, node), Ok(()), "kind {kind}, node {node}");
    }
}

/// Kinds for one node that must all be done.
pub fn must_all(state: &mut State, node: u8, kinds: &[u8]) {
    for &kind in kinds {
        must(state, &[(kind, node)]);
    }
}

pub fn learn_all(state: &mut State, node: u8) {
    while state.step(LEARN, node).is_ok() {}
}

/// Node 1 of `nodes` is master of term 1, on the service and on the switch.
pub fn first_master(nodes: u8) -> State<'static> {
    let mut state = fresh(nodes);
    must(&mut state, &[(JOIN, 1), (LEARN, 1)]);
    must_all(&mut state, 1, &WIN_SWITCH);
    state
}

/// Two nodes; node 1 wins term 1 and sends a write that waits, node 2 takes
/// over in term 2 and has learned so.
pub fn master_replaced() -> State<'static> {
    let mut state = first_master(2);
    must(&mut state, &[(SEND_WRITE, 1), (JOIN, 2), (LEAVE, 1)]);
    learn_all(&mut state, 2);
    state
}

pub fn fill_responses(state: &mut State, node: u8) {
    let stream = &mut state.streams[crate::state::row(node)];
    let denied = crate::state::Response::Write(crate::state::Status::PermissionDenied);
    while stream.responses.len() < QUEUE_CAPACITY {
        stream.responses.push(denied);
    }
}
