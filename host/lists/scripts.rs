//! Scripts that lead a walk where chance seldom does.

use reference::kinds::*;
use reference::limits::{HISTORY_CAPACITY, LAST_TERM, QUEUE_CAPACITY};
use reference::mastership::NO_NODE;

use crate::Walk;

/// The node becomes the service's master in place of another one, if there is
/// one, and then the switch's.
pub fn take_over(walk: &mut Walk, node: u8) {
    let master = walk.state.service.master;
    let _ = walk.take(JOIN, node);
    if master != NO_NODE && master != node {
        let _ = walk.take(LEAVE, master);
    }
    claim(walk, node);
}

/// The node learns all that there is and asks the switch for the id that this gives it.
pub fn claim(walk: &mut Walk, node: u8) {
    walk.exhaust(LEARN, node);
    walk.take_all(node, &[CONNECT, SEND_UPDATE, HANDLE_UPDATE, RECEIVE_UPDATE]);
}

/// A master writes until the history is full. The responses to the last eight
/// writes are left waiting.
pub fn fill_history(walk: &mut Walk, node: u8) {
    take_over(walk, node);
    while walk.state.history.len() < HISTORY_CAPACITY - QUEUE_CAPACITY {
        walk.take_all(node, &[SEND_WRITE, HANDLE_WRITE, RECEIVE_WRITE]);
    }
    write_unread(walk, node);
}

/// Eight writes are handled and their responses left waiting.
pub fn write_unread(walk: &mut Walk, node: u8) {
    for _ in 0..QUEUE_CAPACITY {
        walk.take_all(node, &[SEND_WRITE, HANDLE_WRITE]);
    }
}

/// One node joins, learns and leaves until the last term is over. The events of
/// the last `unlearned` terms are left waiting.
pub fn last_term(walk: &mut Walk, unlearned: u16) {
    for term in 1..=LAST_TERM {
        let _ = walk.take(JOIN, 1);
        if term + unlearned <= LAST_TERM {
            let _ = walk.take(LEARN, 1);
        }
        let _ = walk.take(LEAVE, 1);
    }
}
