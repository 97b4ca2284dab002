//! Which steps are independent of one another.

use crate::kinds::*;
use crate::Step;

#[derive(Clone, Copy)]
enum Class {
    Service,
    Learn,
    Send,
    Receive,
    Switch,
}

/// Whether two steps among so many nodes are on the paper's list, in either
/// order. A step of an unknown kind, or with a node that its kind does not call
/// for, is independent of nothing.
pub fn independent(nodes: u8, one: Step, two: Step) -> bool {
    match (class(nodes, one), class(nodes, two)) {
        (Some(first), Some(second)) => {
            let apart = one.1 != two.1;
            listed(first, second, two.0, apart) || listed(second, first, one.0, apart)
        }
        _ => false,
    }
}

fn class(nodes: u8, (kind, node): Step) -> Option<Class> {
    let class = match kind {
        JOIN | LEAVE => Class::Service,
        LEARN => Class::Learn,
        SEND_UPDATE | SEND_WRITE => Class::Send,
        RECEIVE_UPDATE | RECEIVE_WRITE => Class::Receive,
        CONNECT..=STARTUP => Class::Switch,
        _ => return None,
    };
    let whole_switch = kind == SHUTDOWN || kind == STARTUP;
    let called_for = if whole_switch { node == 0 } else { (1..=nodes).contains(&node) };
    called_for.then_some(class)
}

/// The list (a) to (f), in one order; `kind` is that of the second step.
fn listed(one: Class, two: Class, kind: u8, apart: bool) -> bool {
    use Class::*;
    match (one, two) {
        (Learn | Send | Receive, Learn | Send | Receive) => apart,
        (Service, Send | Receive | Switch) | (Learn, Switch) => true,
        (Send, Switch) => apart && (CONNECT..=HANDLE_WRITE).contains(&kind),
        (Receive, Switch) => apart && (kind == CONNECT || kind == HANDLE_WRITE),
        _ => false,
    }
}
