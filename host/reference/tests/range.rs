//! The paper's "in range", held against many runs from the fresh state.

use random::Random;

use super::*;
use crate::limits::LAST_TERM;
use crate::mastership::{ElectionId, Mastership, Term, NO_ID, NO_NODE, NO_TERM};
use crate::state::{Controller, Request, Response, Status, Stream};

fn has_node(nodes: u8, node: u8) -> bool {
    (1..=nodes).contains(&node)
}

fn term_at_least(least: u16, term: Term) -> bool {
    (least..=LAST_TERM).contains(&term.0)
}

fn id_at_least(least: u16, id: ElectionId) -> bool {
    (least..=LAST_TERM + 8).contains(&id.0)
}

fn mastership(nodes: u8, held: &Mastership) -> bool {
    let backups = held.backups.as_slice();
    let distinct = (1..backups.len()).all(|i| !backups[..i].contains(&backups[i]));
    let exist = backups.iter().all(|&backup| has_node(nodes, backup) && backup != held.master);
    term_at_least(1, held.term) && has_node(nodes, held.master) && distinct && exist
}

fn service(nodes: u8, held: &Mastership) -> bool {
    let idle = held.master == NO_NODE && held.backups.as_slice().is_empty();
    mastership(nodes, held) || idle && term_at_least(0, held.term)
}

fn controller(nodes: u8, held: &Controller) -> bool {
    let learned = held.learned == Mastership::BLANK || mastership(nodes, &held.learned);
    learned && held.events.iter().all(|event| mastership(nodes, &event))
}

fn request(held: Request) -> bool {
    match held {
        Request::Update(id, term) | Request::Write(id, term) => {
            id_at_least(1, id) && term_at_least(1, term)
        }
    }
}

fn response(held: Response) -> bool {
    match held {
        Response::Update(status, id) => status != Status::PermissionDenied && id_at_least(0, id),
        Response::Write(status) => matches!(status, Status::Ok | Status::PermissionDenied),
    }
}

fn stream(state: &State, row: usize) -> bool {
    let held = &state.streams[row];
    let quiet = *held == Stream::closed() && state.ids[row] == NO_ID && state.terms[row] == NO_TERM;
    let numbers = term_at_least(0, held.term)
        && id_at_least(0, state.ids[row])
        && term_at_least(0, state.terms[row]);
    let queues = held.requests.iter().all(request) && held.responses.iter().all(response);
    quiet || held.open && state.running && numbers && queues
}

fn switch(state: &State) -> bool {
    let ids: Vec<_> = state.ids.iter().filter(|&&id| id != NO_ID).collect();
    let distinct = (1..ids.len()).all(|i| !ids[..i].contains(&ids[i]));
    let written = |(node, term)| has_node(state.nodes, node) && term_at_least(1, term);
    distinct && term_at_least(0, state.last_accepted) && state.history.iter().all(written)
}

fn in_range(state: &State) -> bool {
    let used = usize::from(state.nodes);
    let unused =
        |row: usize| state.controllers[row] == Controller::fresh() && !state.streams[row].open;
    has_node(8, state.nodes)
        && service(state.nodes, &state.service)
        && state.controllers[..used].iter().all(|held| controller(state.nodes, held))
        && (0..8).all(|row| stream(state, row))
        && (used..8).all(unused)
        && switch(state)
}

/// Everything that a step can change, to be compared.
fn contents(state: &State) -> impl PartialEq {
    let switch = (state.running, state.ids, state.terms, state.last_accepted);
    (state.service, state.controllers, state.streams, switch, state.history.len())
}

#[test]
fn steps_keep_the_range_and_refused_ones_the_state() {
    let mut random = Random::from_seed(1);
    for round in 0..200 {
        let mut state = fresh(round % 8 + 1);
        for _ in 0..1_000 {
            let kind = random.between(0, 14) as u8;
            let node = if kind >= SHUTDOWN { 0 } else { random.between(0, 8) as u8 };
            if kind == SHUTDOWN && random.percent(95) {
                continue;
            }
            let before = contents(&state);
            let outcome = state.step(kind, node);
            assert!(outcome.is_ok() || before == contents(&state));
            assert!(in_range(&state), "{state:?}");
        }
    }
}
