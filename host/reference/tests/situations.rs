//! The paper's small situations and its list of what is easy to get wrong.

use super::*;
use crate::limits::{HISTORY_CAPACITY, LAST_TERM};
use crate::mastership::{ElectionId, Term, NO_ID, NO_TERM};
use crate::state::{Request, Response, Status};
use crate::switch::elect;

#[test]
fn second_backup_sends_id_two() {
    let mut state = fresh(2);
    must(&mut state, &[(JOIN, 1), (JOIN, 2), (LEARN, 2), (LEARN, 2), (CONNECT, 2)]);
    must(&mut state, &[(SEND_UPDATE, 2)]);
    let sent = Request::Update(ElectionId(2), Term(1));
    assert_eq!(state.streams[1].requests.front(), Some(sent));
    assert_eq!(state.streams[1].term, Term(1));
}

#[test]
fn ninth_join_finds_a_full_queue() {
    let mut state = fresh(1);
    for _ in 0..QUEUE_CAPACITY {
        must(&mut state, &[(JOIN, 1), (LEAVE, 1)]);
    }
    assert_eq!(play(&mut state, &[(JOIN, 1), (LEARN, 1), (JOIN, 1)]), [7, 0, 0]);
}

#[test]
fn the_last_term() {
    let mut state = fresh(1);
    state.service.term = Term(LAST_TERM - 1);
    must(&mut state, &[(JOIN, 1), (LEAVE, 1)]);
    assert_eq!(state.service.term, Term(LAST_TERM));
    assert_eq!(play(&mut state, &[(JOIN, 1)]), [5]);
    while !state.controllers[0].events.is_full() {
        state.controllers[0].events.push(state.controllers[0].events.front().unwrap());
    }
    assert_eq!(play(&mut state, &[(JOIN, 1)]), [5]);
    state.service.term = Term(LAST_TERM - 1);
    assert_eq!(play(&mut state, &[(JOIN, 1)]), [7]);
}

#[test]
fn the_last_term_when_the_master_leaves() {
    let mut state = fresh(2);
    must(&mut state, &[(JOIN, 1), (JOIN, 2)]);
    state.service.term = Term(LAST_TERM);
    assert_eq!(play(&mut state, &[(LEAVE, 1)]), [5]);
    assert_eq!(play(&mut state, &[(LEAVE, 2), (LEAVE, 1), (JOIN, 2)]), [0, 0, 5]);
}

#[test]
fn connect_twice_and_shutdown_of_a_node() {
    assert_eq!(play(&mut fresh(1), &[(CONNECT, 1), (CONNECT, 1), (SHUTDOWN, 1)]), [0, 4, 3]);
}

#[test]
fn a_collided_stream_closes_and_leaves_the_election() {
    let mut state = first_master(3);
    assert_eq!(state.ids[0], ElectionId(4));
    must(&mut state, &[(JOIN, 2), (JOIN, 3), (LEAVE, 1), (CONNECT, 3)]);
    learn_all(&mut state, 3);
    must(&mut state, &[(SEND_UPDATE, 3)]);
    assert_eq!(state.head_request(3), Some(Request::Update(ElectionId(4), Term(2))));
    must(&mut state, &[(HANDLE_UPDATE, 3)]);
    assert!(!state.streams[2].open);
    assert_eq!((state.ids[2], state.terms[2]), (NO_ID, NO_TERM));
    assert!(state.streams[2].requests.is_empty());
    assert_eq!(elect(&state.ids), (1, ElectionId(4)));
}

#[test]
fn a_collision_takes_the_old_id_out_of_the_election() {
    let mut state = first_master(3);
    must(&mut state, &[(CONNECT, 3)]);
    state.ids[2] = ElectionId(9);
    state.streams[2].requests.push(Request::Update(ElectionId(4), Term(2)));
    must(&mut state, &[(HANDLE_UPDATE, 3)]);
    assert_eq!(state.ids[2], NO_ID);
    let told = Response::Update(Status::Ok, ElectionId(4));
    assert_eq!(state.streams[0].responses.front(), Some(told));
}

#[test]
fn the_replaced_master_is_denied() {
    let mut state = master_replaced();
    must_all(&mut state, 2, &WIN_SWITCH);
    must_all(&mut state, 2, &WRITE);
    must(&mut state, &[(CLOSE, 2)]);
    assert_eq!(elect(&state.ids), (1, ElectionId(3)));
    must(&mut state, &[(HANDLE_WRITE, 1)]);
    assert_eq!(state.history.iter().collect::<Vec<_>>(), [(2, Term(2))]);
    let last = state.streams[0].responses.iter().last();
    assert_eq!(last, Some(Response::Write(Status::PermissionDenied)));
}

#[test]
fn shutdown_keeps_the_last_accepted_term() {
    let mut state = master_replaced();
    must_all(&mut state, 2, &WIN_SWITCH);
    must_all(&mut state, 2, &WRITE);
    must(&mut state, &[(SHUTDOWN, 0), (STARTUP, 0)]);
    assert_eq!((state.last_accepted, state.history.len()), (Term(2), 1));
    must_all(&mut state, 1, &WIN_SWITCH);
    must_all(&mut state, 1, &WRITE);
    assert_eq!(state.history.len(), 1);
}

#[test]
fn a_new_master_is_told_to_all() {
    let mut state = master_replaced();
    must_all(&mut state, 2, &[CONNECT, SEND_UPDATE, HANDLE_UPDATE]);
    let heads: Vec<_> = state.streams[..2].iter().map(|s| s.responses.front()).collect();
    let told = |status| Some(Response::Update(status, ElectionId(4)));
    assert_eq!(heads, [told(Status::AlreadyExists), told(Status::Ok)]);
    must(&mut state, &[(RECEIVE_UPDATE, 1)]);
    assert!(!state.controllers[0].device_says_master);
}

#[test]
fn without_a_master_the_others_are_told_so() {
    let mut state = first_master(2);
    must(&mut state, &[(CONNECT, 2), (CLOSE, 1)]);
    let told = Response::Update(Status::NotFound, NO_ID);
    assert_eq!(state.streams[1].responses.front(), Some(told));
    state.controllers[1].device_says_master = true;
    must(&mut state, &[(RECEIVE_UPDATE, 2)]);
    assert!(!state.controllers[1].device_says_master);
}

#[test]
fn learn_and_join_do_not_change_places() {
    assert_eq!(play(&mut fresh(2), &[(LEARN, 1), (JOIN, 2)]), [4, 0]);
    assert_eq!(play(&mut fresh(2), &[(JOIN, 2), (LEARN, 1)]), [0, 0]);
}

#[test]
fn a_full_history() {
    let mut state = first_master(2);
    for _ in 0..HISTORY_CAPACITY {
        must_all(&mut state, 1, &WRITE);
    }
    must(&mut state, &[(SEND_WRITE, 1)]);
    assert_eq!(play(&mut state, &[(HANDLE_WRITE, 1)]), [6]);
    fill_responses(&mut state, 1);
    assert_eq!(play(&mut state, &[(HANDLE_WRITE, 1)]), [6]);
    state.ids[0] = NO_ID;
    assert_eq!(play(&mut state, &[(HANDLE_WRITE, 1)]), [7]);
    must(&mut state, &[(RECEIVE_WRITE, 1), (HANDLE_WRITE, 1)]);
    assert_eq!(state.history.len(), HISTORY_CAPACITY);
}
