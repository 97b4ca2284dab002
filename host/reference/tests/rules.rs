//! The rules on given states, with the clauses that no list can tell apart.

use super::*;
use crate::mastership::{ElectionId, Mastership, Term, NO_ID, NO_NODE, NO_TERM};
use crate::state::{Request, Response, Status};

#[test]
fn kinds_and_nodes_that_do_not_exist() {
    let mut state = fresh(3);
    for kind in JOIN..=HANDLE_WRITE {
        assert_eq!(play(&mut state, &[(kind, 0), (kind, 4), (kind, 255)]), [3, 3, 3]);
    }
    let outside = [(0, 1), (0, 99), (14, 0), (255, 255), (SHUTDOWN, 1), (STARTUP, 255)];
    assert_eq!(play(&mut state, &outside), [2, 2, 2, 2, 3, 3]);
    assert_eq!(state, fresh(3));
}

#[test]
fn joining_and_leaving() {
    let mut state = fresh(3);
    must(&mut state, &[(JOIN, 2), (JOIN, 1), (JOIN, 3)]);
    assert_eq!(play(&mut state, &[(JOIN, 2), (JOIN, 1)]), [4, 4]);
    assert_eq!(state.service.backups.as_slice(), [1, 3]);
    assert_eq!(state.controllers[0].events.len(), 3);
    must(&mut state, &[(LEAVE, 1)]);
    assert_eq!(state.controllers[0].events.len(), 3);
    assert_eq!(play(&mut state, &[(LEAVE, 1)]), [4]);
    must(&mut state, &[(LEAVE, 2)]);
    assert_eq!((state.service.master, state.service.term), (3, Term(2)));
    assert_eq!(state.controllers[2].events.iter().last(), Some(state.service));
    must(&mut state, &[(LEAVE, 3)]);
    assert_eq!((state.service.master, state.service.term), (NO_NODE, Term(2)));
    assert_eq!(state.controllers[0].events.len(), 4);
}

#[test]
fn any_full_event_queue_stops_a_post() {
    for full in [1, 2] {
        let mut state = fresh(2);
        must(&mut state, &[(JOIN, 1), (JOIN, 2)]);
        let event = state.service;
        for _ in 2..QUEUE_CAPACITY {
            state.controllers[full - 1].events.push(event);
        }
        assert_eq!(play(&mut state, &[(LEAVE, 1)]), [7]);
        assert_eq!(state.service, event);
        assert_eq!(play(&mut state, &[(LEAVE, 2), (LEAVE, 1), (JOIN, 1)]), [0, 0, 7]);
    }
}

#[test]
fn an_older_event_is_not_learned() {
    let mut state = fresh(1);
    must(&mut state, &[(JOIN, 1)]);
    let event = state.service;
    state.controllers[0].learned = Mastership { term: Term(2), ..event };
    assert_eq!(play(&mut state, &[(LEARN, 1)]), [4]);
    state.controllers[0].learned.term = Term(1);
    must(&mut state, &[(LEARN, 1)]);
    assert_eq!(state.controllers[0].learned, event);
}

#[test]
fn an_update_is_sent_once_a_term_and_stream() {
    let mut state = fresh(2);
    assert_eq!(play(&mut state, &[(CONNECT, 1), (SEND_UPDATE, 1)]), [0, 4]);
    must(&mut state, &[(JOIN, 1), (LEARN, 1), (LEARN, 2), (CONNECT, 2)]);
    let sends = [(SEND_UPDATE, 2), (SEND_UPDATE, 1), (SEND_UPDATE, 1)];
    assert_eq!(play(&mut state, &sends), [4, 0, 4]);
    must(&mut state, &[(CLOSE, 1)]);
    assert_eq!(play(&mut state, &[(SEND_UPDATE, 1)]), [4]);
    must(&mut state, &[(CONNECT, 1), (SEND_UPDATE, 1)]);
}

#[test]
fn the_device_says_master_by_four_clauses() {
    let receive = |change: &dyn Fn(&mut State)| {
        let mut state = fresh(2);
        must(&mut state, &[(JOIN, 1), (LEARN, 1), (CONNECT, 1)]);
        state.streams[0].term = Term(1);
        state.streams[0].responses.push(Response::Update(Status::Ok, ElectionId(3)));
        change(&mut state);
        must(&mut state, &[(RECEIVE_UPDATE, 1)]);
        state.controllers[0].device_says_master
    };
    let swap = |state: &mut State, response| {
        state.streams[0].responses.drop_front();
        state.streams[0].responses.push(response);
    };
    assert!(receive(&|_| ()));
    assert!(!receive(&|s| swap(s, Response::Update(Status::AlreadyExists, ElectionId(3)))));
    assert!(!receive(&|s| swap(s, Response::Update(Status::NotFound, ElectionId(3)))));
    assert!(!receive(&|s| swap(s, Response::Update(Status::Ok, ElectionId(2)))));
    assert!(!receive(&|s| s.controllers[0].learned.master = 2));
    assert!(!receive(&|s| s.streams[0].term = NO_TERM));
}

#[test]
fn a_write_is_sent_by_a_master_that_was_told() {
    let mut state = fresh(1);
    must(&mut state, &[(JOIN, 1), (LEARN, 1), (CONNECT, 1)]);
    assert_eq!(play(&mut state, &[(SEND_WRITE, 1)]), [4]);
    must(&mut state, &[(SEND_UPDATE, 1), (HANDLE_UPDATE, 1), (RECEIVE_UPDATE, 1)]);
    for _ in 0..QUEUE_CAPACITY {
        must(&mut state, &[(SEND_WRITE, 1)]);
    }
    assert_eq!(play(&mut state, &[(SEND_WRITE, 1)]), [7]);
    must(&mut state, &[(LEAVE, 1), (JOIN, 1), (LEARN, 1)]);
    assert_eq!(play(&mut state, &[(SEND_UPDATE, 1), (RECEIVE_WRITE, 1)]), [7, 4]);
    assert_eq!(state.streams[0].term, Term(1));
    must(&mut state, &[(HANDLE_WRITE, 1), (SEND_UPDATE, 1)]);
    assert_eq!(play(&mut state, &[(RECEIVE_UPDATE, 1), (RECEIVE_WRITE, 1)]), [4, 0]);
    must(&mut state, &[(CLOSE, 1)]);
    assert_eq!(play(&mut state, &[(SEND_WRITE, 1)]), [4]);
}

#[test]
fn flags_outlive_streams() {
    let mut state = first_master(1);
    must(&mut state, &[(SHUTDOWN, 0), (STARTUP, 0), (CONNECT, 1), (SEND_WRITE, 1)]);
    must(&mut state, &[(HANDLE_WRITE, 1)]);
    assert_eq!(state.history.len(), 0);
}

#[test]
fn a_stopped_switch_takes_nothing() {
    let mut state = first_master(1);
    must(&mut state, &[(SHUTDOWN, 0)]);
    let refused = [CONNECT, CLOSE, HANDLE_UPDATE, HANDLE_WRITE, SEND_WRITE];
    for kind in refused {
        assert_eq!(play(&mut state, &[(kind, 1)]), [4]);
    }
    assert_eq!(play(&mut state, &[(SHUTDOWN, 0), (STARTUP, 0), (STARTUP, 0)]), [4, 0, 4]);
}

/// Nodes 1 to 3 hold ids 5, 4 and none; all streams are open and quiet.
fn three_streams() -> State<'static> {
    let mut state = fresh(3);
    must(&mut state, &[(CONNECT, 1), (CONNECT, 2), (CONNECT, 3)]);
    state.ids[0] = ElectionId(5);
    state.ids[1] = ElectionId(4);
    state
}

fn told(state: &State) -> Vec<usize> {
    state.streams[..3].iter().map(|stream| stream.responses.len()).collect()
}

#[test]
fn closing_tells_only_where_the_master_changed() {
    let mut state = three_streams();
    must(&mut state, &[(CLOSE, 2)]);
    assert_eq!(told(&state), [0, 0, 0]);
    must(&mut state, &[(CLOSE, 1)]);
    assert_eq!(told(&state), [0, 0, 1]);
    let nobody = Response::Update(Status::NotFound, NO_ID);
    assert_eq!(state.streams[2].responses.front(), Some(nobody));
    let mut state = three_streams();
    must(&mut state, &[(CLOSE, 1)]);
    assert_eq!(told(&state), [0, 1, 1]);
    let promoted = Response::Update(Status::Ok, ElectionId(4));
    assert_eq!(state.streams[1].responses.front(), Some(promoted));
}

#[test]
fn closing_is_all_or_nothing() {
    let mut state = three_streams();
    fill_responses(&mut state, 3);
    assert_eq!(play(&mut state, &[(CLOSE, 1)]), [7]);
    assert_eq!(told(&state), [0, 0, 8]);
    assert_eq!(state.ids[0], ElectionId(5));
    fill_responses(&mut state, 2);
    assert_eq!(play(&mut state, &[(CLOSE, 2), (CLOSE, 3), (CLOSE, 1)]), [0, 0, 0]);
}

#[test]
fn handling_an_update_tells_one_or_all() {
    let update = |node: usize, id| {
        let mut state = three_streams();
        state.streams[node - 1].requests.push(Request::Update(ElectionId(id), Term(2)));
        must(&mut state, &[(HANDLE_UPDATE, node as u8)]);
        assert_eq!((state.ids[node - 1], state.terms[node - 1]), (ElectionId(id), Term(2)));
        (told(&state), state.streams[node - 1].responses.front().unwrap())
    };
    let existing = |id| Response::Update(Status::AlreadyExists, ElectionId(id));
    let ok = |id| Response::Update(Status::Ok, ElectionId(id));
    assert_eq!(update(3, 3), (vec![0, 0, 1], existing(5)));
    assert_eq!(update(3, 6), (vec![1, 1, 1], ok(6)));
    assert_eq!(update(1, 7), (vec![1, 0, 0], ok(7)));
    assert_eq!(update(1, 5), (vec![1, 0, 0], ok(5)));
    assert_eq!(update(1, 2), (vec![1, 1, 1], existing(4)));
}

#[test]
fn full_responses_stop_an_update() {
    let answer = |full: u8, id| {
        let mut state = three_streams();
        state.streams[2].requests.push(Request::Update(ElectionId(id), Term(2)));
        fill_responses(&mut state, full);
        play(&mut state, &[(HANDLE_UPDATE, 3)])
    };
    assert_eq!([answer(3, 3), answer(1, 3)], [[7], [0]]);
    assert_eq!([answer(3, 6), answer(1, 6), answer(2, 6)], [[7], [7], [7]]);
    assert_eq!([answer(3, 5), answer(1, 5)], [[0], [0]]);
}

#[test]
fn a_collision_of_the_master_can_be_blocked() {
    let mut state = three_streams();
    state.streams[0].requests.push(Request::Update(ElectionId(4), Term(2)));
    fill_responses(&mut state, 3);
    assert_eq!(play(&mut state, &[(HANDLE_UPDATE, 1)]), [7]);
    assert!(state.streams[0].open);
    fill_responses(&mut state, 1);
    must(&mut state, &[(RECEIVE_WRITE, 3), (HANDLE_UPDATE, 1)]);
    assert!(!state.streams[0].open);
}

#[test]
fn a_write_is_accepted_by_three_clauses() {
    let accepted = |change: &dyn Fn(&mut State)| {
        let mut state = three_streams();
        state.terms[0] = Term(3);
        state.last_accepted = Term(3);
        state.streams[0].requests.push(Request::Write(ElectionId(5), Term(9)));
        change(&mut state);
        must(&mut state, &[(HANDLE_WRITE, 1)]);
        (state.history.iter().last(), state.last_accepted)
    };
    assert_eq!(accepted(&|_| ()), (Some((1, Term(9))), Term(3)));
    assert_eq!(accepted(&|s| s.terms[0] = Term(4)), (Some((1, Term(9))), Term(4)));
    assert_eq!(accepted(&|s| s.ids[0] = ElectionId(6)), (None, Term(3)));
    assert_eq!(accepted(&|s| s.ids[2] = ElectionId(6)), (None, Term(3)));
    assert_eq!(accepted(&|s| s.terms[0] = Term(2)), (None, Term(3)));
    assert_eq!(accepted(&|s| s.terms[0] = NO_TERM), (None, Term(3)));
}

#[test]
fn heads_of_another_kind_are_not_taken() {
    let mut state = three_streams();
    state.streams[0].requests.push(Request::Write(ElectionId(5), Term(1)));
    state.streams[1].requests.push(Request::Update(ElectionId(4), Term(1)));
    assert_eq!(play(&mut state, &[(HANDLE_UPDATE, 1), (HANDLE_WRITE, 2)]), [4, 4]);
    assert_eq!(play(&mut state, &[(HANDLE_UPDATE, 3), (HANDLE_WRITE, 3)]), [4, 4]);
    must(&mut state, &[(HANDLE_WRITE, 1), (HANDLE_UPDATE, 2)]);
    assert_eq!(play(&mut state, &[(RECEIVE_UPDATE, 1), (RECEIVE_WRITE, 2)]), [4, 4]);
}
