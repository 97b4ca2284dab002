//! The state and the choice of the rule for a step.

use crate::codes::{ensure, Outcome, Refusal};
use crate::history::History;
use crate::kinds::*;
use crate::limits::MOST_NODES;
use crate::mastership::{ElectionId, Mastership, Term, NO_ID, NO_TERM};
use crate::queue::Queue;

#[derive(PartialEq, Debug)]
pub struct State<'a> {
    pub nodes: u8,
    pub service: Mastership,
    pub controllers: [Controller; MOST_NODES],
    pub streams: [Stream; MOST_NODES],
    pub running: bool,
    pub ids: [ElectionId; MOST_NODES],
    pub terms: [Term; MOST_NODES],
    pub last_accepted: Term,
    pub history: History<'a>,
}

#[derive(Clone, Copy, PartialEq, Debug)]
pub struct Controller {
    pub events: Queue<Mastership>,
    pub learned: Mastership,
    pub device_says_master: bool,
}

#[derive(Clone, Copy, PartialEq, Debug)]
pub struct Stream {
    pub open: bool,
    pub term: Term,
    pub requests: Queue<Request>,
    pub responses: Queue<Response>,
}

#[derive(Clone, Copy, PartialEq, Debug)]
pub enum Request {
    Update(ElectionId, Term),
    Write(ElectionId, Term),
}

#[derive(Clone, Copy, PartialEq, Debug)]
pub enum Response {
    Update(Status, ElectionId),
    Write(Status),
}

#[derive(Clone, Copy, PartialEq, Debug)]
pub enum Status {
    Ok,
    AlreadyExists,
    NotFound,
    PermissionDenied,
}

/// Where a node's rows are. Nodes count from 1.
pub fn row(node: u8) -> usize {
    usize::from(node) - 1
}

impl Controller {
    pub fn fresh() -> Self {
        Controller { events: Queue::empty(), learned: Mastership::BLANK, device_says_master: false }
    }
}

impl Stream {
    pub fn closed() -> Self {
        Stream { open: false, term: NO_TERM, requests: Queue::empty(), responses: Queue::empty() }
    }

    /// The first request, if the stream is open.
    pub fn head_request(&self) -> Option<Request> {
        self.requests.front().filter(|_| self.open)
    }

    /// The first response, if the stream is open.
    pub fn head_response(&self) -> Option<Response> {
        self.responses.front().filter(|_| self.open)
    }
}

impl<'a> State<'a> {
    /// The fresh state of 1 to 8 nodes, with the bytes that take the history.
    pub fn fresh(nodes: u8, history: &'a mut [u8]) -> Self {
        State {
            nodes,
            service: Mastership::BLANK,
            controllers: [Controller::fresh(); MOST_NODES],
            streams: [Stream::closed(); MOST_NODES],
            running: true,
            ids: [NO_ID; MOST_NODES],
            terms: [NO_TERM; MOST_NODES],
            last_accepted: NO_TERM,
            history: History::empty(history),
        }
    }

    pub fn step(&mut self, kind: u8, node: u8) -> Outcome {
        let fits = match kind {
            JOIN..=HANDLE_WRITE => (1..=self.nodes).contains(&node),
            SHUTDOWN | STARTUP => node == 0,
            _ => return Err(Refusal::UnknownKind),
        };
        ensure(fits, Refusal::WrongNode)?;
        match kind {
            JOIN => self.join(node),
            LEAVE => self.leave(node),
            LEARN => self.learn(node),
            SEND_UPDATE => self.send_update(node),
            RECEIVE_UPDATE => self.receive_update(node),
            SEND_WRITE => self.send_write(node),
            RECEIVE_WRITE => self.receive_write(node),
            CONNECT => self.connect(node),
            CLOSE => self.close(node),
            HANDLE_UPDATE => self.handle_update(node),
            HANDLE_WRITE => self.handle_write(node),
            SHUTDOWN => self.shutdown(),
            _ => self.startup(),
        }
    }
}
