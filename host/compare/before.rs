//! What must be known of the state before a step to tell what the step met.

use reference::kinds::*;
use reference::state::{row, Request, Response, Status};
use reference::switch::elect;
use reference::State;

use crate::reached::{Mark, Reached};

pub struct Before {
    kind: u8,
    node: u8,
    master: u8,
    events_full: bool,
    responses_full: bool,
    history_full: bool,
    /// The head response says that nobody is master.
    hears_not_found: bool,
    says_master: bool,
    /// The head request is an update with an id that another node holds.
    collides: bool,
    /// The head request is a write that is accepted.
    accepted: bool,
    /// It would be, if terms did not count.
    accepted_but_for_term: bool,
}

impl Before {
    /// None where the kind is unknown or the node does not fit it.
    pub fn of(state: &State, kind: u8, node: u8) -> Option<Before> {
        let whole_switch = (kind == SHUTDOWN || kind == STARTUP) && node == 0;
        let has_node = (JOIN..=HANDLE_WRITE).contains(&kind) && (1..=state.nodes).contains(&node);
        if !whole_switch && !has_node {
            return None;
        }
        let master = elect(&state.ids).0;
        let mut before = Before {
            kind,
            node,
            master,
            events_full: state.controllers.iter().any(|controller| controller.events.is_full()),
            responses_full: has_node && state.streams[row(node)].responses.is_full(),
            history_full: state.history.is_full(),
            hears_not_found: has_node && hears_not_found(state, node),
            says_master: has_node && state.controllers[row(node)].device_says_master,
            collides: false,
            accepted: false,
            accepted_but_for_term: false,
        };
        let head = if has_node { state.head_request(node) } else { None };
        match head {
            Some(Request::Update(id, _)) => {
                let mut ids = state.ids.iter().enumerate();
                before.collides = ids.any(|(other, &held)| other != row(node) && held == id);
            }
            Some(Request::Write(id, _)) => {
                before.accepted = state.accepts(node, id);
                before.accepted_but_for_term = master == node && state.ids[row(node)] == id;
            }
            None => (),
        }
        Some(before)
    }

    /// Counts what the step met: `answer` and `after` are what it gave.
    pub fn mark(&self, reached: &mut Reached, answer: u8, after: &State) {
        let done = answer == 0;
        let full = answer == 7;
        match self.kind {
            JOIN | LEAVE => {
                reached.mark(Mark::EventsFull, full);
                reached.mark(Mark::TermLimit, answer == 5);
                reached.mark(Mark::TermLimitFull, answer == 5 && self.events_full);
            }
            SEND_UPDATE | SEND_WRITE => reached.mark(Mark::RequestsFull, full),
            CLOSE => {
                reached.mark(Mark::ResponsesFull, full);
                reached.mark(Mark::MasterClosed, done && self.master == self.node);
                let nobody = self.master != 0 && elect(&after.ids).0 == 0;
                let told = after.streams.iter().any(|stream| stream.open);
                reached.mark(Mark::NobodyMaster, nobody && told);
            }
            RECEIVE_UPDATE => {
                let heard = done && self.hears_not_found;
                reached.mark(Mark::NotFoundHeard, heard);
                reached.mark(Mark::NotFoundTurnsOff, heard && self.says_master);
            }
            HANDLE_UPDATE => self.mark_update(reached, answer, elect(&after.ids).0),
            HANDLE_WRITE => self.mark_write(reached, answer),
            SHUTDOWN => reached.mark(Mark::MasterShutdown, done && self.master != 0),
            _ => (),
        }
    }

    fn mark_update(&self, reached: &mut Reached, answer: u8, master: u8) {
        let taken = answer == 0 && !self.collides;
        let collided = answer == 0 && self.collides;
        reached.mark(Mark::ResponsesFull, answer == 7);
        reached.mark(Mark::MasterChanged, taken && master != self.master);
        reached.mark(Mark::MasterKept, taken && master == self.master);
        reached.mark(Mark::Collision, collided);
        reached.mark(Mark::MasterCollision, collided && self.master == self.node);
        reached.mark(Mark::CollisionStopped, answer == 7 && self.collides);
    }

    fn mark_write(&self, reached: &mut Reached, answer: u8) {
        let denied = answer == 0 && !self.accepted;
        reached.mark(Mark::Accepted, answer == 0 && self.accepted);
        reached.mark(Mark::Denied, denied);
        reached.mark(Mark::DeniedByTerm, denied && self.accepted_but_for_term);
        reached.mark(Mark::ResponsesFull, answer == 7);
        reached.mark(Mark::HistoryFull, answer == 6);
        reached.mark(Mark::HistoryFullDenied, denied && self.history_full);
        reached.mark(Mark::HistoryFullResponses, answer == 6 && self.responses_full);
        reached.mark(Mark::HistoryFullDeniedResponses, answer == 7 && self.history_full);
    }
}

fn hears_not_found(state: &State, node: u8) -> bool {
    let head = state.streams[row(node)].responses.front();
    matches!(head, Some(Response::Update(Status::NotFound, _)))
}
