//! Steps of the switch and its streams: kinds 8 to 13.

use std::ops::Range;

use crate::codes::{ensure, Outcome, Refusal};
use crate::limits::MOST_NODES;
use crate::mastership::{ElectionId, NO_ID, NO_NODE, NO_TERM};
use crate::state::{row, Request, Response, State, Status, Stream};

/// The switch's master, or no node, and the largest id.
pub fn elect(ids: &[ElectionId; MOST_NODES]) -> (u8, ElectionId) {
    let mut elected = (NO_NODE, NO_ID);
    for (row, &id) in ids.iter().enumerate() {
        if id > elected.1 {
            elected = (row as u8 + 1, id);
        }
    }
    elected
}

impl State<'_> {
    pub(crate) fn connect(&mut self, node: u8) -> Outcome {
        let stream = &mut self.streams[row(node)];
        ensure(self.running && !stream.open, Refusal::NotAllowed)?;
        stream.open = true;
        Ok(())
    }

    pub(crate) fn close(&mut self, node: u8) -> Outcome {
        ensure(self.streams[row(node)].open, Refusal::NotAllowed)?;
        self.drop_stream(node)
    }

    /// The effect of Close, which a collision has too. It tells all or nobody.
    fn drop_stream(&mut self, node: u8) -> Outcome {
        let left = self.ids_with(node, NO_ID);
        let (master, largest) = elect(&left);
        let changed = master != elect(&self.ids).0;
        let others = self.rows().filter(|&other| other != row(node));
        ensure(!changed || self.has_room(others), Refusal::QueueFull)?;
        self.ids = left;
        self.terms[row(node)] = NO_TERM;
        self.streams[row(node)] = Stream::closed();
        if changed {
            self.tell(self.rows(), master, largest);
        }
        Ok(())
    }

    pub(crate) fn handle_update(&mut self, node: u8) -> Outcome {
        let (id, term) = match self.head_request(node) {
            Some(Request::Update(id, term)) => (id, term),
            _ => return Err(Refusal::NotAllowed),
        };
        if self.rows().any(|other| other != row(node) && self.ids[other] == id) {
            return self.drop_stream(node);
        }
        let ids = self.ids_with(node, id);
        let (master, largest) = elect(&ids);
        let changed = master != elect(&self.ids).0;
        let told = if changed { self.rows() } else { row(node)..row(node) + 1 };
        ensure(self.has_room(told.clone()), Refusal::QueueFull)?;
        self.streams[row(node)].requests.drop_front();
        self.ids = ids;
        self.terms[row(node)] = term;
        self.tell(told, master, largest);
        Ok(())
    }

    pub(crate) fn handle_write(&mut self, node: u8) -> Outcome {
        let (id, term) = match self.head_request(node) {
            Some(Request::Write(id, term)) => (id, term),
            _ => return Err(Refusal::NotAllowed),
        };
        let accepted = self.accepts(node, id);
        ensure(!accepted || !self.history.is_full(), Refusal::HistoryFull)?;
        let stream = &mut self.streams[row(node)];
        ensure(!stream.responses.is_full(), Refusal::QueueFull)?;
        stream.requests.drop_front();
        let status = if accepted { Status::Ok } else { Status::PermissionDenied };
        stream.responses.push(Response::Write(status));
        if accepted {
            self.last_accepted = self.terms[row(node)];
            self.history.push(node, term);
        }
        Ok(())
    }

    /// Whether the switch accepts a write of `node` that carries `id`.
    pub fn accepts(&self, node: u8, id: ElectionId) -> bool {
        self.ids[row(node)] == id
            && elect(&self.ids).0 == node
            && self.terms[row(node)] >= self.last_accepted
    }

    pub(crate) fn shutdown(&mut self) -> Outcome {
        ensure(self.running, Refusal::NotAllowed)?;
        self.running = false;
        self.ids = [NO_ID; MOST_NODES];
        self.terms = [NO_TERM; MOST_NODES];
        for row in self.rows() {
            self.streams[row] = Stream::closed();
        }
        Ok(())
    }

    pub(crate) fn startup(&mut self) -> Outcome {
        ensure(!self.running, Refusal::NotAllowed)?;
        self.running = true;
        Ok(())
    }

    fn rows(&self) -> Range<usize> {
        0..usize::from(self.nodes)
    }

    /// The request that the switch may handle next, which is none while it is
    /// stopped.
    pub fn head_request(&self, node: u8) -> Option<Request> {
        if self.running {
            self.streams[row(node)].head_request()
        } else {
            None
        }
    }

    fn ids_with(&self, node: u8, id: ElectionId) -> [ElectionId; MOST_NODES] {
        let mut ids = self.ids;
        ids[row(node)] = id;
        ids
    }

    /// Whether every open stream of these rows can take a response.
    fn has_room(&self, mut rows: impl Iterator<Item = usize>) -> bool {
        rows.all(|row| !self.streams[row].open || !self.streams[row].responses.is_full())
    }

    /// Gives every open stream of these rows an update response.
    fn tell(&mut self, rows: Range<usize>, master: u8, largest: ElectionId) {
        for told in rows {
            let stream = &mut self.streams[told];
            if stream.open {
                let status = match master {
                    NO_NODE => Status::NotFound,
                    node if row(node) == told => Status::Ok,
                    _ => Status::AlreadyExists,
                };
                stream.responses.push(Response::Update(status, largest));
            }
        }
    }
}
