//! What the lists reached.

use reference::kinds::*;
use reference::mastership::{NO_ID, NO_NODE};
use reference::state::row;
use reference::switch::elect;
use trial::{marks, Counts};

use crate::taken::Taken;

const QUEUE_FULL: u8 = 7;

marks! {
    First "update that makes the first master",
    Overtaken "update by which another becomes master",
    Behind "update of another that leaves the master",
    Raised "update that gives the master a larger id",
    Repeated "update that gives the master the id that it has",
    Lowered "update that gives the master a smaller id, and leaves it master",
    Lost "update that gives the master a smaller id than another's",
    Collision "collision of another stream than the master's",
    MasterCollision "collision of the master's stream",
    MasterClosed "close of the master, with another behind it",
    NobodyLeft "close of the master, with nobody left",
    OtherClosed "close of another that holds an id",
    UpdateStopped "update refused for a full queue",
    CloseStopped "close of the master, refused for a full queue",
    Shutdown "shutdown with a master",
    Startup "startup",
    Refused "step refused while there is a master",
}

pub struct Reached(Counts);

impl Reached {
    pub fn nothing() -> Self {
        Reached(Counts::of(NAMES))
    }

    /// Prints all counts and returns how many are missing.
    pub fn print(&self) -> usize {
        self.0.print();
        self.0.print_missing(&[])
    }

    pub fn watch(&mut self, step: &Taken) {
        let master = elect(&step.before).0;
        let done = step.answer == 0;
        self.0.mark(Mark::Refused, !done && master != NO_NODE);
        match step.kind {
            HANDLE_UPDATE if done => self.watch_update(step),
            CLOSE if done => self.watch_close(step),
            CLOSE => {
                let stopped = step.answer == QUEUE_FULL && master == step.node;
                self.0.mark(Mark::CloseStopped, stopped);
            }
            HANDLE_UPDATE => self.0.mark(Mark::UpdateStopped, step.answer == QUEUE_FULL),
            SHUTDOWN => self.0.mark(Mark::Shutdown, done && master != NO_NODE),
            STARTUP => self.0.mark(Mark::Startup, done),
            _ => (),
        }
    }

    fn watch_update(&mut self, step: &Taken) {
        let (master, next) = (elect(&step.before).0, elect(&step.after).0);
        let (before, after) = (step.before[row(step.node)], step.after[row(step.node)]);
        let of_master = master == step.node;
        if after == NO_ID {
            let mark = if of_master { Mark::MasterCollision } else { Mark::Collision };
            return self.0.mark(mark, true);
        }
        self.0.mark(Mark::First, master == NO_NODE);
        self.0.mark(Mark::Overtaken, master != NO_NODE && !of_master && next == step.node);
        self.0.mark(Mark::Behind, !of_master && next == master);
        self.0.mark(Mark::Raised, of_master && after > before);
        self.0.mark(Mark::Repeated, of_master && after == before);
        self.0.mark(Mark::Lowered, of_master && after < before && next == master);
        self.0.mark(Mark::Lost, of_master && next != master);
    }

    fn watch_close(&mut self, step: &Taken) {
        let (master, next) = (elect(&step.before).0, elect(&step.after).0);
        let of_master = master == step.node;
        self.0.mark(Mark::MasterClosed, of_master && next != NO_NODE);
        self.0.mark(Mark::NobodyLeft, of_master && next == NO_NODE);
        self.0.mark(Mark::OtherClosed, !of_master && step.before[row(step.node)] != NO_ID);
    }
}
