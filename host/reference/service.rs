//! Steps of the election service: kinds 1 and 2.

use crate::codes::{ensure, Outcome, Refusal};
use crate::limits::LAST_TERM;
use crate::mastership::{Mastership, Term, NO_NODE};
use crate::state::State;

impl State<'_> {
    pub(crate) fn join(&mut self, node: u8) -> Outcome {
        let mut next = self.service;
        if next.master == NO_NODE {
            next.term = term_after(next.term)?;
            next.master = node;
        } else {
            ensure(next.place(node).is_none(), Refusal::NotAllowed)?;
            next.backups.push(node);
        }
        self.post(next)
    }

    pub(crate) fn leave(&mut self, node: u8) -> Outcome {
        if self.service.master == node {
            return self.replace_master();
        }
        match self.service.backups.position(node) {
            Some(position) => {
                self.service.backups.remove(position);
                Ok(())
            }
            None => Err(Refusal::NotAllowed),
        }
    }

    fn replace_master(&mut self) -> Outcome {
        let mut next = self.service;
        match next.backups.first() {
            Some(successor) => {
                next.term = term_after(next.term)?;
                next.master = successor;
                next.backups.remove(0);
                self.post(next)
            }
            None => {
                self.service.master = NO_NODE;
                Ok(())
            }
        }
    }

    /// Makes `next` the service's mastership and tells every node's queue.
    fn post(&mut self, next: Mastership) -> Outcome {
        let controllers = &mut self.controllers[..usize::from(self.nodes)];
        let has_room = controllers.iter().all(|controller| !controller.events.is_full());
        ensure(has_room, Refusal::QueueFull)?;
        for controller in controllers {
            controller.events.push(next);
        }
        self.service = next;
        Ok(())
    }
}

fn term_after(term: Term) -> Result<Term, Refusal> {
    ensure(term.0 < LAST_TERM, Refusal::TermLimit)?;
    Ok(Term(term.0 + 1))
}
