//! Terms, election ids and masterships.

use crate::limits::MOST_NODES;

#[derive(Clone, Copy, PartialEq, Eq, PartialOrd, Ord, Debug)]
pub struct Term(pub u16);

#[derive(Clone, Copy, PartialEq, Eq, PartialOrd, Ord, Debug)]
pub struct ElectionId(pub u16);

pub const NO_NODE: u8 = 0;
pub const NO_TERM: Term = Term(0);
pub const NO_ID: ElectionId = ElectionId(0);

impl ElectionId {
    /// The id of the node at `place` in `term`: place 0 is the master, place i
    /// the i-th backup.
    pub fn of(term: Term, nodes: u8, place: u8) -> ElectionId {
        ElectionId(term.0 + u16::from(nodes) - u16::from(place))
    }
}

/// The ordered backups: distinct nodes, one fewer than there are nodes at most.
#[derive(Clone, Copy, PartialEq, Eq, Debug)]
pub struct Backups {
    nodes: [u8; MOST_NODES - 1],
    len: u8,
}

impl Backups {
    pub const NONE: Backups = Backups { nodes: [NO_NODE; MOST_NODES - 1], len: 0 };

    pub fn as_slice(&self) -> &[u8] {
        &self.nodes[..usize::from(self.len)]
    }

    pub fn position(&self, node: u8) -> Option<usize> {
        self.as_slice().iter().position(|&backup| backup == node)
    }

    pub fn first(&self) -> Option<u8> {
        self.as_slice().first().copied()
    }

    pub fn push(&mut self, node: u8) {
        self.nodes[usize::from(self.len)] = node;
        self.len += 1;
    }

    pub fn remove(&mut self, position: usize) {
        self.nodes.copy_within(position + 1.., position);
        self.nodes[MOST_NODES - 2] = NO_NODE;
        self.len -= 1;
    }
}

/// What the service decides, posts and what a node learns.
#[derive(Clone, Copy, PartialEq, Eq, Debug)]
pub struct Mastership {
    pub term: Term,
    pub master: u8,
    pub backups: Backups,
}

impl Mastership {
    pub const BLANK: Mastership =
        Mastership { term: NO_TERM, master: NO_NODE, backups: Backups::NONE };

    /// Place 0 for the master, i for the i-th backup, none for other nodes.
    pub fn place(&self, node: u8) -> Option<u8> {
        if self.master == node {
            return Some(0);
        }
        self.backups.position(node).map(|position| position as u8 + 1)
    }
}
