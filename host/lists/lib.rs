//! Event lists for the comparison and the measurements.

mod scripts;
mod walk;

pub use scripts::{claim, fill_history, last_term, take_over, write_unread};
pub use walk::{Habits, Walk};

use random::Random;
use reference::limits::{MARK, RECORD_BYTES};
pub use reference::Step;

/// A list with a good trailer.
pub fn with_trailer(notes: &[u8], steps: &[Step], nodes: u8) -> Vec<u8> {
    let mut list = Vec::with_capacity(notes.len() + RECORD_BYTES * steps.len());
    list.extend(notes);
    list.extend(steps.iter().flat_map(|&(kind, node)| [kind, node]));
    list.extend((notes.len() as u32).to_le_bytes());
    list.extend((steps.len() as u32).to_le_bytes());
    list.extend([nodes, 0]);
    list.extend(MARK);
    list
}

/// Steps with kinds that exist and nodes that fit them, drawn evenly.
pub fn even_steps(random: &mut Random, nodes: u8, len: usize) -> Vec<Step> {
    let mut step = || {
        let kind = random.between(1, 13) as u8;
        let node = random.between(1, usize::from(nodes)) as u8;
        (kind, if kind < 12 { node } else { 0 })
    };
    (0..len).map(|_| step()).collect()
}
