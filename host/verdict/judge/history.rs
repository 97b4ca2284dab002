//! What running steps accepts, and where two histories differ.

use reference::limits::HISTORY_BYTES;
use reference::{State, Step};

/// Node and term of an accepted write.
pub type Entry = (u8, u16);

pub fn history(nodes: u8, steps: &[Step]) -> Vec<Entry> {
    let mut bytes = [0; HISTORY_BYTES];
    let mut state = State::fresh(nodes, &mut bytes);
    for &(kind, node) in steps {
        let _ = state.step(kind, node);
    }
    state.history.iter().map(|(node, term)| (node, term.0)).collect()
}

/// The line on the first entry in which two histories differ, or that they agree.
pub fn difference(first: &[Entry], second: &[Entry]) -> String {
    let entry = |history: &[Entry], at: usize| history.get(at).copied().unwrap_or((0, 0));
    let differs = |&at: &usize| entry(first, at) != entry(second, at);
    match (0..first.len().max(second.len())).find(differs) {
        Some(at) => {
            let ((n, t), (m, u)) = (entry(first, at), entry(second, at));
            format!("differs {} {n} {t} {m} {u}\n", at + 1)
        }
        None => "agrees\n".to_string(),
    }
}
