//! Mastership arbitration after the scope paper, in plain Rust that changes
//! its state in place. It was written from the paper alone, without a look at
//! the verified library, which is compared with it and measured against it.

pub mod codes;
mod controller;
pub mod history;
mod independent;
pub mod kinds;
pub mod limits;
mod list;
pub mod mastership;
pub mod queue;
mod service;
pub mod state;
pub mod switch;
#[cfg(test)]
mod tests;

use codes::{answer_byte, Refusal};
pub use independent::independent;
use limits::{HISTORY_BYTES, RAN, RECORD_BYTES};
pub use list::EventList;
pub use state::State;

/// Kind and node.
pub type Step = (u8, u8);

/// Runs a list from a fresh state: 256 plus the number of accepted writes, or
/// the number of the refusal, which leaves `out` untouched.
pub fn run(list: &[u8], out: &mut [u8]) -> u32 {
    match run_list(list, out) {
        Ok(writes) => RAN + writes as u32,
        Err(refusal) => refusal as u32,
    }
}

fn run_list(list: &[u8], out: &mut [u8]) -> Result<usize, Refusal> {
    let list = EventList::read(list)?;
    if out.len() < list.count() + HISTORY_BYTES {
        return Err(Refusal::OutTooShort);
    }
    let (answers, history) = out.split_at_mut(list.count());
    let mut state = State::fresh(list.nodes, history);
    for (answer, record) in answers.iter_mut().zip(list.records.chunks_exact(RECORD_BYTES)) {
        *answer = answer_byte(state.step(record[0], record[1]));
    }
    Ok(state.history.len())
}
