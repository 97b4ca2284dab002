//! Whether two merges of the same logs come to the same, and which records of a
//! merge are in doubt. Written from the interface of the C call and of the two
//! programs and from the scope paper's list of independent steps, without a look
//! at the verified library.

mod call;
mod doubt;
mod history;
mod log;
mod merges;
mod table;
#[cfg(test)]
mod tests;
mod text;
mod verdict;

pub use call::{same_merge, PLACES_BYTES};
pub use history::{difference, history, Entry};
pub use log::{read_log, BadLog, Log, Logged, LONGEST_TEXT};
pub use text::{compare_text, merges_text, steps_of, DOUBTS_SHOWN};
pub use verdict::{verdict, Verdict};
