//! Merges for the comparisons and the measurements: pairs of event lists, and
//! merged logs.

mod lists;
mod logs;

pub use self::lists::{built, damage, drawn, exchange, Known, Pair};
pub use logs::{log_text, merged, small_log};
