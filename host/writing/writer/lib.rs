//! Event lists from steps and from text, and their text. Written from the
//! interface of the C call and of the two programs alone, without a look at the
//! verified library.

mod call;
mod names;
mod read_list;
#[cfg(test)]
mod tests;
mod write_list;

pub use call::{judged, write, WROTE};
pub use names::names;
pub use read_list::text_of;
pub use write_list::{list_of, LONGEST_TEXT};
