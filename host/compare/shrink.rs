//! A smaller list that still differs.

use lists::{with_trailer, Step};
use reference::limits::RECORD_BYTES;
use reference::EventList;

use crate::cases::Case;
use crate::lent::compare;

/// Drops notes and records as long as the library and the reference differ. A
/// list with a bad trailer stays as it is.
pub fn shrink(case: &Case) -> Case {
    let (steps, nodes) = match EventList::read(&case.list) {
        Ok(list) => (steps_of(list.records), list.nodes),
        Err(_) => return case.clone(),
    };
    let smaller = |steps: &[Step]| rebuilt(case, steps, nodes);
    if !differs(&smaller(&steps)) {
        return case.clone();
    }
    let steps = trial::shrunk(steps, |steps| differs(&smaller(steps)));
    smaller(&steps)
}

fn differs(case: &Case) -> bool {
    compare(case).1.is_some()
}

fn steps_of(records: &[u8]) -> Vec<Step> {
    records.chunks_exact(RECORD_BYTES).map(|record| (record[0], record[1])).collect()
}

/// The case without notes and with other steps; the buffer stays as long or
/// short for its list as it was.
fn rebuilt(case: &Case, steps: &[Step], nodes: u8) -> Case {
    let held = EventList::read(&case.list).map_or(0, |list| list.count());
    let room = (case.room + steps.len()).saturating_sub(held);
    Case { list: with_trailer(&[], steps, nodes), room, ..case.clone() }
}
