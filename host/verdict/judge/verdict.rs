//! Two lists: do exchanges of independent neighbours lead from one to the other?

use reference::Step;

use crate::table::Table;

/// Places count from 1.
#[derive(Clone, Copy, PartialEq, Debug)]
pub enum Verdict {
    Same,
    /// Two dependent records: their places in the first list, where the one comes
    /// first, and in the second, where the other does.
    Order([usize; 2], [usize; 2]),
    OnlyFirst(usize),
    OnlySecond(usize),
}

/// Takes the records of the first list in turn out of the second. A record can
/// be taken if all records that are left before it are independent of it.
pub fn verdict(nodes: u8, first: &[Step], second: &[Step]) -> Verdict {
    let table = Table::new(nodes);
    let mut letters: Vec<u8> = second.iter().map(|&step| table.letter(step)).collect();
    let mut places: Vec<u16> = (0..second.len() as u16).collect();
    for (taken, &step) in first.iter().enumerate() {
        let free = table.row(step);
        let met = letters[taken..].iter().position(|&letter| !free[usize::from(letter)]);
        let at = match met.map(|passed| taken + passed) {
            Some(at) if second[usize::from(places[at])] == step => at,
            Some(at) => return blocked(first, second, taken, &places[taken..], at - taken),
            None => return Verdict::OnlyFirst(taken + 1),
        };
        // What was passed moves up by one.
        letters.copy_within(taken..at, taken + 1);
        places.copy_within(taken..at, taken + 1);
    }
    match places.get(first.len()) {
        Some(&place) => Verdict::OnlySecond(usize::from(place) + 1),
        None => Verdict::Same,
    }
}

/// The verdict where the record `taken` of the first list meets a dependent one
/// at `met` of those left in the second list, whose places are `rest`.
fn blocked(first: &[Step], second: &[Step], taken: usize, rest: &[u16], met: usize) -> Verdict {
    let record = |place: &u16| second[usize::from(*place)];
    let (one, other) = (first[taken], record(&rest[met]));
    let in_second = rest.iter().find(|&place| record(place) == one);
    let in_first = first[taken..].iter().position(|&step| step == other);
    let place_of = |place: &u16| usize::from(*place) + 1;
    match (in_second, in_first) {
        (None, _) => Verdict::OnlyFirst(taken + 1),
        (_, None) => Verdict::OnlySecond(place_of(&rest[met])),
        (Some(second), Some(ahead)) => {
            Verdict::Order([taken + 1, taken + ahead + 1], [place_of(second), place_of(&rest[met])])
        }
    }
}
