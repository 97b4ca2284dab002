//! What the compared lists reached, and what they had to reach.

use judge::PLACES_BYTES;
use pairs::{Known, Pair};
use trial::{marks, Counts};

use crate::call::Call;

marks! {
    FirstLength "refused 8, first list",
    FirstMark "refused 9, first list",
    FirstNodes "refused 10, first list",
    FirstExtent "refused 11, first list",
    NoRoom "refused 12, one byte short",
    NoRoomBad "refused 12, second list bad too",
    SecondLength "refused 24, second list",
    SecondMark "refused 25, second list",
    SecondNodes "refused 26, second list",
    SecondExtent "refused 27, second list",
    NodesDiffer "refused 28, node counts differ",
    BothBad "both lists bad",
    ListNull "a list NULL",
    PlacesNull "places NULL",
    RoomMore "more room than needed",
    SameMoved "the same, not byte for byte",
    SameByExchanges "the same by the way they were made",
    Order "dependent records in the other order",
    NotSame "not the same by the way they were made",
    OnlyFirst "a record of the first list alone",
    OnlySecond "a record of the second list alone",
    OnlySecondEnd "the same, and records left over",
}

pub fn nothing() -> Counts {
    Counts::of(NAMES)
}

/// Counts what a call reached for which the verdict here returned `result`.
pub fn watch(reached: &mut Counts, call: &Call, result: u32) {
    let Pair { first, second, known } = &call.pair;
    let second_bad = reference::EventList::read(second).is_err();
    let some_empty = first.is_empty() || second.is_empty();
    reached.mark(Mark::FirstLength, result == 8);
    reached.mark(Mark::FirstMark, result == 9);
    reached.mark(Mark::FirstNodes, result == 10);
    reached.mark(Mark::FirstExtent, result == 11);
    reached.mark(Mark::NoRoom, result == 12 && call.room + 1 == PLACES_BYTES);
    reached.mark(Mark::NoRoomBad, result == 12 && second_bad);
    reached.mark(Mark::SecondLength, result == 24);
    reached.mark(Mark::SecondMark, result == 25);
    reached.mark(Mark::SecondNodes, result == 26);
    reached.mark(Mark::SecondExtent, result == 27);
    reached.mark(Mark::NodesDiffer, result == 28);
    reached.mark(Mark::BothBad, result < 12 && second_bad);
    reached.mark(Mark::ListNull, call.nulls && some_empty);
    reached.mark(Mark::PlacesNull, call.nulls && call.room == 0);
    reached.mark(Mark::RoomMore, result >= 256 && call.room > PLACES_BYTES);
    reached.mark(Mark::SameMoved, result == 256 && first != second);
    reached.mark(Mark::SameByExchanges, result == 256 && *known == Known::Same);
    reached.mark(Mark::Order, result == 257);
    reached.mark(Mark::NotSame, result > 256 && *known == Known::NotSame);
    reached.mark(Mark::OnlyFirst, result == 258);
    reached.mark(Mark::OnlySecond, result == 259);
    reached.mark(Mark::OnlySecondEnd, result == 259 && second.starts_with(records(first)));
}

/// A list without its trailer.
fn records(list: &[u8]) -> &[u8] {
    &list[..list.len().saturating_sub(12)]
}
