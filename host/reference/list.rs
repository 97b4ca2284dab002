//! Reading an event list by the trailer at its end.

use crate::codes::{ensure, Refusal};
use crate::limits::{LONGEST_LIST, MARK, MOST_NODES, RECORD_BYTES, TRAILER_BYTES};

#[derive(PartialEq, Debug)]
pub struct EventList<'a> {
    pub notes: &'a [u8],
    pub records: &'a [u8],
    pub nodes: u8,
}

impl<'a> EventList<'a> {
    pub fn read(list: &'a [u8]) -> Result<Self, Refusal> {
        let length_fits = (TRAILER_BYTES..=LONGEST_LIST).contains(&list.len());
        ensure(length_fits, Refusal::BadLength)?;
        let (body, trailer) = list.split_at(list.len() - TRAILER_BYTES);
        ensure(trailer[10..] == MARK && trailer[9] == 0, Refusal::BadMark)?;
        let nodes = trailer[8];
        ensure((1..=MOST_NODES).contains(&usize::from(nodes)), Refusal::BadNodeCount)?;
        let (first, count) = (number(&trailer[0..4]), number(&trailer[4..8]));
        let extent = first + RECORD_BYTES as u64 * count;
        ensure(extent == body.len() as u64, Refusal::BadExtent)?;
        let (notes, records) = body.split_at(first as usize);
        Ok(EventList { notes, records, nodes })
    }

    pub fn count(&self) -> usize {
        self.records.len() / RECORD_BYTES
    }
}

/// Four bytes, the least first. The result is wide enough for sums of two.
fn number(bytes: &[u8]) -> u64 {
    bytes.iter().rev().fold(0, |high, &low| high << 8 | u64::from(low))
}
