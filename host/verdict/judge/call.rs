//! The C call on two event lists.

use reference::limits::RECORD_BYTES;
use reference::{EventList, Step};

use crate::verdict::{verdict, Verdict};

pub const PLACES_BYTES: usize = 8;

const OUT_TOO_SHORT: u32 = 12;
const SECOND: u32 = 16;
const NODES_DIFFER: u32 = 28;
const SAME: u32 = 256;
const ORDER: u32 = 257;
const ONLY_FIRST: u32 = 258;
const ONLY_SECOND: u32 = 259;

/// The verdict with its four places in the first bytes of `places`, or a refusal
/// with every byte as it was.
pub fn same_merge(first: &[u8], second: &[u8], places: &mut [u8]) -> u32 {
    match judged(first, second, places.len()) {
        Ok(verdict) => {
            let (code, numbers) = numbered(verdict);
            let bytes = numbers.map(|place| (place as u16).to_le_bytes()).concat();
            places[..PLACES_BYTES].copy_from_slice(&bytes);
            code
        }
        Err(refusal) => refusal,
    }
}

fn judged(first: &[u8], second: &[u8], room: usize) -> Result<Verdict, u32> {
    let first = EventList::read(first).map_err(|refusal| refusal as u32)?;
    if room < PLACES_BYTES {
        return Err(OUT_TOO_SHORT);
    }
    let second = EventList::read(second).map_err(|refusal| SECOND + refusal as u32)?;
    if first.nodes != second.nodes {
        return Err(NODES_DIFFER);
    }
    Ok(verdict(first.nodes, &steps(&first), &steps(&second)))
}

fn numbered(verdict: Verdict) -> (u32, [usize; 4]) {
    match verdict {
        Verdict::Same => (SAME, [0; 4]),
        Verdict::Order([p, q], [r, s]) => (ORDER, [p, q, r, s]),
        Verdict::OnlyFirst(p) => (ONLY_FIRST, [p, 0, 0, 0]),
        Verdict::OnlySecond(s) => (ONLY_SECOND, [0, 0, 0, s]),
    }
}

pub fn steps(list: &EventList) -> Vec<Step> {
    list.records.chunks_exact(RECORD_BYTES).map(|record| (record[0], record[1])).collect()
}
