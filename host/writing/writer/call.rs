//! The C call that writes an event list.

use reference::codes::{ensure, Outcome, Refusal};
use reference::kinds::*;
use reference::limits::{MARK, MOST_NODES, MOST_RECORDS, RECORD_BYTES};

/// What a list that was written returns, less its length.
pub const WROTE: u32 = 256;

/// The list at the front of `out` and 256 plus its length, or a refusal with every
/// byte as it was.
pub fn write(nodes: u32, steps: &[u8], out: &mut [u8]) -> u32 {
    match written(nodes, steps, out) {
        Ok(len) => WROTE + len as u32,
        Err(refusal) => refusal as u32,
    }
}

fn written(nodes: u32, steps: &[u8], out: &mut [u8]) -> Result<usize, Refusal> {
    let nodes = node_count(nodes)?;
    for step in steps.chunks(RECORD_BYTES) {
        judged(nodes, step[0], step.get(1).copied())?;
    }
    let list = with_trailer(nodes, steps)?;
    ensure(list.len() <= out.len(), Refusal::OutTooShort)?;
    out[..list.len()].copy_from_slice(&list);
    Ok(list.len())
}

pub fn node_count(nodes: u32) -> Result<u8, Refusal> {
    ensure((1..=MOST_NODES as u32).contains(&nodes), Refusal::BadNodeCount)?;
    Ok(nodes as u8)
}

/// Whether a step exists among so many nodes. One that is cut short has no node.
pub fn judged(nodes: u8, kind: u8, node: Option<u8>) -> Outcome {
    ensure((JOIN..=STARTUP).contains(&kind), Refusal::UnknownKind)?;
    let whole_switch = kind == SHUTDOWN || kind == STARTUP;
    let fits = |node| if whole_switch { node == 0 } else { (1..=nodes).contains(&node) };
    ensure(node.map_or(false, fits), Refusal::WrongNode)
}

/// The list of good steps, if there are not too many.
pub fn with_trailer(nodes: u8, steps: &[u8]) -> Result<Vec<u8>, Refusal> {
    let count = steps.len() / RECORD_BYTES;
    ensure(count <= MOST_RECORDS, Refusal::BadLength)?;
    let (first, count) = (0_u32.to_le_bytes(), (count as u32).to_le_bytes());
    Ok([steps, &first, &count, &[nodes, 0], &MARK].concat())
}
