//! The text of a list.

use reference::limits::RECORD_BYTES;
use reference::EventList;

use crate::names::name_of;

/// What `read_list` prints for a list, or what it says on standard error.
pub fn text_of(list: &[u8]) -> Result<Vec<u8>, String> {
    let list = EventList::read(list).map_err(|refusal| format!("refused {}\n", refusal as u32))?;
    let mut text = format!("nodes {}\n", list.nodes);
    if !list.notes.is_empty() {
        text += &format!("# note bytes left out: {}\n", list.notes.len());
    }
    for record in list.records.chunks_exact(RECORD_BYTES) {
        text += &format!("{} {}\n", name_of(record[0]), record[1]);
    }
    Ok(text.into_bytes())
}
