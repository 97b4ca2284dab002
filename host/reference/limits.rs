//! The paper's limits and sizes, each once.

pub const MOST_NODES: usize = 8;
pub const QUEUE_CAPACITY: usize = 8;
pub const LAST_TERM: u16 = 10_000;
pub const HISTORY_CAPACITY: usize = 1_024;

pub const RECORD_BYTES: usize = 2;
pub const TRAILER_BYTES: usize = 12;
pub const LONGEST_LIST: usize = 65_536;
pub const MOST_RECORDS: usize = (LONGEST_LIST - TRAILER_BYTES) / RECORD_BYTES;
pub const MARK: [u8; 2] = [0x4D, 0x41];

pub const ENTRY_BYTES: usize = 4;
pub const HISTORY_BYTES: usize = HISTORY_CAPACITY * ENTRY_BYTES;

/// What a run returns, less the number of writes.
pub const RAN: u32 = 256;
