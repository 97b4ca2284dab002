//! The C calls, as a Rust host makes them.

#[link(name = "hoefspanker", kind = "static")]
extern "C" {
    fn hoefspanker_run(list: *const u8, list_len: usize, out: *mut u8, out_len: usize) -> u32;
    fn hoefspanker_read_arbitration(
        message: *const u8,
        message_len: usize,
        fields: *mut u8,
        fields_len: usize,
    ) -> u32;
    fn hoefspanker_read_frame(
        capture: *const u8,
        capture_len: usize,
        offset: usize,
        told: *mut u8,
        told_len: usize,
    ) -> u32;
    fn hoefspanker_same_merge(
        first: *const u8,
        first_len: usize,
        second: *const u8,
        second_len: usize,
        places: *mut u8,
        places_len: usize,
    ) -> u32;
    fn hoefspanker_write(
        nodes: u32,
        steps: *const u8,
        steps_len: usize,
        out: *mut u8,
        out_len: usize,
    ) -> u32;
}

/// A call that reads one slice and writes another.
pub type Call = fn(&[u8], &mut [u8]) -> u32;

/// Runs a list by the library.
pub fn run(list: &[u8], out: &mut [u8]) -> u32 {
    // Two slices, one of them mutable, never overlap.
    unsafe { hoefspanker_run(list.as_ptr(), list.len(), out.as_mut_ptr(), out.len()) }
}

/// As `run`, but an empty slice is lent as NULL.
pub fn run_with_nulls(list: &[u8], out: &mut [u8]) -> u32 {
    unsafe { hoefspanker_run(start(list), list.len(), start_mut(out), out.len()) }
}

/// Reads an arbitration message by the library.
pub fn read_arbitration(message: &[u8], fields: &mut [u8]) -> u32 {
    let (message_len, fields_len) = (message.len(), fields.len());
    let (message, fields) = (message.as_ptr(), fields.as_mut_ptr());
    unsafe { hoefspanker_read_arbitration(message, message_len, fields, fields_len) }
}

/// As `read_arbitration`, but an empty slice is lent as NULL.
pub fn read_arbitration_with_nulls(message: &[u8], fields: &mut [u8]) -> u32 {
    let (message_len, fields_len) = (message.len(), fields.len());
    let (message, fields) = (start(message), start_mut(fields));
    unsafe { hoefspanker_read_arbitration(message, message_len, fields, fields_len) }
}

/// Reads the frame at an offset of a capture by the library.
pub fn read_frame(capture: &[u8], offset: usize, told: &mut [u8]) -> u32 {
    let (capture_len, told_len) = (capture.len(), told.len());
    let (capture, told) = (capture.as_ptr(), told.as_mut_ptr());
    unsafe { hoefspanker_read_frame(capture, capture_len, offset, told, told_len) }
}

/// As `read_frame`, but an empty slice is lent as NULL.
pub fn read_frame_with_nulls(capture: &[u8], offset: usize, told: &mut [u8]) -> u32 {
    let (capture_len, told_len) = (capture.len(), told.len());
    let (capture, told) = (start(capture), start_mut(told));
    unsafe { hoefspanker_read_frame(capture, capture_len, offset, told, told_len) }
}

/// Judges two lists by the library.
pub fn same_merge(first: &[u8], second: &[u8], places: &mut [u8]) -> u32 {
    let (first_len, second_len, places_len) = (first.len(), second.len(), places.len());
    let (first, second, places) = (first.as_ptr(), second.as_ptr(), places.as_mut_ptr());
    unsafe { hoefspanker_same_merge(first, first_len, second, second_len, places, places_len) }
}

/// As `same_merge`, but an empty slice is lent as NULL.
pub fn same_merge_with_nulls(first: &[u8], second: &[u8], places: &mut [u8]) -> u32 {
    let (first_len, second_len, places_len) = (first.len(), second.len(), places.len());
    let (first, second, places) = (start(first), start(second), start_mut(places));
    unsafe { hoefspanker_same_merge(first, first_len, second, second_len, places, places_len) }
}

/// Writes a list by the library.
pub fn write(nodes: u32, steps: &[u8], out: &mut [u8]) -> u32 {
    let (steps_len, out_len) = (steps.len(), out.len());
    unsafe { hoefspanker_write(nodes, steps.as_ptr(), steps_len, out.as_mut_ptr(), out_len) }
}

/// As `write`, but an empty slice is lent as NULL.
pub fn write_with_nulls(nodes: u32, steps: &[u8], out: &mut [u8]) -> u32 {
    let (steps_len, out_len) = (steps.len(), out.len());
    unsafe { hoefspanker_write(nodes, start(steps), steps_len, start_mut(out), out_len) }
}

/// NULL for an empty slice.
fn start(bytes: &[u8]) -> *const u8 {
    if bytes.is_empty() {
        std::ptr::null()
    } else {
        bytes.as_ptr()
    }
}

fn start_mut(bytes: &mut [u8]) -> *mut u8 {
    if bytes.is_empty() {
        std::ptr::null_mut()
    } else {
        bytes.as_mut_ptr()
    }
}
