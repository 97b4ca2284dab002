//! The references under the library's name, to try the host programs without
//! the library.

use std::slice::{from_raw_parts, from_raw_parts_mut};

/// # Safety
/// As `hoefspanker.h` asks of its callers.
#[no_mangle]
pub unsafe extern "C" fn hoefspanker_run(
    list: *const u8,
    list_len: usize,
    out: *mut u8,
    out_len: usize,
) -> u32 {
    reference::run(lent(list, list_len), lent_mut(out, out_len))
}

/// # Safety
/// As `hoefspanker.h` asks of its callers.
#[no_mangle]
pub unsafe extern "C" fn hoefspanker_read_arbitration(
    message: *const u8,
    message_len: usize,
    fields: *mut u8,
    fields_len: usize,
) -> u32 {
    reading::read_into(lent(message, message_len), lent_mut(fields, fields_len))
}

/// # Safety
/// As `hoefspanker.h` asks of its callers.
#[no_mangle]
pub unsafe extern "C" fn hoefspanker_read_frame(
    capture: *const u8,
    capture_len: usize,
    offset: usize,
    told: *mut u8,
    told_len: usize,
) -> u32 {
    reading::frame_into(lent(capture, capture_len), offset, lent_mut(told, told_len))
}

/// # Safety
/// As `hoefspanker.h` asks of its callers.
#[no_mangle]
pub unsafe extern "C" fn hoefspanker_same_merge(
    first: *const u8,
    first_len: usize,
    second: *const u8,
    second_len: usize,
    places: *mut u8,
    places_len: usize,
) -> u32 {
    let (first, second) = (lent(first, first_len), lent(second, second_len));
    judge::same_merge(first, second, lent_mut(places, places_len))
}

/// # Safety
/// As `hoefspanker.h` asks of its callers.
#[no_mangle]
pub unsafe extern "C" fn hoefspanker_write(
    nodes: u32,
    steps: *const u8,
    steps_len: usize,
    out: *mut u8,
    out_len: usize,
) -> u32 {
    writer::write(nodes, lent(steps, steps_len), lent_mut(out, out_len))
}

unsafe fn lent<'a>(start: *const u8, len: usize) -> &'a [u8] {
    if len == 0 {
        &[]
    } else {
        from_raw_parts(start, len)
    }
}

unsafe fn lent_mut<'a>(start: *mut u8, len: usize) -> &'a mut [u8] {
    if len == 0 {
        &mut []
    } else {
        from_raw_parts_mut(start, len)
    }
}
