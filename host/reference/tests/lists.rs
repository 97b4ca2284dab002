//! The event list: what is run, what is refused and what stays.

use crate::limits::{HISTORY_BYTES, LONGEST_LIST, TRAILER_BYTES};
use crate::run;

const SAMPLE: [u8; 28] =
    [1, 1, 3, 1, 8, 1, 4, 1, 10, 1, 5, 1, 6, 1, 11, 1, 0, 0, 0, 0, 8, 0, 0, 0, 2, 0, 0x4D, 0x41];
const UNTOUCHED: u8 = 0xEE;

fn run_into(list: &[u8], room: usize) -> (u32, Vec<u8>) {
    let mut out = vec![UNTOUCHED; room];
    let result = run(list, &mut out);
    (result, out)
}

fn refused(list: &[u8], room: usize) -> u32 {
    let (result, out) = run_into(list, room);
    assert!(out.iter().all(|&byte| byte == UNTOUCHED));
    result
}

fn changed(at: usize, byte: u8) -> Vec<u8> {
    let mut list = SAMPLE.to_vec();
    list[at] = byte;
    list
}

/// A list of zero bytes with a good trailer.
fn zeros(notes: usize, count: usize) -> Vec<u8> {
    let mut list = vec![0; notes + 2 * count];
    list.extend((notes as u32).to_le_bytes());
    list.extend((count as u32).to_le_bytes());
    list.extend([1, 0, 0x4D, 0x41]);
    list
}

#[test]
fn the_sample_of_the_paper() {
    let (result, out) = run_into(&SAMPLE, HISTORY_BYTES + 8);
    assert_eq!(result, 257);
    assert_eq!(out[..12], [0, 0, 0, 0, 0, 0, 0, 0, 1, 0, 1, 0]);
    assert!(out[12..].iter().all(|&byte| byte == UNTOUCHED));
}

#[test]
fn an_empty_list_and_the_longest() {
    assert_eq!(run_into(&zeros(0, 0), HISTORY_BYTES), (256, vec![UNTOUCHED; HISTORY_BYTES]));
    let most = (LONGEST_LIST - TRAILER_BYTES) / 2;
    let (result, out) = run_into(&zeros(0, most), most + HISTORY_BYTES);
    assert_eq!(result, 256);
    assert!(out[..most].iter().all(|&answer| answer == 2));
    assert!(out[most..].iter().all(|&byte| byte == UNTOUCHED));
    assert_eq!(run_into(&zeros(LONGEST_LIST - TRAILER_BYTES, 0), HISTORY_BYTES).0, 256);
}

#[test]
fn notes_are_not_run() {
    let mut list = vec![13, 0, 7];
    list.extend(SAMPLE);
    list[19] = 3;
    assert_eq!(run_into(&list, HISTORY_BYTES + 8), run_into(&SAMPLE, HISTORY_BYTES + 8));
}

#[test]
fn lengths_8() {
    assert_eq!(refused(&[], 0), 8);
    assert_eq!(refused(&zeros(0, 0)[1..], HISTORY_BYTES), 8);
    assert_eq!(refused(&zeros(LONGEST_LIST - TRAILER_BYTES + 1, 0), HISTORY_BYTES), 8);
}

#[test]
fn marks_9() {
    for (at, byte) in [(25, 1), (26, 0x4E), (27, 0), (26, 0x41)] {
        assert_eq!(refused(&changed(at, byte), HISTORY_BYTES + 8), 9);
    }
}

#[test]
fn node_counts_10() {
    for nodes in [0, 9, 255] {
        assert_eq!(refused(&changed(24, nodes), HISTORY_BYTES + 8), 10);
    }
    assert_eq!(run_into(&changed(24, 8), HISTORY_BYTES + 8).0, 257);
}

#[test]
fn extents_11() {
    // The last two fit only modulo 2^32.
    let first_high = [(16, 1), (19, 1), (20, 7), (20, 9), (23, 0x80)];
    for (at, byte) in first_high {
        assert_eq!(refused(&changed(at, byte), 1 << 20), 11);
    }
    let mut wrapped = changed(20, 9);
    wrapped[16..20].copy_from_slice(&[0xFE, 0xFF, 0xFF, 0xFF]);
    assert_eq!(refused(&wrapped, 1 << 20), 11);
}

#[test]
fn rooms_12() {
    assert_eq!(refused(&SAMPLE, HISTORY_BYTES + 7), 12);
    assert_eq!(refused(&SAMPLE, 0), 12);
    assert_eq!(refused(&zeros(0, 0), HISTORY_BYTES - 1), 12);
}

#[test]
fn lower_numbers_come_first() {
    let mut list = zeros(0, 0);
    list[0] = 9;
    assert_eq!(refused(&list, 0), 11);
    list[8] = 0;
    assert_eq!(refused(&list, 0), 10);
    list[9] = 1;
    assert_eq!(refused(&list, 0), 9);
    assert_eq!(refused(&list[1..], 0), 8);
}
