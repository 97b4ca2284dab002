//! Every way in which a list or its buffer can be refused. Several may meet in
//! one list, so that the order of the refusals is compared too.

use random::Random;
use reference::limits::{LONGEST_LIST, TRAILER_BYTES};

use crate::cases::Case;

type Way = fn(&mut Random, &mut Case);

pub const WAYS: [Way; 11] = [
    cut_short,
    grow_too_long,
    change_first_mark,
    change_second_mark,
    change_zero_byte,
    no_nodes,
    too_many_nodes,
    move_first,
    change_count,
    wrap_extent,
    shorten_room,
];

/// Where the fields of the trailer begin.
const FIRST: usize = 0;
const COUNT: usize = 4;
const NODES: usize = 8;
const ZERO: usize = 9;
const MARK: usize = 10;

fn cut_short(random: &mut Random, case: &mut Case) {
    let kept = random.below(TRAILER_BYTES).min(case.list.len());
    case.list = case.list.split_off(case.list.len() - kept);
}

/// Adds notes, so that the list is good but for its length.
fn grow_too_long(random: &mut Random, case: &mut Case) {
    let wanted = LONGEST_LIST + random.pick(&[1, 1, 2, 1_000, 100_000]);
    let added = wanted.saturating_sub(case.list.len());
    case.list.splice(0..0, random.bytes(added));
    change_number(case, FIRST, |first| first.wrapping_add(added as u32));
}

fn change_first_mark(random: &mut Random, case: &mut Case) {
    let change = random.between(1, 255) as u8;
    change_byte(case, MARK, |byte| byte ^ change);
}

fn change_second_mark(random: &mut Random, case: &mut Case) {
    let change = random.between(1, 255) as u8;
    change_byte(case, MARK + 1, |byte| byte ^ change);
}

fn change_zero_byte(random: &mut Random, case: &mut Case) {
    let byte = random.between(1, 255) as u8;
    change_byte(case, ZERO, |_| byte);
}

fn no_nodes(_: &mut Random, case: &mut Case) {
    change_byte(case, NODES, |_| 0);
}

fn too_many_nodes(random: &mut Random, case: &mut Case) {
    let nodes = random.pick(&[9, 9, 10, 16, 128, 255]);
    change_byte(case, NODES, |_| nodes);
}

fn move_first(random: &mut Random, case: &mut Case) {
    let by = random.pick(&[1, 2, u32::MAX, u32::MAX - 1, 1 << 16, 1 << 24, 1 << 31]);
    change_number(case, FIRST, |first| first.wrapping_add(by));
}

fn change_count(random: &mut Random, case: &mut Case) {
    let by = random.pick(&[1, 2, u32::MAX, 1 << 8, 1 << 16, 1 << 30]);
    change_number(case, COUNT, |count| count.wrapping_add(by));
}

/// Numbers that are right only modulo 2^32.
fn wrap_extent(random: &mut Random, case: &mut Case) {
    let more = random.pick(&[1, 2, 1_000, 1 << 31]) as u32;
    change_number(case, COUNT, |count| count.wrapping_add(more));
    change_number(case, FIRST, |first| first.wrapping_sub(more.wrapping_mul(2)));
}

fn shorten_room(random: &mut Random, case: &mut Case) {
    let less = random.pick(&[1, 1, 2, 4_096, usize::MAX]);
    case.room = case.room.saturating_sub(less);
}

fn change_byte(case: &mut Case, field: usize, change: impl Fn(u8) -> u8) {
    if let Some(start) = case.list.len().checked_sub(TRAILER_BYTES) {
        let byte = &mut case.list[start + field];
        *byte = change(*byte);
    }
}

fn change_number(case: &mut Case, field: usize, change: impl Fn(u32) -> u32) {
    if let Some(start) = case.list.len().checked_sub(TRAILER_BYTES) {
        let bytes = &mut case.list[start + field..start + field + 4];
        let number = u32::from_le_bytes([bytes[0], bytes[1], bytes[2], bytes[3]]);
        bytes.copy_from_slice(&change(number).to_le_bytes());
    }
}
