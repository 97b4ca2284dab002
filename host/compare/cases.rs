//! Lists to be compared: built ones for what chance seldom meets, drawn ones
//! for the rest.

use lists::{even_steps, with_trailer, Habits, Step, Walk};
use random::Random;
use reference::kinds::*;
use reference::limits::{HISTORY_BYTES, LONGEST_LIST, MOST_RECORDS, RECORD_BYTES, TRAILER_BYTES};

use crate::damage;

/// A list and the buffer it is run with.
#[derive(Clone)]
pub struct Case {
    pub list: Vec<u8>,
    /// Length of the output buffer.
    pub room: usize,
    /// Empty slices are lent as NULL.
    pub nulls: bool,
    /// How far the buffers are from an even start.
    pub shift: usize,
    /// What the output buffer holds before.
    pub fill: u8,
}

impl Case {
    fn new(random: &mut Random, notes: &[u8], steps: &[Step], nodes: u8) -> Case {
        Case {
            list: with_trailer(notes, steps, nodes),
            room: steps.len() + HISTORY_BYTES,
            nulls: random.percent(50),
            shift: random.below(8),
            fill: random.byte(),
        }
    }
}

/// One case each for the ends of ranges and for every kind of damage.
pub fn built(random: &mut Random) -> Vec<Case> {
    let mut cases = Vec::new();
    for unlearned in [0, 8] {
        cases.push(scripted(random, 1, |walk| {
            lists::last_term(walk, unlearned);
            walk.take_all(1, &[JOIN, LEARN, LEAVE, JOIN]);
        }));
    }
    for nodes in [1, 2, 8] {
        cases.push(scripted(random, nodes, |walk| full_history(walk, nodes)));
    }
    cases.push(scripted(random, 2, old_master));
    let notes = random.bytes(LONGEST_LIST - TRAILER_BYTES);
    cases.push(Case::new(random, &notes, &[], 8));
    let steps = even_steps(random, 8, MOST_RECORDS);
    cases.push(Case::new(random, &[], &steps, 8));
    for way in damage::WAYS {
        let mut case = whole(random);
        way(random, &mut case);
        cases.push(case);
    }
    cases.extend([false, true].into_iter().flat_map(|nulls| empty(random, nulls)));
    cases
}

/// A list without records, the same with an empty buffer, and an empty list
/// with an empty buffer.
fn empty(random: &mut Random, nulls: bool) -> [Case; 3] {
    let no_records = Case { nulls, ..Case::new(random, &[], &[], 1) };
    let no_room = Case { room: 0, ..no_records.clone() };
    let nothing = Case { list: Vec::new(), ..no_room.clone() };
    [no_records, no_room, nothing]
}

/// Writes to a full history: one that would be accepted, with and without room
/// for the response; ones that are denied, until there is no room; and those of
/// a new master.
fn full_history(walk: &mut Walk, nodes: u8) {
    lists::fill_history(walk, 1);
    walk.take_all(1, &[SEND_WRITE, HANDLE_WRITE, RECEIVE_WRITE, HANDLE_WRITE]);
    walk.exhaust(SEND_WRITE, 1);
    walk.take_all(1, &[CLOSE, CONNECT]);
    lists::write_unread(walk, 1);
    walk.take_all(1, &[SEND_WRITE, HANDLE_WRITE, RECEIVE_WRITE, HANDLE_WRITE]);
    lists::take_over(walk, nodes);
    lists::write_unread(walk, nodes);
}

/// The replaced master of term 1 is the switch's master again after one of
/// term 2 wrote, and writes; and once more after a restart.
fn old_master(walk: &mut Walk) {
    lists::take_over(walk, 1);
    let _ = walk.take(SEND_WRITE, 1);
    lists::take_over(walk, 2);
    walk.take_all(2, &[SEND_WRITE, HANDLE_WRITE, CLOSE]);
    walk.take_all(1, &[HANDLE_WRITE, RECEIVE_UPDATE, RECEIVE_UPDATE, RECEIVE_WRITE]);
    walk.take_all(0, &[SHUTDOWN, STARTUP]);
    walk.take_all(1, &[CONNECT, SEND_UPDATE, HANDLE_UPDATE, RECEIVE_UPDATE]);
    walk.take_all(1, &[SEND_WRITE, HANDLE_WRITE]);
}

fn scripted(random: &mut Random, nodes: u8, script: impl Fn(&mut Walk)) -> Case {
    let mut history = [0; HISTORY_BYTES];
    let mut walk = Walk::new(nodes, &mut history);
    script(&mut walk);
    Case::new(random, &[], &walk.steps, nodes)
}

/// A list at random, sometimes damaged.
pub fn drawn(random: &mut Random) -> Case {
    let mut case = whole(random);
    case.room += match random.below(10) {
        0 => random.below(100_000),
        1 | 2 => random.below(4),
        _ => 0,
    };
    if random.percent(15) {
        for _ in 0..random.between(1, 3) {
            random.pick(&damage::WAYS)(random, &mut case);
        }
    }
    case
}

/// A list at random with a good trailer, and just the room that it needs.
fn whole(random: &mut Random) -> Case {
    let nodes = random.pick(&[1, 2, 2, 3, 3, 4, 5, 6, 7, 8, 8]);
    let steps = drawn_steps(random, nodes);
    let room_for_notes = LONGEST_LIST - TRAILER_BYTES - RECORD_BYTES * steps.len();
    let most_notes = random.pick(&[0, 0, 1, 9, 300]).min(room_for_notes);
    let len = random.between(0, most_notes);
    let notes = random.bytes(len);
    Case::new(random, &notes, &steps, nodes)
}

fn drawn_steps(random: &mut Random, nodes: u8) -> Vec<Step> {
    let most = random.pick(&[8, 30, 30, 100, 300, 300, 300, 1_000, 1_000, 2_000]);
    let most = if random.percent(1) { MOST_RECORDS } else { most };
    let len = random.between(0, most);
    match random.below(20) {
        0 => (0..len).map(|_| (random.below(16) as u8, random.below(10) as u8)).collect(),
        1 => random.bytes(2 * len).chunks(2).map(|pair| (pair[0], pair[1])).collect(),
        2 | 3 => even_steps(random, nodes, len),
        _ => walked(random, nodes, len),
    }
}

/// Steps by habit, after a long script once in a while.
fn walked(random: &mut Random, nodes: u8, len: usize) -> Vec<Step> {
    let mut history = [0; HISTORY_BYTES];
    let mut walk = Walk::new(nodes, &mut history);
    match random.below(500) {
        0 | 1 => lists::fill_history(&mut walk, 1),
        2..=9 if nodes == 1 => lists::last_term(&mut walk, random.below(9) as u16),
        _ => (),
    }
    let len = (walk.steps.len() + len).min(MOST_RECORDS);
    let habits = if random.percent(30) { Habits::LIFE_CYCLE } else { Habits::drawn(random) };
    walk.wander(random, &habits, len);
    walk.steps
}
