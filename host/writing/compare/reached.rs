//! What the compared calls reached, and what they had to reach.

use calls::Lending;
use reference::limits::{LONGEST_LIST, MOST_RECORDS, RECORD_BYTES, TRAILER_BYTES};
use trial::{marks, Counts};

use crate::call::WriteCall;

marks! {
    StepsNull "steps NULL",
    OutNull "buffer NULL",
    BadCount "refused 10, no nodes or nine",
    GoodLowByte "refused 10, the low byte is a good count",
    CountAndStep "refused 10, a bad step too",
    KindAndNode "refused 2, the node wrong too",
    KindCut "refused 2, cut short",
    NodeCut "refused 3, cut short",
    SwitchCut "refused 3, shutdown or startup cut short",
    NodeThenKind "refused 3, an unknown kind behind it",
    KindThenNode "refused 2, a wrong node behind it",
    KindBehindMost "refused 2 behind 32,762 good steps",
    NodeBehindMost "refused 3 behind 32,762 good steps",
    CutBehindMost "cut short behind 32,762 good steps",
    BadNoRoom "a bad step, and no room",
    OneTooMany "refused 8, one step too many",
    TooManyNoRoom "refused 8, and no room",
    OneShort "refused 12, one byte short",
    NoRoom "refused 12, no bytes",
    LongestShort "refused 12, the longest list one byte short",
    NoSteps "wrote a list without steps",
    ExactRoom "wrote into just the room needed",
    MoreRoom "wrote into more",
    NearLongest "wrote the longest list but one",
    Longest "wrote the longest list",
}

pub fn nothing() -> Counts {
    Counts::of(NAMES)
}

/// Counts what a call reached for which the writer here returned `result`.
pub fn watch(reached: &mut Counts, call: &WriteCall, result: u32) {
    let WriteCall { nodes, lending: Lending { input: steps, room, nulls, .. } } = call;
    let (needed, count_refused) = (steps.len() + TRAILER_BYTES, result == 10);
    let count = if count_refused { 8 } else { *nodes as u8 };
    let bad: Vec<(usize, u32)> = bad_steps(count, steps).take(2).collect();
    if let (2 | 3, Some(&(at, _))) = (result, bad.first()) {
        let (kind, node) = (steps[RECORD_BYTES * at], steps.get(RECORD_BYTES * at + 1));
        let next = bad.get(1).map(|&(_, code)| code);
        let (cut, behind_most) = (node.is_none(), at == MOST_RECORDS);
        reached.mark(Mark::KindAndNode, result == 2 && node > Some(&8));
        reached.mark(Mark::KindCut, result == 2 && cut);
        reached.mark(Mark::NodeCut, result == 3 && cut && kind < 12);
        reached.mark(Mark::SwitchCut, result == 3 && cut && kind >= 12);
        reached.mark(Mark::NodeThenKind, result == 3 && next == Some(2));
        reached.mark(Mark::KindThenNode, result == 2 && next == Some(3));
        reached.mark(Mark::KindBehindMost, result == 2 && behind_most);
        reached.mark(Mark::NodeBehindMost, result == 3 && behind_most);
        reached.mark(Mark::CutBehindMost, behind_most && cut);
        reached.mark(Mark::BadNoRoom, *room < needed);
    }
    reached.mark(Mark::StepsNull, *nulls && steps.is_empty());
    reached.mark(Mark::OutNull, *nulls && *room == 0);
    reached.mark(Mark::BadCount, count_refused && (*nodes == 0 || *nodes == 9));
    reached.mark(Mark::GoodLowByte, count_refused && (1..=8).contains(&(nodes & 0xFF)));
    reached.mark(Mark::CountAndStep, count_refused && !bad.is_empty());
    watch_lengths(reached, result, needed, *room);
}

/// The places of bad steps, and their codes.
fn bad_steps(nodes: u8, steps: &[u8]) -> impl Iterator<Item = (usize, u32)> + '_ {
    let judged = move |step: &[u8]| writer::judged(nodes, step[0], step.get(1).copied()).err();
    let all = steps.chunks(RECORD_BYTES).enumerate();
    all.filter_map(move |(at, step)| judged(step).map(|refusal| (at, refusal as u32)))
}

fn watch_lengths(reached: &mut Counts, result: u32, needed: usize, room: usize) {
    let wrote = result >= writer::WROTE;
    let too_many = LONGEST_LIST + RECORD_BYTES;
    reached.mark(Mark::OneTooMany, result == 8 && needed == too_many && room >= needed);
    reached.mark(Mark::TooManyNoRoom, result == 8 && room < needed);
    reached.mark(Mark::OneShort, result == 12 && room + 1 == needed);
    reached.mark(Mark::NoRoom, result == 12 && room == 0);
    reached.mark(Mark::LongestShort, result == 12 && room + 1 == LONGEST_LIST);
    reached.mark(Mark::NoSteps, wrote && needed == TRAILER_BYTES);
    reached.mark(Mark::ExactRoom, wrote && needed == room);
    reached.mark(Mark::MoreRoom, wrote && needed < room);
    reached.mark(Mark::NearLongest, wrote && needed + RECORD_BYTES == LONGEST_LIST);
    reached.mark(Mark::Longest, wrote && needed == LONGEST_LIST);
}
