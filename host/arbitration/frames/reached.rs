//! What the compared captures reached, and what they had to reach.

use calls::{FrameCall, Lending};
use reading::wire::{field, Value};
use reading::{
    held, read_frame, Carried, CARRYING, FRAME_COMPRESSED, FRAME_CUT_SHORT, NO_ROOM, TOLD_BYTES,
};
use trial::{marks, Counts};

marks! {
    CaptureNull "capture NULL",
    ToldNull "told NULL",
    RoomExact "told in 48 bytes",
    RoomMore "told in more",
    RoomOneShort "refused 12, one byte short",
    RoomFarShort "refused 12, more bytes short",
    FaultNoRoom "refused, and no room",
    Nothing "nothing",
    NothingEmpty "an empty message",
    Arbitration "arbitration",
    ArbitrationEmpty "arbitration, all absent",
    Merged "arbitration given twice and merged",
    SetAside "arbitration, and another alternative behind it",
    Anew "arbitration, another alternative, and arbitration anew",
    Packet "alternative 2",
    Third "alternative 3",
    Fourth "alternative 4",
    Fifth "alternative 5",
    OtherType "an alternative with another wire type",
    Beyond "a field above 5",
    Second "a frame that is not the first",
    AtEnd "refused 21, at the end",
    BehindEnd "refused 21, behind the end",
    FarBehind "refused 21, at the largest offset",
    HeadCut "refused 21, in the head",
    HeldCut "refused 21, in what it holds",
    LastByteCut "refused 21, for one byte",
    Huge "refused 21, a length of 2 to the 24 or more",
    Compressed "refused 22",
    CutShort "refused 13",
    TooLarge "refused 14",
    BadTag "refused 15",
}

pub fn nothing() -> Counts {
    Counts::of(NAMES)
}

/// Counts what a call reached for which the reading returned `result`.
pub fn watch(reached: &mut Counts, call: &FrameCall, result: u32) {
    let Lending { input: capture, room, nulls, .. } = &call.lending;
    let (room, nulls) = (*room, *nulls);
    reached.mark(Mark::CaptureNull, nulls && capture.is_empty());
    reached.mark(Mark::ToldNull, nulls && room == 0);
    reached.mark(Mark::RoomExact, result >= CARRYING && room == TOLD_BYTES);
    reached.mark(Mark::RoomMore, result >= CARRYING && room > TOLD_BYTES);
    reached.mark(Mark::RoomOneShort, result == NO_ROOM && room + 1 == TOLD_BYTES);
    reached.mark(Mark::RoomFarShort, result == NO_ROOM && room + 1 < TOLD_BYTES);
    match read_frame(capture, call.offset) {
        Ok(frame) => {
            reached.mark(Mark::Second, call.offset > 0);
            watch_good(reached, held(capture, call.offset).unwrap_or_default(), frame.carried);
        }
        Err(refusal) => {
            reached.mark(Mark::FaultNoRoom, room < TOLD_BYTES);
            watch_refusal(reached, call, refusal);
        }
    }
}

fn watch_good(reached: &mut Counts, message: &[u8], carried: Carried) {
    let given = alternatives(message);
    let arbitration = matches!(carried, Carried::Arbitration(_));
    reached.mark(Mark::Nothing, carried == Carried::Nothing);
    reached.mark(Mark::NothingEmpty, message.is_empty());
    reached.mark(Mark::Arbitration, arbitration);
    let absent = carried == Carried::Arbitration(Default::default());
    reached.mark(Mark::ArbitrationEmpty, absent);
    reached.mark(Mark::Merged, given.ends_with(&[1, 1]));
    reached.mark(Mark::SetAside, !arbitration && given.contains(&1));
    let anew = given.windows(3).any(|three| three[0] == 1 && three[1] > 1 && three[2] == 1);
    reached.mark(Mark::Anew, arbitration && anew);
    let others = [Mark::Packet, Mark::Third, Mark::Fourth, Mark::Fifth];
    for (mark, field) in others.into_iter().zip(2..) {
        reached.mark(mark, carried == Carried::Other(field));
    }
    let mut rest = message;
    while let Ok((number, value)) = field(&mut rest) {
        let bytes = matches!(value, Value::Bytes(_));
        reached.mark(Mark::OtherType, number <= 5 && !bytes);
        reached.mark(Mark::Beyond, number > 5);
    }
}

/// The alternatives in the order in which a message gives them.
fn alternatives(message: &[u8]) -> Vec<u64> {
    let mut rest = message;
    let mut given = Vec::new();
    while let Ok((number, value)) = field(&mut rest) {
        if number <= 5 && matches!(value, Value::Bytes(_)) {
            given.push(number);
        }
    }
    given
}

fn watch_refusal(reached: &mut Counts, call: &FrameCall, refusal: u32) {
    let capture = &call.lending.input;
    let len = capture.len();
    let bytes = capture.get(call.offset..).unwrap_or_default();
    let cut = refusal == FRAME_CUT_SHORT;
    reached.mark(Mark::AtEnd, cut && call.offset == len);
    reached.mark(Mark::BehindEnd, cut && call.offset > len);
    reached.mark(Mark::FarBehind, cut && call.offset == usize::MAX);
    reached.mark(Mark::HeadCut, cut && (1..5).contains(&bytes.len()));
    reached.mark(Mark::HeldCut, cut && bytes.len() >= 5);
    if let (true, [_, a, b, c, d, rest @ ..]) = (cut, bytes) {
        let said = u32::from_be_bytes([*a, *b, *c, *d]) as usize;
        reached.mark(Mark::LastByteCut, said == rest.len() + 1);
        reached.mark(Mark::Huge, said >= 1 << 24);
    }
    reached.mark(Mark::Compressed, refusal == FRAME_COMPRESSED);
    reached.mark(Mark::CutShort, refusal == 13);
    reached.mark(Mark::TooLarge, refusal == 14);
    reached.mark(Mark::BadTag, refusal == 15);
}
