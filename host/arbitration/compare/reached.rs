//! What the compared messages reached, and what they had to reach.

use calls::{Call, Lending};
use reading::wire::Refusal;
use reading::{read, Arbitration, FIELDS_BYTES, NO_ROOM};
use trial::{marks, Counts};

use crate::fault::{first, Fault, In};

marks! {
    MessageNull "message NULL",
    FieldsNull "fields NULL",
    RoomExact "read into 40 bytes",
    RoomMore "read into more",
    RoomOneShort "refused 12, one byte short",
    RoomFarShort "refused 12, more bytes short",
    FaultNoRoom "faulty, and no room",
    NoFields "nothing present, all 0",
    AllPresent "all embedded messages present",
    RoleAlone "role alone present",
    ElectionAlone "election id alone present",
    StatusAlone "status alone present",
    PresentEmpty "embedded messages present, all 0",
    WideDevice "device id of 64 bits",
    WideRole "role id of 64 bits",
    WideElection "election id of 128 bits",
    NegativeCode "negative status code",
    TagCut "refused 13, in a tag",
    NumberCut "refused 13, in a number",
    LengthCut "refused 13, in a length",
    EightCut "refused 13, eight bytes",
    FourCut "refused 13, four bytes",
    LengthPast "refused 13, a length past the end",
    EmbeddedTagCut "refused 13, in an embedded tag",
    EmbeddedNumberCut "refused 13, in an embedded number",
    EmbeddedLengthCut "refused 13, in an embedded length",
    EmbeddedEightCut "refused 13, embedded eight bytes",
    EmbeddedFourCut "refused 13, embedded four bytes",
    EmbeddedLengthPast "refused 13, a length past its parent",
    TagLarge "refused 14, a tag",
    NumberLarge "refused 14, a number",
    LengthLarge "refused 14, a length",
    EmbeddedTagLarge "refused 14, an embedded tag",
    EmbeddedNumberLarge "refused 14, an embedded number",
    EmbeddedLengthLarge "refused 14, an embedded length",
    FieldZero "refused 15, field 0",
    FieldLarge "refused 15, field above 536,870,911",
    GroupStart "refused 15, wire type 3",
    GroupEnd "refused 15, wire type 4",
    TypeSix "refused 15, wire type 6",
    TypeSeven "refused 15, wire type 7",
    EmbeddedFieldZero "refused 15, embedded field 0",
    EmbeddedFieldLarge "refused 15, embedded field above 536,870,911",
    EmbeddedType "refused 15, embedded wire type",
}

pub fn nothing() -> Counts {
    Counts::of(NAMES)
}

/// Counts what a call reached for which the reading returned `result`.
pub fn watch(reached: &mut Counts, call: &Call, result: u32) {
    let Lending { input: message, room, nulls, .. } = &call.lending;
    let (room, nulls) = (*room, *nulls);
    reached.mark(Mark::MessageNull, nulls && message.is_empty());
    reached.mark(Mark::FieldsNull, nulls && room == 0);
    reached.mark(Mark::RoomExact, result == 0 && room == FIELDS_BYTES);
    reached.mark(Mark::RoomMore, result == 0 && room > FIELDS_BYTES);
    reached.mark(Mark::RoomOneShort, result == NO_ROOM && room + 1 == FIELDS_BYTES);
    reached.mark(Mark::RoomFarShort, result == NO_ROOM && room + 1 < FIELDS_BYTES);
    match first(message) {
        Some(fault) => {
            reached.mark(Mark::FaultNoRoom, room < FIELDS_BYTES);
            watch_fault(reached, &fault);
        }
        None => watch_good(reached, read(message).unwrap_or_default()),
    }
}

fn watch_good(reached: &mut Counts, read: Arbitration) {
    let role = read.role.unwrap_or_default();
    let election_id = read.election_id.unwrap_or_default();
    let status = read.status.unwrap_or_default();
    let present = [read.role.is_some(), read.election_id.is_some(), read.status.is_some()];
    let zero = Arbitration { device_id: read.device_id, ..Default::default() }.to_bytes();
    let numbers_zero = read.to_bytes()[..36] == zero[..36];
    reached.mark(Mark::NoFields, read == Arbitration::default());
    reached.mark(Mark::AllPresent, present == [true; 3]);
    reached.mark(Mark::RoleAlone, present == [true, false, false]);
    reached.mark(Mark::ElectionAlone, present == [false, true, false]);
    reached.mark(Mark::StatusAlone, present == [false, false, true]);
    reached.mark(Mark::PresentEmpty, present == [true; 3] && numbers_zero);
    reached.mark(Mark::WideDevice, read.device_id >> 63 == 1);
    reached.mark(Mark::WideRole, role.id >> 63 == 1);
    reached.mark(Mark::WideElection, election_id.high >> 63 == 1 && election_id.low >> 63 == 1);
    reached.mark(Mark::NegativeCode, status.code < 0);
}

fn watch_fault(reached: &mut Counts, fault: &Fault) {
    let here = |outer, embedded| if fault.embedded { embedded } else { outer };
    let wire_type = fault.tag & 7;
    let mark = match (fault.refusal, fault.found) {
        (Refusal::CutShort, In::Tag) => here(Mark::TagCut, Mark::EmbeddedTagCut),
        (Refusal::CutShort, In::Number) => here(Mark::NumberCut, Mark::EmbeddedNumberCut),
        (Refusal::CutShort, In::Length) => here(Mark::LengthCut, Mark::EmbeddedLengthCut),
        (Refusal::CutShort, In::Value) => match wire_type {
            1 => here(Mark::EightCut, Mark::EmbeddedEightCut),
            2 => here(Mark::LengthPast, Mark::EmbeddedLengthPast),
            _ => here(Mark::FourCut, Mark::EmbeddedFourCut),
        },
        (Refusal::NumberTooLarge, In::Tag) => here(Mark::TagLarge, Mark::EmbeddedTagLarge),
        (Refusal::NumberTooLarge, In::Number) => here(Mark::NumberLarge, Mark::EmbeddedNumberLarge),
        (Refusal::NumberTooLarge, _) => here(Mark::LengthLarge, Mark::EmbeddedLengthLarge),
        (Refusal::BadTag, _) => match (fault.tag >> 3, wire_type) {
            (0, _) => here(Mark::FieldZero, Mark::EmbeddedFieldZero),
            (field, _) if field >= 1 << 29 => here(Mark::FieldLarge, Mark::EmbeddedFieldLarge),
            (_, 3) => here(Mark::GroupStart, Mark::EmbeddedType),
            (_, 4) => here(Mark::GroupEnd, Mark::EmbeddedType),
            (_, 6) => here(Mark::TypeSix, Mark::EmbeddedType),
            _ => here(Mark::TypeSeven, Mark::EmbeddedType),
        },
    };
    reached.mark(mark, true);
}
