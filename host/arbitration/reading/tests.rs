//! The published rules and the request, sentence by sentence, on bytes written
//! out by hand.

use crate::wire::{field, number, Refusal, Value};
use crate::*;

const NOTHING: Arbitration =
    Arbitration { device_id: 0, role: None, election_id: None, status: None };

fn refusal(message: &[u8]) -> Option<u32> {
    read(message).err().map(|refusal| refusal as u32)
}

#[test]
fn numbers() {
    let cases: [(&[u8], u64, usize); 9] = [
        (&[0x00], 0, 1),
        (&[0x01], 1, 1),
        (&[0x7F], 127, 1),
        (&[0x80, 0x01], 128, 2),
        (&[0x96, 0x01], 150, 2),
        (&[0x96, 0x01, 0xFF], 150, 2),
        (&[0x80, 0x80, 0x00], 0, 3),
        (&[0xFF, 0xFF, 0xFF, 0xFF, 0xFF, 0xFF, 0xFF, 0xFF, 0xFF, 0x01], u64::MAX, 10),
        (&[0x80, 0x80, 0x80, 0x80, 0x80, 0x80, 0x80, 0x80, 0x80, 0x01], 1 << 63, 10),
    ];
    for (bytes, expected, len) in cases {
        let mut rest = bytes;
        assert_eq!(number(&mut rest), Ok(expected));
        assert_eq!(bytes.len() - rest.len(), len);
    }
}

#[test]
fn numbers_cut_short() {
    for len in 0..=9 {
        assert_eq!(number(&mut &[0x80; 9][..len]), Err(Refusal::CutShort));
    }
}

#[test]
fn tenth_byte() {
    for tenth in 0..=255 {
        let mut bytes = [0xFF; 11];
        bytes[9] = tenth;
        let expected = match tenth {
            0 => Ok(u64::MAX >> 1),
            1 => Ok(u64::MAX),
            _ => Err(Refusal::NumberTooLarge),
        };
        assert_eq!(number(&mut &bytes[..]), expected, "{tenth}");
        assert_eq!(number(&mut &bytes[..10]), expected, "{tenth}");
    }
}

#[test]
fn fields() {
    let bytes = [
        &[0x08, 0x96, 0x01][..],
        &[0x12, 0x02, 0x07, 0x09],
        &[0x19, 1, 2, 3, 4, 5, 6, 7, 8],
        &[0x25, 1, 2, 3, 4],
        &[0xF8, 0xFF, 0xFF, 0xFF, 0x0F, 0x00],
    ]
    .concat();
    let mut rest = &bytes[..];
    assert_eq!(field(&mut rest), Ok((1, Value::Number(150))));
    assert_eq!(field(&mut rest), Ok((2, Value::Bytes(&[7, 9]))));
    assert_eq!(field(&mut rest), Ok((3, Value::EightBytes)));
    assert_eq!(field(&mut rest), Ok((4, Value::FourBytes)));
    assert_eq!(field(&mut rest), Ok((536_870_911, Value::Number(0))));
    assert!(rest.is_empty());
}

#[test]
fn bad_tags() {
    for wire_type in [3, 4, 6, 7] {
        assert_eq!(refusal(&[0x08 | wire_type, 0x00]), Some(15));
        assert_eq!(refusal(&[0x28 | wire_type]), Some(15));
    }
    for wire_type in 0..8 {
        assert_eq!(refusal(&[wire_type, 0x00]), Some(15));
    }
    // Field 536,870,912, and a tag whose low 32 bits alone would be field 1.
    assert_eq!(refusal(&[0x80, 0x80, 0x80, 0x80, 0x10, 0x00]), Some(15));
    assert_eq!(refusal(&[0x88, 0x80, 0x80, 0x80, 0x80, 0x01, 0x05]), Some(15));
}

#[test]
fn values_cut_short() {
    assert_eq!(refusal(&[0x08]), Some(13));
    assert_eq!(refusal(&[0x80]), Some(13));
    assert_eq!(refusal(&[0x09, 1, 2, 3, 4, 5, 6, 7]), Some(13));
    assert_eq!(refusal(&[0x0D, 1, 2, 3]), Some(13));
    assert_eq!(refusal(&[0x2A, 2, 1]), Some(13));
    assert_eq!(refusal(&[0x2A]), Some(13));
    let longest = [0xFF, 0xFF, 0xFF, 0xFF, 0xFF, 0xFF, 0xFF, 0xFF, 0xFF, 0x01];
    assert_eq!(refusal(&[&[0x12][..], &longest].concat()), Some(13));
}

#[test]
fn nothing() {
    assert_eq!(read(&[]), Ok(NOTHING));
}

#[test]
fn all_fields() {
    let message = [0x08, 7, 0x12, 2, 0x08, 8, 0x1A, 4, 0x08, 9, 0x10, 10, 0x22, 2, 0x08, 11];
    let expected = Arbitration {
        device_id: 7,
        role: Some(Role { id: 8 }),
        election_id: Some(ElectionId { high: 9, low: 10 }),
        status: Some(Status { code: 11 }),
    };
    assert_eq!(read(&message), Ok(expected));
}

#[test]
fn empty_embedded_messages_are_present() {
    let expected = Arbitration {
        role: Some(Role::default()),
        election_id: Some(ElectionId::default()),
        status: Some(Status::default()),
        ..NOTHING
    };
    assert_eq!(read(&[0x22, 0, 0x1A, 0, 0x12, 0]), Ok(expected));
}

#[test]
fn last_scalar_wins() {
    assert_eq!(read(&[0x08, 1, 0x08, 2]), Ok(Arbitration { device_id: 2, ..NOTHING }));
    assert_eq!(read(&[0x08, 1, 0x08, 0]), Ok(NOTHING));
    let role = Some(Role { id: 3 });
    assert_eq!(read(&[0x12, 4, 0x08, 5, 0x08, 3]), Ok(Arbitration { role, ..NOTHING }));
}

#[test]
fn embedded_messages_merge() {
    let message = [0x1A, 4, 0x08, 1, 0x10, 2, 0x1A, 2, 0x08, 3, 0x1A, 0];
    let election_id = Some(ElectionId { high: 3, low: 2 });
    assert_eq!(read(&message), Ok(Arbitration { election_id, ..NOTHING }));
}

#[test]
fn unknown_fields_change_nothing() {
    let unknown: [&[u8]; 5] =
        [&[0x28, 1], &[0x29, 1, 2, 3, 4, 5, 6, 7, 8], &[0x2A, 1, 0xFF], &[0x2D, 1, 2, 3, 4], &[]];
    for bytes in unknown {
        assert_eq!(read(bytes), Ok(NOTHING));
        let role = [&[0x12, bytes.len() as u8][..], bytes].concat();
        let present = Arbitration { role: Some(Role::default()), ..NOTHING };
        assert_eq!(read(&role), Ok(present));
    }
}

#[test]
fn other_wire_types_are_unknown() {
    for tag in [0x08, 0x10, 0x18, 0x20] {
        assert_eq!(read(&[tag | 1, 1, 1, 1, 1, 1, 1, 1, 1]), Ok(NOTHING));
        assert_eq!(read(&[tag | 5, 1, 1, 1, 1]), Ok(NOTHING));
    }
    assert_eq!(read(&[0x0A, 1, 0xFF]), Ok(NOTHING));
    assert_eq!(read(&[0x10, 1, 0x18, 1, 0x20, 1]), Ok(NOTHING));
}

#[test]
fn status_code_is_the_low_half() {
    let code = |number: &[u8]| {
        let status = [&[0x22, number.len() as u8 + 1, 0x08][..], number].concat();
        read(&status).map(|read| read.status.map(|status| status.code))
    };
    let minus_one = [0xFF, 0xFF, 0xFF, 0xFF, 0xFF, 0xFF, 0xFF, 0xFF, 0xFF, 0x01];
    assert_eq!(code(&minus_one), Ok(Some(-1)));
    assert_eq!(code(&[0xFF, 0xFF, 0xFF, 0xFF, 0x0F]), Ok(Some(-1)));
    assert_eq!(code(&[0x80, 0x80, 0x80, 0x80, 0x08]), Ok(Some(i32::MIN)));
    assert_eq!(code(&[0x85, 0x80, 0x80, 0x80, 0x10]), Ok(Some(5)));
}

#[test]
fn first_fault_decides() {
    // A length past the end comes before what it would hold.
    assert_eq!(refusal(&[0x12, 3, 0x0B, 0]), Some(13));
    // A fault in an embedded message comes before one behind it.
    assert_eq!(refusal(&[0x12, 1, 0x0B, 0x80]), Some(15));
    assert_eq!(refusal(&[0x12, 1, 0x08, 0x0B]), Some(13));
    // A tag is judged before its value, which is not there.
    assert_eq!(refusal(&[0x0C]), Some(15));
    assert_eq!(refusal(&[0x00]), Some(15));
    // A number ends with its message, whatever follows.
    assert_eq!(refusal(&[0x12, 2, 0x08, 0x80, 0x01]), Some(13));
    let too_large = [0xFF, 0xFF, 0xFF, 0xFF, 0xFF, 0xFF, 0xFF, 0xFF, 0xFF, 0x02];
    assert_eq!(refusal(&[&[0x12, 10, 0x08][..], &too_large].concat()), Some(13));
    assert_eq!(refusal(&[&[0x12, 11, 0x08][..], &too_large].concat()), Some(14));
    // Every number counts: tags, lengths and the values of unknown fields.
    assert_eq!(refusal(&too_large), Some(14));
    assert_eq!(refusal(&[&[0x12][..], &too_large].concat()), Some(14));
    assert_eq!(refusal(&[&[0x28][..], &too_large].concat()), Some(14));
    // What is in an unknown field's bytes is not looked at.
    assert_eq!(refusal(&[0x2A, 2, 0x0B, 0x80]), None);
}

#[test]
fn a_concatenation_is_a_merge() {
    let (one, two) = ([0x08, 1, 0x1A, 2, 0x08, 3], [0x1A, 2, 0x10, 4, 0x12, 0]);
    let expected = Arbitration {
        device_id: 1,
        role: Some(Role::default()),
        election_id: Some(ElectionId { high: 3, low: 4 }),
        status: None,
    };
    assert_eq!(read(&[one, two].concat()), Ok(expected));
}

#[test]
fn bytes_of_the_fields() {
    let message = [
        &[0x08, 0x81, 0x02, 0x12, 2, 0x08, 2][..],
        &[0x1A, 4, 0x08, 3, 0x10, 4],
        &[0x22, 6, 0x08, 0xFE, 0xFF, 0xFF, 0xFF, 0x0F],
    ]
    .concat();
    let mut fields = [0xA5; 41];
    assert_eq!(read_into(&message, &mut fields), READ);
    let numbers = [257_u64, 2, 3, 4].map(u64::to_le_bytes).concat();
    assert_eq!(fields[..32], numbers[..]);
    assert_eq!(fields[32..], [0xFE, 0xFF, 0xFF, 0xFF, 1, 1, 1, 0, 0xA5]);
}

#[test]
fn refusals_leave_the_fields() {
    for (message, room, expected) in
        [(&[0x08][..], 40, 13), (&[0x08, 1], 39, NO_ROOM), (&[0x0B], 0, 15), (&[], 0, NO_ROOM)]
    {
        let mut fields = vec![0xA5; room];
        assert_eq!(read_into(message, &mut fields), expected);
        assert!(fields.iter().all(|&byte| byte == 0xA5));
    }
}

#[test]
fn lines() {
    let expected = "device_id 0\nrole absent\nrole.id 0\nelection_id present\nelection_id.high 0\n\
                    election_id.low 18446744073709551615\nstatus present\nstatus.code -5\n";
    let message = [
        &[0x1A, 11, 0x10, 0xFF, 0xFF, 0xFF, 0xFF, 0xFF, 0xFF, 0xFF, 0xFF, 0xFF, 0x01][..],
        &[0x22, 6, 0x08, 0xFB, 0xFF, 0xFF, 0xFF, 0x0F],
    ]
    .concat();
    assert_eq!(text_of(&message), expected);
    assert_eq!(text_of(&[0x0B]), "refused 15\n");
    assert_eq!(text_of(&[0x0B; MOST_INPUT]), "refused 15\n");
    assert_eq!(text_of(&[0x0B; MOST_INPUT + 1]), "refused 8\n");
}

const REQUEST: [u8; 15] = [0, 0, 0, 0, 10, 0x0A, 8, 0x08, 7, 0x1A, 4, 0x08, 1, 0x10, 2];

#[test]
fn frames() {
    let election_id = Some(ElectionId { high: 1, low: 2 });
    let carried = Carried::Arbitration(Arbitration { device_id: 7, election_id, ..NOTHING });
    assert_eq!(read_frame(&REQUEST, 0), Ok(Frame { carried, next: 15 }));
    let two = [&REQUEST[..], &[0, 0, 0, 0, 0]].concat();
    assert_eq!(read_frame(&two, 15), Ok(Frame { carried: Carried::Nothing, next: 20 }));
    for end in 0..15 {
        assert_eq!(read_frame(&REQUEST[..end], 0), Err(FRAME_CUT_SHORT));
    }
    for offset in [15, 16, usize::MAX] {
        assert_eq!(read_frame(&REQUEST, offset), Err(FRAME_CUT_SHORT));
    }
    assert_eq!(read_frame(&[1], 0), Err(FRAME_COMPRESSED));
    assert_eq!(read_frame(&[255, 0, 0, 0, 0], 0), Err(FRAME_COMPRESSED));
    assert_eq!(read_frame(&[0, 0, 0, 0, 1, 0x80], 0), Err(13));
    // The greatest byte of the length first.
    let long = [&[0, 0, 0, 1, 0][..], &[0; 256]].concat();
    assert_eq!(held(&long, 0).map(<[u8]>::len), Ok(256));
    assert_eq!(held(&long[..260], 0), Err(FRAME_CUT_SHORT));
}

#[test]
fn alternatives() {
    let device = |device_id| Carried::Arbitration(Arbitration { device_id, ..NOTHING });
    let role = |device_id| {
        Carried::Arbitration(Arbitration { device_id, role: Some(Role::default()), ..NOTHING })
    };
    let cases: [(&[u8], Carried); 12] = [
        (&[], Carried::Nothing),
        (&[0x0A, 0], device(0)),
        (&[0x0A, 2, 0x08, 7], device(7)),
        (&[0x12, 0], Carried::Other(2)),
        (&[0x1A, 1, 0xFF], Carried::Other(3)),
        (&[0x22, 0], Carried::Other(4)),
        (&[0x2A, 0], Carried::Other(5)),
        // Not an alternative: field 6, and field 1 of another wire type.
        (&[0x32, 0], Carried::Nothing),
        (&[0x08, 1, 0x10, 1], Carried::Nothing),
        // Twice in a row is merged; what stands between sets it aside.
        (&[0x0A, 2, 0x08, 7, 0x0A, 2, 0x12, 0], role(7)),
        (&[0x0A, 2, 0x08, 7, 0x12, 0, 0x0A, 2, 0x12, 0], role(0)),
        (&[0x0A, 2, 0x08, 7, 0x30, 1, 0x0A, 2, 0x12, 0], role(7)),
    ];
    for (message, carried) in cases {
        assert_eq!(read_message(message), Ok(carried));
    }
    // A fault counts also where what it stands in is set aside later.
    assert_eq!(read_message(&[0x0A, 1, 0x08, 0x12, 0]), Err(Refusal::CutShort));
    // What other alternatives hold is not looked into.
    assert_eq!(read_message(&[0x12, 1, 0x0B]), Ok(Carried::Other(2)));
}

#[test]
fn told() {
    let mut told = [0xA5; 49];
    assert_eq!(frame_into(&REQUEST, 0, &mut told), 257);
    assert_eq!((told[0], told[16], told[24], told[37], told[40], told[48]), (7, 1, 2, 1, 15, 0xA5));
    let mut told = [0xA5; 47];
    assert_eq!(frame_into(&REQUEST, 0, &mut told), NO_ROOM);
    assert_eq!(frame_into(&REQUEST, 1, &mut told), FRAME_CUT_SHORT);
    assert_eq!(told, [0xA5; 47]);
    let mut told = [0xA5; 48];
    assert_eq!(frame_into(&[0, 0, 0, 0, 2, 0x12, 0], 0, &mut told), 258);
    assert_eq!(told[..40], [0; 40]);
}

#[test]
fn captured_lines() {
    let packet = [0, 0, 0, 0, 2, 0x12, 0];
    let digest = [0, 0, 0, 0, 2, 0x1A, 0];
    let nothing = [0; 5];
    let fields = text(&read_frame(&REQUEST, 0).unwrap().carried.fields());
    let all = [&REQUEST[..], &packet, &digest, &nothing].concat();
    let expected = format!("1 arbitration\n{fields}2 packet\n3 field 3\n4 nothing\n");
    assert_eq!(captured_text(&all), expected.clone() + "frames 4\n");
    assert_eq!(
        captured_text(&all[..33]),
        expected[..expected.len() - 10].to_string() + "refused frame 4 29 21\n"
    );
    assert_eq!(captured_text(&[]), "frames 0\n");
    assert_eq!(captured_text(&[0, 0, 1, 0, 0]), "refused frame 1 0 21\n");
    assert_eq!(captured_text(&[0, 0, 1, 0, 1]), "refused frame 1 0 8\n");
    assert_eq!(captured_text(&[1, 0, 1, 0, 1]), "refused frame 1 0 22\n");
}

#[test]
fn looks_like_a_stream_message() {
    for (message, looks) in [
        (&REQUEST[..], true),
        (&REQUEST[..14], false),
        (&REQUEST[5..], true),
        (&REQUEST[7..], false),
        (&[], false),
        (&[0; 5], true),
        (&[0x0A, 1, 0x80], false),
        (&[0x0A, 0, 0x08, 1], false),
        (&[0x0A, 0, 0x12, 0], false),
        (&[0x12, 0, 0x0A, 0], false),
    ] {
        assert_eq!(looks_streamed(message), looks, "{message:?}");
    }
}
