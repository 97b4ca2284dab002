//! Messages, each with the fields that went in.

use messages::{number, padded, Written};
use reading::{Arbitration, ElectionId, Role, Status};

use crate::protoc;

/// A message and what is to be read from it, or the number of the refusal.
pub struct Case {
    pub name: String,
    pub message: Vec<u8>,
    pub expected: Result<Arbitration, u32>,
}

impl Case {
    fn new(name: &str, message: Vec<u8>, expected: Result<Arbitration, u32>) -> Self {
        Case { name: name.to_string(), message, expected }
    }
}

pub fn all() -> Result<Vec<Case>, String> {
    let mut cases = Vec::new();
    for arbitration in edges() {
        let text = text_format(&arbitration);
        let message = protoc::encode("arbitration", "MasterArbitrationUpdate", &text)?;
        cases.push(Case::new(&text, message, Ok(arbitration)));
    }
    for (kind, text, expected) in senders() {
        let message = protoc::encode("senders", kind, text)?;
        cases.push(Case::new(&format!("{kind} {text}"), message, expected));
    }
    cases.extend(by_hand());
    Ok(cases)
}

const NUMBERS: [u64; 9] = [0, 1, 127, 128, 1 << 32, (1 << 63) - 1, 1 << 63, u64::MAX - 1, u64::MAX];
const CODES: [i32; 9] = [0, 1, 5, 6, 16, i32::MAX, -1, -128, i32::MIN];
const NOTHING: Arbitration =
    Arbitration { device_id: 0, role: None, election_id: None, status: None };

fn role(id: u64) -> Option<Role> {
    Some(Role { id })
}

fn election_id(high: u64, low: u64) -> Option<ElectionId> {
    Some(ElectionId { high, low })
}

fn status(code: i32) -> Option<Status> {
    Some(Status { code })
}

/// Every field, alone and with the others, at the ends of its range.
fn edges() -> Vec<Arbitration> {
    let mut edges = vec![NOTHING];
    for value in NUMBERS {
        edges.push(Arbitration { device_id: value, ..NOTHING });
        edges.push(Arbitration { role: role(value), ..NOTHING });
        edges.push(Arbitration { election_id: election_id(value, 0), ..NOTHING });
        edges.push(Arbitration { election_id: election_id(0, value), ..NOTHING });
    }
    for code in CODES {
        edges.push(Arbitration { status: status(code), ..NOTHING });
    }
    for (value, code) in NUMBERS.into_iter().zip(CODES) {
        let election_id = election_id(value, !value);
        let (role, status) = (role(value ^ 1), status(code));
        edges.push(Arbitration { device_id: value, role, election_id, status });
    }
    edges
}

/// The text from which protoc makes the message.
fn text_format(arbitration: &Arbitration) -> String {
    let device_id = format!("device_id: {}", arbitration.device_id);
    let role = arbitration.role.map(|role| format!("role {{ id: {} }}", role.id));
    let election_id = arbitration
        .election_id
        .map(|id| format!("election_id {{ high: {} low: {} }}", id.high, id.low));
    let status = arbitration.status.map(|status| format!("status {{ code: {} }}", status.code));
    let parts = [Some(device_id), role, election_id, status];
    parts.into_iter().flatten().collect::<Vec<_>>().join(" ")
}

type Sent = (&'static str, &'static str, Result<Arbitration, u32>);

/// What senders with other definitions write.
fn senders() -> Vec<Sent> {
    let all_empty =
        Arbitration { role: role(0), election_id: election_id(0, 0), status: status(0), ..NOTHING };
    let one = Arbitration { device_id: 1, ..NOTHING };
    vec![
        ("Repeating", "device_id: 0", Ok(NOTHING)),
        ("Repeating", "device_id: 7 device_id: 1", Ok(one)),
        ("Repeating", "device_id: 7 device_id: 0", Ok(NOTHING)),
        ("Repeating", "role {} election_id {} status {}", Ok(all_empty)),
        (
            "Repeating",
            "role { id: 3 } role {} role { id: 4 id: 5 } role {}",
            Ok(Arbitration { role: role(5), ..NOTHING }),
        ),
        (
            "Repeating",
            "election_id { high: 1 low: 2 } election_id { high: 3 }",
            Ok(Arbitration { election_id: election_id(3, 2), ..NOTHING }),
        ),
        (
            "Repeating",
            "election_id { low: 2 } election_id { high: 1 } election_id { low: 0 }",
            Ok(Arbitration { election_id: election_id(1, 0), ..NOTHING }),
        ),
        (
            "Repeating",
            "status { code: -3 code: 4 } status { code: -2 } status {}",
            Ok(Arbitration { status: status(-2), ..NOTHING }),
        ),
        (
            "Newer",
            "device_id: 1 [hoefspanker.number]: 18446744073709551615 [hoefspanker.zigzag]: -1 \
             [hoefspanker.eight]: 2 [hoefspanker.text]: '\\010\\377\\022' [hoefspanker.four]: 3",
            Ok(one),
        ),
        (
            "Newer",
            "device_id: 1 [hoefspanker.packed]: [1, 200, 4294967295] [hoefspanker.last]: -0.5 \
             [hoefspanker.nested] { device_id: 9 role { first: 9 } }",
            Ok(one),
        ),
        (
            "Newer",
            "role { first: 2 [hoefspanker.part_number]: 9 [hoefspanker.part_eight]: 9 } \
             election_id { first: 3 [hoefspanker.part_text]: 'id' [hoefspanker.part_four]: 9 } \
             status { first: 18446744073709551612 [hoefspanker.part_last]: 9 }",
            Ok(Arbitration {
                role: role(2),
                election_id: election_id(3, 0),
                status: status(-4),
                ..NOTHING
            }),
        ),
        ("Fixed", "device_id: 1 role: 2 election_id: 3 status: 4", Ok(NOTHING)),
        ("Swapped", "device_id: '\\010\\001' role: 2 election_id: 3 status: 4", Ok(NOTHING)),
        (
            "FixedParts",
            "role { eight: 1 four: 2 } election_id { eight: 3 four: 4 } status { eight: 5 }",
            Ok(all_empty),
        ),
        ("Grouping", "device_id: 1", Ok(one)),
        ("Grouping", "device_id: 1 Old { number: 2 }", Err(15)),
    ]
}

/// Numbers in more bytes than protoc would write, and in too many.
fn by_hand() -> Vec<Case> {
    let mut cases = Vec::new();
    for len in 1..=10 {
        let one = Ok(Arbitration { device_id: 1, ..NOTHING });
        let value = Written::new().tag(1, 0).raw(&padded(1, len)).bytes;
        cases.push(Case::new(&format!("1 in {len} bytes"), value, one));
        let tag = Written::new().raw(&padded(8, len)).raw(&[1]).bytes;
        cases.push(Case::new(&format!("tag in {len} bytes"), tag, one));
        let length = Written::new().tag(2, 2).raw(&padded(2, len)).number(1, 5).bytes;
        let five = Ok(Arbitration { role: role(5), ..NOTHING });
        cases.push(Case::new(&format!("length in {len} bytes"), length, five));
    }
    let eleven = [padded(1, 10)[..9].to_vec(), vec![0x80, 0x00]].concat();
    let value = Written::new().tag(1, 0).raw(&eleven).bytes;
    cases.push(Case::new("1 in eleven bytes", value, Err(14)));
    let length = Written::new().tag(3, 2).raw(&number(1 << 32)).bytes;
    cases.push(Case::new("length of 4 GiB", length, Err(13)));
    cases
}
