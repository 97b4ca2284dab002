//! Reads messages that protobuf's own compiler wrote, and has it read messages
//! that were made here; the library and the program must agree with what went
//! in. Every prefix and every change of a byte is compared with the reading here.
//!
//! Usage: peer PROGRAM, with the path of the program `arbitration`, in the
//! repository's folder. Exit status 0: no difference; 1: a difference.

mod answer;
mod cases;
mod protoc;

use std::process::{Command, ExitCode};

use calls::{Call, Compared};
use cases::Case;
use messages::{framed, Written};
use random::Random;
use reading::{Arbitration, CARRYING, FIELDS_BYTES, MOST_INPUT, READ, TOLD_BYTES};

/// Messages that protoc reads.
const DECODED: usize = 3_000;

fn main() -> ExitCode {
    let given: Vec<String> = std::env::args().skip(1).collect();
    trial::ended(match &given[..] {
        [program] => compare(program),
        _ => Err("usage: peer PROGRAM".to_string()),
    })
}

fn compare(program: &str) -> Result<(), String> {
    let cases = cases::all()?;
    for case in &cases {
        let named = |error| format!("{}\n{}{error}", case.name, trial::hex(&case.message));
        call_reads(&case.message, case.expected).map_err(named)?;
        program_prints(program, case).map_err(named)?;
    }
    println!("{} messages read by the library and the program", cases.len());
    too_long(program)?;
    let changed: Result<Vec<usize>, String> = cases.iter().map(changes).collect();
    println!("{} changes of them compared", changed?.iter().sum::<usize>());
    decoded()?;
    println!("{DECODED} drawn messages read by protoc and the library");
    decoded_responses()?;
    println!("{DECODED} drawn stream messages read by protoc and the library");
    Ok(())
}

/// The C call gives what went in.
fn call_reads(message: &[u8], expected: Result<Arbitration, u32>) -> Result<(), String> {
    let mut fields = [0xA5; FIELDS_BYTES];
    let returned = library::read_arbitration(message, &mut fields);
    let wanted = match expected {
        Ok(arbitration) => (READ, arbitration.to_bytes()),
        Err(refusal) => (refusal, [0xA5; FIELDS_BYTES]),
    };
    if (returned, fields) == wanted {
        return Ok(());
    }
    Err(format!("expected {wanted:?}\nthe library has {:?}", (returned, fields)))
}

fn program_prints(program: &str, case: &Case) -> Result<(), String> {
    let expected = match &case.expected {
        Ok(arbitration) => reading::text(arbitration),
        Err(refusal) => format!("refused {refusal}\n"),
    };
    prints(program, &case.message, &expected)
}

fn prints(program: &str, input: &[u8], expected: &str) -> Result<(), String> {
    let printed = trial::printed(&mut Command::new(program), input)?;
    if printed == expected.as_bytes() {
        return Ok(());
    }
    let printed = String::from_utf8_lossy(&printed);
    Err(format!("expected\n{expected}the program prints\n{printed}"))
}

/// The longest message, and the input that is one byte longer.
fn too_long(program: &str) -> Result<(), String> {
    let field = MOST_INPUT - Written::new().bytes(5, &[0; MOST_INPUT / 2]).bytes.len();
    let longest = Written::new().bytes(5, &vec![0; MOST_INPUT / 2 + field]).bytes;
    assert_eq!(longest.len(), MOST_INPUT);
    prints(program, &longest, &reading::text(&Arbitration::default()))?;
    prints(program, &[&longest[..], &[0x80]].concat(), "refused 8\n")
}

/// Compares every prefix and every change of one byte; returns how many.
fn changes(case: &Case) -> Result<usize, String> {
    let mut compared = 0;
    let mut compare = |message: &[u8]| {
        compared += 1;
        let call = Call::of(message);
        call.compare().1.map_or(Ok(()), |word| Err(format!("{}{word}", trial::hex(message))))
    };
    for cut in 0..case.message.len() {
        compare(&case.message[..cut])?;
        let mut changed = case.message.clone();
        for _ in 0..255 {
            changed[cut] = changed[cut].wrapping_add(1);
            compare(&changed)?;
        }
    }
    Ok(compared)
}

/// Drawn messages, read by protoc all at once and by the C call.
fn decoded() -> Result<(), String> {
    let mut random = Random::from_seed(1);
    let drawn: Vec<Vec<u8>> = (0..DECODED).map(|_| messages::portable(&mut random)).collect();
    let text = protoc::decode("arbitration", "Updates", &all_of(&drawn))?;
    for (message, answer) in drawn.iter().zip(counted(answer::updates(&text)?)?) {
        let named = |error| format!("{}{error}", trial::hex(message));
        call_reads(message, Ok(answer)).map_err(named)?;
    }
    Ok(())
}

/// The same of stream messages, each in a frame.
fn decoded_responses() -> Result<(), String> {
    let mut random = Random::from_seed(2);
    let drawn: Vec<Vec<u8>> =
        (0..DECODED).map(|_| messages::portable_stream(&mut random)).collect();
    let text = protoc::decode("stream", "Responses", &all_of(&drawn))?;
    for (message, carried) in drawn.iter().zip(counted(answer::responses(&text)?)?) {
        let mut told = [0xA5; TOLD_BYTES];
        let returned = library::read_frame(&framed(message), 0, &mut told);
        let wanted = (CARRYING + carried.kind() as u32, carried.fields().to_bytes());
        if (returned, &told[..FIELDS_BYTES]) != (wanted.0, &wanted.1) {
            let hex = trial::hex(message);
            return Err(format!("{hex}expected {carried:?}\nthe library has {returned} {told:?}"));
        }
    }
    Ok(())
}

/// Messages as field 1 of one message.
fn all_of(drawn: &[Vec<u8>]) -> Vec<u8> {
    drawn.iter().fold(Written::new(), |all, message| all.bytes(1, message)).bytes
}

/// As many answers as messages.
fn counted<T>(answers: Vec<T>) -> Result<Vec<T>, String> {
    if answers.len() == DECODED {
        Ok(answers)
    } else {
        Err(format!("protoc read {} of {DECODED} messages", answers.len()))
    }
}
