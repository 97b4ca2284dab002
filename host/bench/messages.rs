//! Reading arbitration messages.

use library::Call;
use messages::{all_fields, long};
use random::Random;
use reading::{FIELDS_BYTES, READ};

use crate::{stack, turns};

const LONGEST: usize = 65_536;

pub fn measure_all(rounds: usize) {
    let mut random = Random::from_seed(1);
    println!(
        "\n{:26}{:>8}{:>7}{:>15}{:>15}{:>7}{:>13}",
        "arbitration messages", "number", "bytes", "library", "reading", "ratio", "stack bytes"
    );
    let usual: Vec<Vec<u8>> = (0..1_000).map(|_| usual(&mut random)).collect();
    let wide: Vec<Vec<u8>> = (0..1_000).map(|_| all_fields(&mut random)).collect();
    measure("all fields, small numbers", &usual, rounds);
    measure("all fields, any numbers", &wide, rounds);
    measure("many unknown fields", &[long(&mut random, LONGEST)], rounds);
}

/// A controller's update: a device, the default role, an election id that counts
/// up, and the answer to it.
fn usual(random: &mut Random) -> Vec<u8> {
    let number = |random: &mut Random| random.between(1, 100_000) as u64;
    messages::update(number(random), number(random), [number(random), number(random)], 6)
}

fn measure(name: &str, messages: &[Vec<u8>], rounds: usize) {
    let read_all = |read: Call| {
        let mut fields = [0; FIELDS_BYTES];
        turns::time(|| {
            for message in messages {
                assert_eq!(read(message, &mut fields), READ);
            }
        })
    };
    let (library, plain) = turns::least(
        rounds,
        || read_all(library::read_arbitration),
        || read_all(reading::read_into),
    );
    let bytes = messages.iter().map(Vec::len).sum::<usize>() / messages.len();
    let of = |time| turns::each(time, messages.len());
    println!(
        "{:26}{:>8}{:>7}{:>12.1} ns{:>12.1} ns{:>7.2}{:>13}",
        name,
        messages.len(),
        bytes,
        of(library),
        of(plain),
        of(library) / of(plain),
        stack::used_by(|| library::read_arbitration(&messages[0], &mut [0; FIELDS_BYTES])),
    );
}
