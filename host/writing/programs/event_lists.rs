//! Event lists: good ones, strange ones, damaged ones, and the examples.

use lists::{with_trailer, Step};
use random::Random;
use reference::limits::{LONGEST_LIST, MOST_RECORDS, RECORD_BYTES, TRAILER_BYTES};
use reference::EventList;

const PAIRS: usize = 40;

/// Every kind and node, with notes and without; the longest lists and one longer; and
/// a list with each byte of its trailer changed, and cut behind each.
pub fn built() -> Vec<Vec<u8>> {
    let bytes: Vec<Step> = (0..=255).map(|byte| (byte, 255 - byte)).collect();
    let longest = with_trailer(&[], &[(5, 8); MOST_RECORDS], 8);
    let short = with_trailer(&[], &[(1, 1), (13, 0)], 2);
    let changed = |at: usize| {
        let mut list = short.clone();
        list[4 + at] ^= 16;
        list
    };
    let mut lists = vec![
        with_trailer(&[], &bytes, 8),
        with_trailer(b"notes", &bytes[1..14], 8),
        with_trailer(&[7; 300], &[(1, 1), (13, 0)], 1),
        with_trailer(&[7; LONGEST_LIST - TRAILER_BYTES], &[], 1),
        with_trailer(&[], &[(14, 255); MOST_RECORDS], 8),
        [&[0][..], &longest].concat(),
        longest,
    ];
    lists.extend((0..TRAILER_BYTES).map(changed));
    lists.extend((0..=short.len()).map(|len| short[..len].to_vec()));
    lists
}

/// Lists at random, some with notes, with kinds and nodes that do not exist, or
/// damaged.
pub fn drawn(random: &mut Random) -> Vec<Vec<u8>> {
    let mut lists = Vec::new();
    for number in 0..PAIRS {
        let mut pair = pairs::drawn(random);
        if number % 4 == 3 {
            pairs::damage(random, &mut pair);
        }
        lists.extend([pair.first, pair.second]);
    }
    lists
}

/// The lists under `examples`.
pub fn examples() -> std::io::Result<Vec<Vec<u8>>> {
    let mut lists = Vec::new();
    for entry in std::fs::read_dir("examples")? {
        let path = entry?.path();
        if path.extension() == Some("hex".as_ref()) {
            let text = std::fs::read_to_string(path)?;
            let lines = text.lines().filter(|line| !line.starts_with('#'));
            let bytes = lines.flat_map(str::split_whitespace);
            lists.push(bytes.filter_map(|byte| u8::from_str_radix(byte, 16).ok()).collect());
        }
    }
    Ok(lists)
}

/// What must come back of a list by way of its text, if all of its records exist.
pub fn without_notes(list: &[u8]) -> Option<Vec<u8>> {
    let EventList { records, nodes, .. } = EventList::read(list).ok()?;
    let steps: Vec<Step> = records.chunks(RECORD_BYTES).map(|step| (step[0], step[1])).collect();
    let exists = |&(kind, node): &Step| writer::judged(nodes, kind, Some(node)).is_ok();
    steps.iter().all(exists).then(|| with_trailer(&[], &steps, nodes))
}
