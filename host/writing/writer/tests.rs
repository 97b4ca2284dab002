//! Lists, texts and refusals by hand.

use reference::limits::{LONGEST_LIST, MOST_RECORDS};

use crate::*;

/// Join of node 1 and a shutdown, among two nodes.
const STEPS: [u8; 4] = [1, 1, 12, 0];
const LIST: [u8; 16] = [1, 1, 12, 0, 0, 0, 0, 0, 2, 0, 0, 0, 2, 0, 0x4D, 0x41];

/// What a call returns that finds room, and one that finds none.
fn answers(nodes: u32, steps: &[u8]) -> [u32; 2] {
    [write(nodes, steps, &mut [0; LONGEST_LIST + 2]), write(nodes, steps, &mut [])]
}

#[test]
fn a_list_is_written() {
    let mut out = [7; 18];
    assert_eq!(write(2, &STEPS, &mut out), 256 + 16);
    assert_eq!(out[..], [&LIST[..], &[7, 7]].concat());
    let mut short = [7; 15];
    assert_eq!(write(2, &STEPS, &mut short), 12);
    assert_eq!(short, [7; 15]);
    assert_eq!(answers(8, &[]), [256 + 12, 12]);
}

#[test]
fn node_counts_are_judged_first() {
    for nodes in [0, 9, 255, 256, 257, 266, u32::MAX] {
        assert_eq!(answers(nodes, &STEPS), [10, 10]);
        assert_eq!(answers(nodes, &[14, 1, 1]), [10, 10]);
    }
}

#[test]
fn the_first_bad_step_is_told() {
    let unknown: [&[u8]; 5] = [&[0, 1], &[14, 9], &[1, 1, 14, 0, 1, 0], &[255], &[1, 1, 0]];
    let wrong: [&[u8]; 6] = [&[1, 0], &[11, 3], &[12, 1], &[13, 2, 0, 0], &[1, 1, 1], &[13]];
    let good = [1, 2].repeat(MOST_RECORDS);
    for (code, all) in [(2, &unknown[..]), (3, &wrong)] {
        for steps in all {
            assert_eq!(answers(2, steps), [code, code], "{steps:?}");
            assert_eq!(answers(2, &[&good, *steps].concat()), [code, code], "{steps:?}");
        }
    }
}

#[test]
fn too_many_steps_are_refused_before_the_buffer() {
    let longest = 256 + LONGEST_LIST as u32;
    assert_eq!(answers(2, &STEPS.repeat(MOST_RECORDS / 2)), [longest, 12]);
    assert_eq!(answers(1, &[9, 1].repeat(MOST_RECORDS + 1)), [8, 8]);
}

#[test]
fn texts_are_written_in_many_ways() {
    let odd = " nodes\t02 # two\r\n\n#join 2\n\tjoin 0000000000000000001\r\n \r\n012 000#";
    for text in ["nodes 2\njoin 1\nshutdown 0\n", "nodes 2\n1 1\n12 0", odd] {
        assert_eq!(list_of(text.as_bytes()), Ok(LIST.to_vec()), "{text:?}");
    }
}

fn refuses(text: &str, line: &str) {
    assert_eq!(list_of(text.as_bytes()), Err(line.to_string() + "\n"), "{text:?}");
}

#[test]
fn texts_are_refused() {
    for text in ["", "\n\n", "# nodes 1", "join 1", "nodes", "nodes one", "nodes 256", "Nodes 1"] {
        refuses(text, "refused line 1");
    }
    for step in ["join", "join 1 1", "Join 1", "256 1", "join 256", "nodes 1"] {
        refuses(&format!("#\nnodes 1\njoin 1\n\n{step}\n14 1\n"), "refused line 5");
    }
    refuses("nodes 1\n1 00000000000000000001", "refused line 2");
    refuses("\nnodes 0\n", "refused 10 line 2");
    refuses("nodes 9\njoin", "refused 10 line 1");
    refuses("nodes 2\n14 9", "refused 2 line 2");
    refuses("nodes 2\n\njoin 3\n0 0", "refused 3 line 3");
}

#[test]
fn long_texts() {
    let many = |more: &str| "nodes 1\n".to_string() + &"join 1\n".repeat(MOST_RECORDS) + more;
    assert_eq!(list_of(many("").as_bytes()).map(|list| list.len()), Ok(LONGEST_LIST));
    refuses(&many("join 1"), "refused 8");
    refuses(&many("join 1\njoin 0\n"), "refused 3 line 32765");
    refuses(&"#".repeat(LONGEST_TEXT), "refused line 1");
    refuses(&"#".repeat(LONGEST_TEXT + 1), "refused long");
}

#[test]
fn lists_are_told() {
    assert_eq!(text_of(&LIST), Ok(b"nodes 2\njoin 1\nshutdown 0\n".to_vec()));
    let strange = [9, 9, 9, 0, 7, 14, 1, 13, 255, 3, 0, 0, 0, 3, 0, 0, 0, 1, 0, 0x4D, 0x41];
    let told = b"nodes 1\n# note bytes left out: 3\n0 7\n14 1\nstartup 255\n";
    assert_eq!(text_of(&strange), Ok(told.to_vec()));
    assert_eq!(text_of(&LIST[5..]), Err("refused 8\n".to_string()));
    assert_eq!(text_of(&LIST[2..]), Err("refused 11\n".to_string()));
}
