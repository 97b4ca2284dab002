//! The verdict against two slower ways to say the same, and the texts.

use lists::{even_steps, with_trailer};
use random::Random;
use reference::{independent, Step};

use crate::*;

/// The walk of the interface, word by word.
fn walked(nodes: u8, first: &[Step], second: &[Step]) -> Verdict {
    let mut rest: Vec<(usize, Step)> = (1..).zip(second.iter().copied()).collect();
    for (place, &a) in (1..).zip(first) {
        let end = rest.iter().position(|&(_, step)| !independent(nodes, a, step));
        let (s, b) = match end {
            Some(end) if rest[end].1 == a => {
                rest.remove(end);
                continue;
            }
            Some(end) => rest[end],
            None => return Verdict::OnlyFirst(place),
        };
        let r = rest.iter().find(|&&(_, step)| step == a);
        let q = (1..).zip(first).skip(place - 1).find(|&(_, &step)| step == b);
        return match (r, q) {
            (None, _) => Verdict::OnlyFirst(place),
            (_, None) => Verdict::OnlySecond(s),
            (Some(&(r, _)), Some((q, _))) => Verdict::Order([place, q], [r, s]),
        };
    }
    rest.first().map_or(Verdict::Same, |&(place, _)| Verdict::OnlySecond(place))
}

/// Of every two dependent steps, both lists have the same occurrences in the
/// same order.
fn same_by_pairs(nodes: u8, first: &[Step], second: &[Step]) -> bool {
    let all: Vec<Step> = first.iter().chain(second).copied().collect();
    let only = |list: &[Step], a: Step, b: Step| -> Vec<Step> {
        list.iter().copied().filter(|&step| step == a || step == b).collect()
    };
    all.iter().all(|&a| {
        let mut dependent = all.iter().filter(|&&b| !independent(nodes, a, b));
        dependent.all(|&b| only(first, a, b) == only(second, a, b))
    })
}

/// Steps of which some do not exist.
fn any_steps(random: &mut Random, nodes: u8, len: usize) -> Vec<Step> {
    let mut steps = even_steps(random, nodes, len);
    for step in &mut steps {
        if random.percent(3) {
            *step = random.pick(&[(0, 1), (14, 1), (3, 0), (3, nodes + 1), (12, 1), (200, 200)]);
        }
    }
    steps
}

#[test]
fn three_ways_agree() {
    let mut random = Random::from_seed(5);
    let mut same = 0;
    for _ in 0..3_000 {
        let nodes = random.between(1, 3) as u8;
        let len = random.below(12);
        let first = any_steps(&mut random, nodes, len);
        let mut second = first.clone();
        for _ in 0..random.below(20) {
            let at = random.below(len.max(2) - 1);
            if at + 1 < len && (independent(nodes, first[at], first[at + 1]) || random.percent(5)) {
                second.swap(at, at + 1);
            }
        }
        if random.percent(10) && len > 0 {
            second.remove(random.below(len));
        }
        let judged = verdict(nodes, &first, &second);
        assert_eq!(judged, walked(nodes, &first, &second), "{first:?} {second:?}");
        let by_pairs = same_by_pairs(nodes, &first, &second);
        assert_eq!(judged == Verdict::Same, by_pairs, "{first:?} {second:?}");
        same += usize::from(by_pairs);
    }
    assert!((500..2_500).contains(&same), "{same} of 3000 are the same");
}

#[test]
fn verdicts() {
    let judged = |first: &[Step], second: &[Step]| verdict(2, first, second);
    assert_eq!(judged(&[], &[]), Verdict::Same);
    assert_eq!(judged(&[(3, 1), (3, 2)], &[(3, 2), (3, 1)]), Verdict::Same);
    assert_eq!(judged(&[(3, 1), (1, 1)], &[(1, 1), (3, 1)]), Verdict::Order([1, 2], [2, 1]));
    assert_eq!(judged(&[(3, 2), (3, 1)], &[(3, 2)]), Verdict::OnlyFirst(2));
    assert_eq!(judged(&[(3, 2)], &[(3, 2), (3, 1)]), Verdict::OnlySecond(2));
    // A dependent record stands before the one that is looked for, and the first
    // list has none of it.
    assert_eq!(judged(&[(3, 1)], &[(1, 1), (3, 1)]), Verdict::OnlySecond(1));
    // Both lack a record of the other: the first list's is named.
    assert_eq!(judged(&[(3, 1)], &[(1, 1)]), Verdict::OnlyFirst(1));
    // Steps that do not exist depend on everything, and equal ones match.
    assert_eq!(judged(&[(0, 9), (3, 1)], &[(0, 9), (3, 1)]), Verdict::Same);
    assert_eq!(judged(&[(0, 9), (3, 1)], &[(3, 1), (0, 9)]), Verdict::Order([1, 2], [2, 1]));
    assert_eq!(judged(&[(0, 9), (0, 8)], &[(0, 8), (0, 9)]), Verdict::Order([1, 2], [2, 1]));
}

#[test]
fn refusals_in_order() {
    let good = with_trailer(&[], &[(1, 1)], 2);
    let three = with_trailer(&[], &[(1, 1)], 3);
    let bad = &good[..11];
    for (first, second, room, expected) in [
        (bad, bad, 0, 8),
        (&good[..], bad, 7, 12),
        (&good, bad, 8, 24),
        (&good, &three, 8, 28),
        (&good, &good, 8, 256),
    ] {
        let mut places = vec![0xA5; room];
        assert_eq!(same_merge(first, second, &mut places), expected);
        assert!(expected == 256 || places.iter().all(|&byte| byte == 0xA5));
    }
}

#[test]
fn places_in_bytes() {
    let first = with_trailer(&[], &[(3, 1), (1, 1)], 2);
    let second = with_trailer(&[7], &[(1, 1), (3, 1)], 2);
    let mut places = [0xA5; 9];
    assert_eq!(same_merge(&first, &second, &mut places), 257);
    assert_eq!(places, [1, 0, 2, 0, 2, 0, 1, 0, 0xA5]);
}

#[test]
fn texts_of_compare() {
    let first = with_trailer(&[], &[(3, 1), (1, 1)], 2);
    let second = with_trailer(&[], &[(1, 1), (3, 1)], 2);
    assert_eq!(compare_text(&first, &first), "same\nwrites 0 0\nagrees\n");
    assert_eq!(compare_text(&first, &second), "order 1 2 2 1\nwrites 0 0\nagrees\n");
    assert_eq!(compare_text(&first, &[]), "refused second 8\n");
    let write = [(1, 1), (3, 1), (8, 1), (4, 1), (10, 1), (5, 1), (6, 1), (11, 1)];
    let written = with_trailer(&[], &write, 2);
    let expected = "only second 1\nwrites 0 1\ndiffers 1 0 0 1 1\n";
    assert_eq!(compare_text(&with_trailer(&[], &[], 2), &written), expected);
    assert_eq!(compare_text(&written, &with_trailer(&[], &[], 3)), "refused nodes 2 3\n");
}

#[test]
fn logs_as_text() {
    let record = |line, log, time, step| Logged { line, log, time, step };
    let text = b" 2\t10 \r\n\n1 5 3 1\r\n   \n0002 9999999999999999999 255 0";
    let records = vec![record(3, 1, 5, (3, 1)), record(5, 2, 9_999_999_999_999_999_999, (255, 0))];
    assert_eq!(read_log(text), Ok(Log { nodes: 2, bound: 10, records }));
    let later = vec![record(5, 1, 5, (3, 1))];
    let read = read_log(b"\n \t\n2 10\n\n1 5 3 1");
    assert_eq!(read, Ok(Log { nodes: 2, bound: 10, records: later }));
    for (text, line) in [
        ("", 1),
        ("\n \t\n", 1),
        ("\n2", 2),
        (" \r\n\n2 1 1", 3),
        ("2", 1),
        ("0 1", 1),
        ("9 1", 1),
        ("2 1 1", 1),
        ("2 -1", 1),
        ("2 1\n1 1 1", 2),
        ("2 1\n1 1 256 1", 2),
        ("2 1\n1 1 1 256", 2),
        ("2 1\n1 1 1 1 1", 2),
        ("2 1\n\n1 1 1 1x", 3),
        ("2 1\n1 10000000000000000000 1 1", 2),
        ("2 1\n1 00000000000000000001 1 1", 2),
    ] {
        assert_eq!(read_log(text.as_bytes()), Err(BadLog::Line(line)), "{text:?}");
    }
}

#[test]
fn longest_logs() {
    let text = |records: usize| "1 0\n".to_string() + &"0 0 1 1\n".repeat(records);
    assert!(read_log(text(32_762).as_bytes()).is_ok());
    assert_eq!(read_log(text(32_763).as_bytes()), Err(BadLog::Line(32_764)));
    let padded = |len: usize| "1 0\n".to_string() + &" ".repeat(len - 4);
    assert!(read_log(padded(LONGEST_TEXT).as_bytes()).is_ok());
    assert_eq!(read_log(padded(LONGEST_TEXT + 1).as_bytes()), Err(BadLog::Long));
}

#[test]
fn merges_that_the_clocks_allow() {
    let text = "1 2\n1 10 3 1\n1 11 3 1\n2 12 3 1\n3 14 3 1\n";
    let log = read_log(text.as_bytes()).unwrap();
    let lines: Vec<Vec<usize>> =
        log.merges().iter().map(|merge| merge.iter().map(|record| record.line).collect()).collect();
    // Line 5 is later than 2 and 3 by any clock, and 3 is behind 2 in log 1.
    let expected = [[2, 3, 4, 5], [2, 3, 5, 4], [2, 4, 3, 5], [4, 2, 3, 5]];
    assert_eq!(lines, expected);
}

#[test]
fn texts_of_merges() {
    let start = "1 0 1 1\n1 1 3 1\n1 2 8 1\n1 3 4 1\n1 4 10 1\n1 5 5 1\n1 6 6 1\n";
    let doubtful = format!("2 3\n{start}1 10 11 1\n2 12 12 0\n");
    let expected = "doubt 9 1 10 11 1 10 2 12 12 0\ndiffers 1 1 1 0 0\n";
    assert_eq!(merges_text(doubtful.as_bytes()), expected);
    let apart = format!("2 1\n{start}1 10 11 1\n2 12 12 0\n");
    assert_eq!(merges_text(apart.as_bytes()), "same\n");
    // The shutdown is noted 5 before the write that stands before it.
    for (bound, word) in [(4, "against"), (5, "doubt")] {
        let backwards = format!("2 {bound}\n{start}1 20 11 1\n2 15 12 0\n");
        let expected = format!("{word} 9 1 20 11 1 10 2 15 12 0\ndiffers 1 1 1 0 0\n");
        assert_eq!(merges_text(backwards.as_bytes()), expected);
    }
    let expected = "against 2 1 10 1 1 3 2 5 3 1\nagrees\n";
    assert_eq!(merges_text(b"2 0\n1 10 1 1\n2 5 3 1\n"), expected);
    assert_eq!(merges_text(b"2 1\n"), "same\n");
    assert_eq!(merges_text(b"2 x\n"), "refused line 1\n");
    let many = "1 9\n".to_string() + &"1 0 1 1\n2 0 1 1\n".repeat(5);
    let text = merges_text(many.as_bytes());
    assert_eq!(text.lines().count(), 2 * DOUBTS_SHOWN + 1);
    assert!(text.ends_with("more\n"));
}
