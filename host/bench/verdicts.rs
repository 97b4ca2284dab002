//! Judging two lists.

use judge::PLACES_BYTES;
use lists::{even_steps, with_trailer, Habits, Step, Walk};
use random::Random;
use reference::limits::{HISTORY_BYTES, MOST_RECORDS};

use crate::{stack, turns};

/// The longest takes a fifth of a second and more.
const MOST_ROUNDS: usize = 10;

pub fn measure_all(rounds: usize) {
    let rounds = rounds.min(MOST_ROUNDS);
    let mut random = Random::from_seed(1);
    println!(
        "\n{:26}{:>8}{:>7}{:>15}{:>15}{:>7}{:>13}",
        "two merges", "records", "result", "library", "judge", "ratio", "stack bytes"
    );
    measure_far_moves(rounds);
    let mut history = [0; HISTORY_BYTES];
    let mut walk = Walk::new(8, &mut history);
    walk.wander(&mut random, &Habits::LIFE_CYCLE, MOST_RECORDS);
    measure("life cycle, the same list", &walk.steps, &walk.steps, rounds);
    for (name, tries) in [("life cycle, few moved", 1), ("life cycle, many moved", 30)] {
        let mut moved = walk.steps.clone();
        pairs::exchange(&mut random, 8, &mut moved, tries * MOST_RECORDS);
        measure(name, &walk.steps, &moved, rounds);
    }
    let even = even_steps(&mut random, 8, MOST_RECORDS);
    let mut moved = even.clone();
    pairs::exchange(&mut random, 8, &mut moved, 30 * MOST_RECORDS);
    measure("random kinds, many moved", &even, &moved, rounds);
    let mixed: Vec<Step> = (0..MOST_RECORDS).map(|_| random.pick(&[(3, 1), (3, 2)])).collect();
    let mut apart = mixed.clone();
    apart.sort();
    measure("two nodes apart, mixed", &apart, &mixed, rounds);
}

/// Records that may all pass one another, in long rows. No more than nine steps are
/// that independent, so the last pair has the most exchanges that there are.
fn measure_far_moves(rounds: usize) {
    for (name, moved) in [("half moved past half", MOST_RECORDS / 2), ("one moved past all", 1)] {
        let (most, few) = (vec![(3, 1); MOST_RECORDS - moved], vec![(3, 2); moved]);
        let (behind, ahead) = ([&most[..], &few].concat(), [&few[..], &most].concat());
        measure(name, &behind, &ahead, rounds);
    }
    let nine: Vec<Step> = (1..=8).map(|node| (3, node)).chain([(8, 1)]).collect();
    let rows: Vec<Step> = (0..MOST_RECORDS).map(|at| nine[at * 9 / MOST_RECORDS]).collect();
    let turned: Vec<Step> = rows.iter().rev().copied().collect();
    measure("nine rows turned round", &rows, &turned, rounds);
}

fn measure(name: &str, first: &[Step], second: &[Step], rounds: usize) {
    let (one, two) = (with_trailer(&[], first, 8), with_trailer(&[], second, 8));
    let mut places = [0; PLACES_BYTES];
    let result = judge::same_merge(&one, &two, &mut places);
    let run = |call: fn(&[u8], &[u8], &mut [u8]) -> u32| {
        let mut places = [0; PLACES_BYTES];
        turns::time(|| assert_eq!(call(&one, &two, &mut places), result, "the two differ"))
    };
    let (library, judge) =
        turns::least(rounds, || run(library::same_merge), || run(judge::same_merge));
    let each = |time| turns::each(time, 1_000_000);
    println!(
        "{:26}{:>8}{:>7}{:>12.2} ms{:>12.2} ms{:>7.2}{:>13}",
        name,
        first.len(),
        result,
        each(library),
        each(judge),
        each(library) / each(judge),
        stack::used_by(|| library::same_merge(&one, &two, &mut places)),
    );
}
