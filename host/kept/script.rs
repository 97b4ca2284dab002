//! The script in which `tour` plays a list: a line for the fresh state and one for each
//! step, with the answer, the ids, the switch's master and the largest id.

use reference::limits::MOST_NODES;
use reference::mastership::NO_ID;
use reference::switch::elect;
use reference::Step;

use crate::cases::Case;
use crate::taken::{taken, Ids};

/// `tour` reads no more of a script.
const LONGEST_SCRIPT: usize = 4_096;

/// How many steps of so many nodes a script has room for.
pub fn most_steps(nodes: u8) -> usize {
    LONGEST_SCRIPT / line("=F1", nodes).len() - 1
}

/// A step that a script has a letter and a digit for. What has none is refused, and so
/// is what stands here for it.
pub fn writable((kind, node): Step) -> Step {
    (if (1..=26).contains(&kind) { kind } else { 26 }, node.min(9))
}

pub fn script(case: &Case) -> String {
    let letter = |kind: u8| char::from(b'a' - 1 + kind);
    let step = |&(kind, node): &Step| line(&format!("={}{node}", letter(kind)), case.nodes);
    let fresh = line(&format!("=F{}", case.nodes), case.nodes);
    fresh + &case.steps.iter().map(step).collect::<String>()
}

fn line(done: &str, nodes: u8) -> String {
    let ids: String = (0..nodes).map(|place| format!(" =I{place}")).collect();
    format!("{done}{ids} =M0 =L0\n")
}

/// What `tour` must print: answers and ids of the reference, with the master and the
/// largest id that a search of these ids finds.
pub fn expected(case: &Case) -> String {
    let fresh = expected_line(case.nodes, 0, &[NO_ID; MOST_NODES]);
    let steps = taken(case);
    let lines = steps.iter().map(|step| expected_line(case.nodes, step.answer, &step.after));
    fresh + &lines.collect::<String>()
}

fn expected_line(nodes: u8, answer: u8, ids: &Ids) -> String {
    let (master, largest) = elect(ids);
    let ids: String = ids[..nodes.into()].iter().map(|id| format!(" {}", id.0)).collect();
    format!("{answer}{ids} {master} {}\n", largest.0)
}
