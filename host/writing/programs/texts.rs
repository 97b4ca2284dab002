//! Texts that ask for lists: well written and badly.

use lists::even_steps;
use random::Random;
use reference::limits::MOST_RECORDS;
use writer::{names, LONGEST_TEXT};

const DRAWN: usize = 200;

/// First lines between bars: good ones, refused ones, and ones that cannot be read.
const FIRST: &str = "nodes 1|\tnodes  08 \r# of 8|nodes 0000000000000000008|nodes 0|nodes 9|\
    nodes 255|nodes 256|nodes 257|nodes 00000000000000000008|nodes 18446744073709551617|nodes|\
    nodes#1|nodes 1 1|nodes1|nodes one|nodes -1|nodes 1.|Nodes 1|node 1|1|1 1|join 1";

/// The same of steps.
const STEPS: &str = "join 8#9|\r 0000000000000000011\t007 #|#join|0 0|14 0|255 255|join 0|11 9|\
    shutdown 1|13 255|256 1|1 256|1 300|1 4294967297|9999999999999999999 1|18446744073709551617 1|\
    1 00000000000000000001|join|join #1|1|join 1 1|join 1 x|Join 1|STARTUP 0|joi 1|joins 1|\
    send_update 1|handle write 1|1 join|nodes 8|join\x0B1|join 1\0";

/// Texts of few lines: none with words, first lines, steps, every name.
pub fn edges() -> Vec<Vec<u8>> {
    let few = "|\n|#| \t\r\n# nodes 1\n|nodes 1|\r\n\n nodes 1\r\n\r\n";
    let mut texts: Vec<String> = few.split('|').map(str::to_string).collect();
    texts.extend(FIRST.split('|').map(|line| format!("#\n{line}\njoin 1\n")));
    texts.extend(STEPS.split('|').map(|line| format!("\n#\nnodes 8\n1 1\n{line}\nclose 2")));
    texts.extend(names().iter().map(|name| format!("nodes 1\n{name} 1\n{name} 0")));
    texts.push(format!("nodes 1\n{} 1\nshutdown 0\nstartup 0\n", names()[..11].join(" 1\n")));
    texts.into_iter().map(String::into_bytes).collect()
}

/// Texts with as many steps as there may be, and of as many bytes, or more.
pub fn long() -> Vec<Vec<u8>> {
    let steps = |count: usize| "nodes 1\n".to_string() + &"join 1\n".repeat(count);
    let filled = |text: String, with: &str, len: usize| {
        let missing = len - text.len();
        text + &with.repeat(missing)
    };
    [
        steps(MOST_RECORDS),
        steps(MOST_RECORDS + 1),
        steps(MOST_RECORDS) + "join 0\n",
        steps(MOST_RECORDS) + "0 1\njoin 1\n",
        steps(MOST_RECORDS + 1) + "join",
        filled(steps(MOST_RECORDS), " ", LONGEST_TEXT),
        filled(steps(MOST_RECORDS), " ", LONGEST_TEXT + 1),
        filled(steps(MOST_RECORDS), "\n", LONGEST_TEXT - 1) + "x",
        filled(steps(1), "\n", LONGEST_TEXT - 1) + "3",
        filled(steps(1) + "#", "x", LONGEST_TEXT),
        filled("x".to_string(), "\n", LONGEST_TEXT + 1),
        filled(String::new(), "\n", LONGEST_TEXT),
        filled("nodes 1\njoin ".to_string(), "0", LONGEST_TEXT - 1) + "1",
    ]
    .map(String::into_bytes)
    .into()
}

/// What may stand in a word's place.
const WORDS: &str = "nodes join startup Join JOIN joined send 0 1 8 9 14 255 256 -1 1# \u{E9} \
    00000000000000000001";

/// Texts at random: well written in one of many ways, or with some faults.
pub fn drawn(random: &mut Random) -> Vec<Vec<u8>> {
    (0..DRAWN).map(|_| text(random)).collect()
}

fn text(random: &mut Random) -> Vec<u8> {
    let nodes = random.between(1, 8) as u8;
    let count = random.pick(&[0, 1, 3, 10, 100]);
    let mut lines = vec![vec!["nodes".to_string(), number(random, nodes)]];
    for (kind, node) in even_steps(random, nodes, count) {
        let name = names()[usize::from(kind) - 1].to_string();
        let kind = if random.percent(60) { name } else { number(random, kind) };
        lines.push(vec![kind, number(random, node)]);
    }
    for _ in 0..random.pick(&[0, 0, 1, 1, 3]) {
        spoil(random, &mut lines);
    }
    let lines = lines.iter().map(|words| laid_out(random, words));
    let mut text = lines.collect::<String>().into_bytes();
    if random.percent(15) {
        let at = random.below(text.len());
        text[at] = random.pick(b"019 \n\t\r#x-\0\xFF");
    }
    text.truncate(text.len() - random.pick(&[0, 0, 1]));
    text
}

fn number(random: &mut Random, number: u8) -> String {
    let digits = random.pick(&[1, 1, 1, 2, 3, 19]);
    format!("{number:0digits$}")
}

/// A word changed, added or left out, or a line.
fn spoil(random: &mut Random, lines: &mut Vec<Vec<String>>) {
    let at = random.below(lines.len());
    let known: Vec<&str> = WORDS.split(' ').collect();
    let [one, two] = [random.pick(&known), random.pick(&known)].map(str::to_string);
    let words = &mut lines[at];
    let place = random.between(0, words.len());
    let rest = words.len().min(place + 1);
    match random.below(5) {
        0 => drop(words.splice(place..rest, [])),
        1 => words.insert(place, one),
        2 => lines.insert(at, vec![one, two]),
        3 => lines.insert(at, vec!["nodes".to_string(), one]),
        _ => drop(words.splice(place..rest, [one])),
    }
}

/// A line with its blanks and its comment, behind lines without words.
fn laid_out(random: &mut Random, words: &[String]) -> String {
    let front = random.pick(&["", "", "", "", "\n", " \r\n", "# join 1\n", "\t#\n\n"]);
    let indent = random.pick(&["", "", " ", "\t", "\r"]);
    let words = words.join(random.pick(&[" ", " ", "\t", "\r", "  ", " \t\r "]));
    let end = random.pick(&["\n", "\n", "\r\n", " \n", "#1\n", " # nodes 2 #\n", "\t#\n"]);
    [front, indent, &words, end].concat()
}
