//! The reference in the place of the program `tour`. It keeps the switch's master and
//! the largest id from step to step, as the program does.

use std::io::{stdin, stdout, Read, Result, Write};

use reference::codes::answer_byte;
use reference::limits::{HISTORY_BYTES, MOST_NODES};
use reference::mastership::{ElectionId, NO_ID, NO_NODE, NO_TERM};
use reference::switch::elect;
use reference::State;

const LONGEST_SCRIPT: u64 = 4_096;
/// What the program answers for a state out of range, and for a bad number of nodes.
const OUT_OF_RANGE: u8 = 1;
const BAD_NODE_COUNT: u8 = 10;

fn main() -> Result<()> {
    let mut script = Vec::new();
    stdin().take(LONGEST_SCRIPT).read_to_end(&mut script)?;
    stdout().write_all(&played(&script))
}

fn played(mut script: &[u8]) -> Vec<u8> {
    let mut tour = Tour::fresh(1);
    let mut text = Vec::new();
    loop {
        match script {
            [b'=', what, digit, rest @ ..] => {
                text.extend(tour.number(*what, digit & 15).to_string().bytes());
                script = rest;
            }
            [byte, rest @ ..] => {
                text.push(*byte);
                script = rest;
            }
            [] => return text,
        }
    }
}

struct Tour {
    state: State<'static>,
    /// The switch's master and the largest id.
    kept: (u8, ElectionId),
}

impl Tour {
    fn fresh(nodes: u8) -> Self {
        let history = vec![0; HISTORY_BYTES].leak();
        Tour { state: State::fresh(nodes, history), kept: (NO_NODE, NO_ID) }
    }

    /// What stands in the text for the two bytes behind `=`.
    fn number(&mut self, what: u8, digit: u8) -> u16 {
        match what {
            b'F' => self.start(digit).into(),
            b'a'.. => self.step(what & 31, digit).into(),
            _ => self.look(what, digit.into()),
        }
    }

    fn start(&mut self, nodes: u8) -> u8 {
        *self = Tour::fresh(nodes);
        if self.in_range() {
            0
        } else {
            BAD_NODE_COUNT
        }
    }

    fn in_range(&self) -> bool {
        (1..=MOST_NODES).contains(&self.state.nodes.into())
    }

    fn step(&mut self, kind: u8, node: u8) -> u8 {
        if !self.in_range() {
            return OUT_OF_RANGE;
        }
        let answer = answer_byte(self.state.step(kind, node));
        self.kept = elect(&self.state.ids);
        answer
    }

    fn look(&self, what: u8, at: usize) -> u16 {
        let open = || (0..MOST_NODES).filter(|&row| self.state.streams[row].open);
        let (writer, term) = self.state.history.iter().nth(at).unwrap_or((NO_NODE, NO_TERM));
        match what {
            b'O' => open().map(|row| 1 << row).sum(),
            b'C' => open().count() as u16,
            b'W' => writer.into(),
            b'T' => term.0,
            b'M' => self.kept.0.into(),
            b'L' => self.kept.1 .0,
            _ => self.state.ids.get(at).map_or(0, |id| id.0),
        }
    }
}
