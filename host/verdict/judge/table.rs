//! Which steps are independent, as a table.

use reference::limits::MOST_NODES;
use reference::{independent, Step};

/// Steps that exist as letters, and which of them are independent.
pub struct Table {
    nodes: u8,
    free: Vec<[bool; 256]>,
}

/// The letter of all steps that do not exist.
const STRANGER: u8 = 0;
const LETTERS: usize = 1 + 11 * MOST_NODES + 2;

impl Table {
    pub fn new(nodes: u8) -> Self {
        let mut table = Table { nodes, free: vec![[false; 256]; LETTERS] };
        let steps: Vec<Step> =
            (1..=13).flat_map(|kind| (0..=nodes).map(move |node| (kind, node))).collect();
        for &one in &steps {
            for &two in &steps {
                let (row, column) = (table.letter(one), table.letter(two));
                table.free[usize::from(row)][usize::from(column)] = independent(nodes, one, two);
            }
        }
        table
    }

    pub fn letter(&self, (kind, node): Step) -> u8 {
        match kind {
            1..=11 if (1..=self.nodes).contains(&node) => (kind - 1) * MOST_NODES as u8 + node,
            12 | 13 if node == 0 => 11 * MOST_NODES as u8 + kind - 11,
            _ => STRANGER,
        }
    }
    /// By letter, whether it is independent of the step.
    pub fn row(&self, step: Step) -> &[bool; 256] {
        &self.free[usize::from(self.letter(step))]
    }
}
