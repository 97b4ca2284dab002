//! Records of which the clocks do not say which was first, and the one exchange
//! that is tried of each pair.

use crate::log::{Log, Logged};
use crate::table::Table;

impl Log {
    /// The first pairs of places in doubt, `most` at most, in order: a record x,
    /// and a later one y of another log that depends on it and might by the clocks
    /// have come first.
    pub fn doubts(&self, most: usize) -> Vec<(usize, usize)> {
        let table = Table::new(self.nodes);
        let letters: Vec<u8> = self.records.iter().map(|one| table.letter(one.step)).collect();
        let least_from = self.least_times();
        let mut doubts = Vec::new();
        for (x, early) in self.records.iter().enumerate() {
            let free = table.row(early.step);
            let latest = early.time.saturating_add(self.bound);
            let in_doubt = |&y: &usize| {
                let late = &self.records[y];
                !free[usize::from(letters[y])] && late.log != early.log && late.time <= latest
            };
            let within = (x + 1..self.records.len()).take_while(|&y| least_from[y] <= latest);
            doubts.extend(within.filter(in_doubt).map(|y| (x, y)).take(most - doubts.len()));
            if doubts.len() == most {
                break;
            }
        }
        doubts
    }

    /// By place, the least time from there on: beyond it, nothing is in doubt with
    /// an earlier record. Where the records stand in the order of their times, a
    /// search then ends at once.
    fn least_times(&self) -> Vec<u64> {
        let mut least = u64::MAX;
        let mut times: Vec<u64> = self.records.iter().map(|record| record.time).collect();
        for time in times.iter_mut().rev() {
            least = least.min(*time);
            *time = least;
        }
        times
    }

    /// The records with the pair in the other order, where logs and clocks allow
    /// one of them to pass what stands between.
    pub fn exchanged(&self, x: usize, y: usize) -> Option<Vec<Logged>> {
        let may_pass = |early: &Logged, late: &Logged| {
            early.log != late.log && may_stand_before(self.bound, late, early)
        };
        let mut records = self.records.clone();
        if self.records[x..y].iter().all(|passed| may_pass(passed, &self.records[y])) {
            records[x..=y].rotate_right(1);
        } else if self.records[x + 1..=y].iter().all(|passed| may_pass(&self.records[x], passed)) {
            records[x..=y].rotate_left(1);
        } else {
            return None;
        }
        Some(records)
    }
}

/// Clocks that disagree by `bound` allow x before y.
pub fn may_stand_before(bound: u64, x: &Logged, y: &Logged) -> bool {
    x.time <= y.time.saturating_add(bound)
}
