//! All merges, to hold a verdict against.

use crate::doubt::may_stand_before;
use crate::log::{Log, Logged};

impl Log {
    /// All merges of the logs that the clocks allow; only for short logs.
    pub fn merges(&self) -> Vec<Vec<Logged>> {
        let mut merges = Vec::new();
        self.go_on(&mut Vec::new(), &mut merges);
        merges
    }

    /// Adds all merges that begin with what is taken.
    fn go_on(&self, taken: &mut Vec<Logged>, merges: &mut Vec<Vec<Logged>>) {
        let is_left = |record: &&Logged| !taken.contains(record);
        let left: Vec<&Logged> = self.records.iter().filter(is_left).collect();
        if left.is_empty() {
            merges.push(taken.clone());
        }
        for (at, &next) in left.iter().enumerate() {
            let first_of_log = left[..at].iter().all(|before| before.log != next.log);
            let allowed = left.iter().all(|after| may_stand_before(self.bound, next, after));
            if first_of_log && allowed {
                taken.push(*next);
                self.go_on(taken, merges);
                taken.pop();
            }
        }
    }
}
