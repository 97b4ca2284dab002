//! A count of the cases that a comparison reached, each of which it must reach.

/// Declares `Mark` with a case for each line, and `NAMES` with its name.
#[macro_export]
macro_rules! marks {
    ($($mark:ident $name:literal,)*) => {
        #[derive(Clone, Copy)]
        pub enum Mark { $($mark),* }
        const NAMES: &[&str] = &[$($name),*];
        impl From<Mark> for usize {
            fn from(mark: Mark) -> usize {
                mark as usize
            }
        }
    };
}

#[derive(Default)]
pub struct Counts {
    names: &'static [&'static str],
    counts: Vec<u64>,
}

impl Counts {
    pub fn of(names: &'static [&'static str]) -> Self {
        Counts { names, counts: vec![0; names.len()] }
    }

    pub fn mark(&mut self, mark: impl Into<usize>, holds: bool) {
        self.counts[mark.into()] += u64::from(holds);
    }

    pub fn print(&self) {
        for (name, count) in self.names.iter().zip(&self.counts) {
            println!("{count:11} {name}");
        }
    }

    /// Prints the names of what was not reached, and of the others given, and
    /// returns how many they are.
    pub fn print_missing(&self, others: &[String]) -> usize {
        let marks = self.names.iter().zip(&self.counts).filter(|(_, &count)| count == 0);
        let missing = marks.map(|(name, _)| name.to_string()).chain(others.iter().cloned());
        missing.map(|name| println!("not reached: {name}")).count()
    }
}
