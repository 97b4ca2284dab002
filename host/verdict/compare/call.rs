//! One call of the library, on lent buffers, held against the verdict here.

use pairs::{Known, Pair};
use trial::Lent;

#[derive(Clone)]
pub struct Call {
    pub pair: Pair,
    /// Length of the buffer for the places.
    pub room: usize,
    /// Empty slices are lent as NULL.
    pub nulls: bool,
    /// How far the buffers are from an even start.
    pub shift: usize,
    /// What the buffer for the places holds before.
    pub fill: u8,
}

const SAME: u32 = 256;

impl Call {
    /// What the verdict here is, and a word on the difference if there is one.
    pub fn compare(&self) -> (u32, Option<String>) {
        let Pair { first: one, second: two, .. } = &self.pair;
        let before = vec![self.fill; self.room];
        let mut expected = before.clone();
        let result = judge::same_merge(one, two, &mut expected);
        let mut first = Lent::new(one, self.shift);
        let mut second = Lent::new(two, self.shift);
        let mut places = Lent::new(&before, self.shift);
        let call = if self.nulls { library::same_merge_with_nulls } else { library::same_merge };
        let returned = call(first.content(), second.content(), places.content());
        let difference = if returned != result {
            Some(format!("the library returns {returned}, the reference {result}"))
        } else {
            first
                .difference("first list", one)
                .or_else(|| second.difference("second list", two))
                .or_else(|| places.difference("places", &expected))
                .or_else(|| self.against_known(returned))
        };
        (result, difference)
    }

    /// A verdict against what is known; refusals have been compared.
    fn against_known(&self, returned: u32) -> Option<String> {
        match self.pair.known {
            Known::Same if returned > SAME => Some("not the same, but by exchanges it is".into()),
            Known::NotSame if returned == SAME => Some("the same, but not by exchanges".into()),
            _ => None,
        }
    }
}
