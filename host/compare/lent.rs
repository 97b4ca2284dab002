//! One run of a list by the library and by the reference.

use trial::Lent;

use crate::cases::Case;

/// What the reference returns, and a word on the difference if there is one.
pub fn compare(case: &Case) -> (u32, Option<String>) {
    let before: Vec<u8> = (0..case.room).map(|at| (at * 37) as u8 ^ case.fill).collect();
    let mut expected = before.clone();
    let result = reference::run(&case.list, &mut expected);
    let mut list = Lent::new(&case.list, case.shift);
    let mut out = Lent::new(&before, case.shift);
    let call = if case.nulls { library::run_with_nulls } else { library::run };
    let returned = call(list.content(), out.content());
    let difference = if returned != result {
        Some(format!("the library returns {returned}, the reference {result}"))
    } else {
        list.difference("list", &case.list).or_else(|| out.difference("output", &expected))
    };
    (result, difference)
}
