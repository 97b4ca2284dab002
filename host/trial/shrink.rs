//! A shorter list that still differs.

/// Drops items as long as what is left differs, runs of many before single ones.
pub fn shrunk<T: Clone>(mut items: Vec<T>, differs: impl Fn(&[T]) -> bool) -> Vec<T> {
    let mut size = items.len();
    while size > 0 {
        let before = items.len();
        drop_runs(&mut items, size, &differs);
        if size > 1 || items.len() == before {
            size /= 2;
        }
    }
    items
}

/// Drops each run of `size` items that is not needed, the last ones first.
fn drop_runs<T: Clone>(items: &mut Vec<T>, size: usize, differs: impl Fn(&[T]) -> bool) {
    let mut end = items.len();
    while end > 0 {
        let start = end.saturating_sub(size);
        let mut fewer = items.clone();
        fewer.drain(start..end);
        if differs(&fewer) {
            *items = fewer;
        }
        end = start;
    }
}
