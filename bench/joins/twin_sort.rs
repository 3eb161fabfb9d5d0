//! The other twin of main.rt.txt: the same lists one behind the other, sorted by std's stable sort.
use std::time::Instant;

include!("common.rs");

/// What stands in these lists, in the order of the tickets and without them.
fn join_by_ticket<T: Copy>(lists: Vec<Vec<(u64, T)>>) -> Vec<T> {
    let mut all = Vec::with_capacity(lists.iter().map(Vec::len).sum());
    for mut list in lists {
        all.append(&mut list);
    }
    all.sort_by_key(|entry| entry.0);
    all.iter().map(|entry| entry.1).collect()
}
