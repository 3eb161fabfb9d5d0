//! The twin of main.rt.txt: the same lists, joined by a merge of sixteen heads in a heap.
use std::cmp::Reverse;
use std::collections::BinaryHeap;
use std::time::Instant;

include!("common.rs");

/// What stands in these lists, in the order of the tickets and without them.
fn join_by_ticket<T: Copy>(lists: Vec<Vec<(u64, T)>>) -> Vec<T> {
    let mut all = Vec::with_capacity(lists.iter().map(Vec::len).sum());
    let mut lists: Vec<_> = lists.into_iter().map(|list| list.into_iter().peekable()).collect();
    let mut heads = BinaryHeap::with_capacity(lists.len());
    for (at, list) in lists.iter_mut().enumerate() {
        if let Some(&(ticket, _)) = list.peek() {
            heads.push(Reverse((ticket, at)));
        }
    }
    while let Some(mut head) = heads.peek_mut() {
        let at = head.0.1;
        if let Some((_, value)) = lists[at].next() {
            all.push(value);
        }
        match lists[at].peek() {
            Some(&(ticket, _)) => head.0.0 = ticket,
            None => {
                std::collections::binary_heap::PeekMut::pop(head);
            }
        }
    }
    all
}
