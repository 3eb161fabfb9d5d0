//! The loops of `image_lanes`, one word at a time.
use std::hint::black_box;
use std::time::Instant;

fn fill(words: &mut [u64], first: u64) {
    for (i, word) in words.iter_mut().enumerate() {
        *word = first.wrapping_add(i as u64);
    }
}

fn sum_words(words: &[u64]) -> u64 {
    let mut all = 0u64;
    for word in words {
        all = all.wrapping_add(*word);
    }
    all
}

fn same(a: &[u64], b: &[u64]) -> bool {
    if a.len() != b.len() {
        return false;
    }
    for (x, y) in a.iter().zip(b) {
        if x != y {
            return false;
        }
    }
    true
}

fn count_unlike(a: &[u64], b: &[u64]) -> u64 {
    let mut count = 0;
    for (x, y) in a.chunks_exact(64).zip(b.chunks_exact(64)) {
        if !same(x, y) {
            count += 1;
        }
    }
    count
}

fn time(count: u64, mut call: impl FnMut(u64) -> bool) -> (u128, u64) {
    let start = Instant::now();
    let mut served = 0;
    for n in 0..count {
        served += u64::from(call(n));
    }
    (start.elapsed().as_nanos(), served)
}

fn main() {
    let count = std::env::args().nth(1).and_then(|word| word.parse().ok()).unwrap_or(0);
    let (mut a, mut b) = (vec![0u64; 4096], vec![0u64; 4096]);
    let (fills, served) = time(count, |n| {
        fill(black_box(&mut a), n);
        a[0] == n
    });
    println!("fill {fills} {served}");
    let mut a = vec![0u64; 4096];
    let (sums, served) = time(count, |n| {
        a[0] = n;
        sum_words(black_box(&a)) >= n
    });
    println!("sum {sums} {served}");
    let (compared, served) = time(count, |n| {
        a[0] = n;
        b[0] = n;
        same(black_box(&a), black_box(&b))
    });
    println!("same {compared} {served}");
    let b = vec![0u64; 4096];
    let (counted, served) = time(count, |n| {
        a[0] = n;
        count_unlike(black_box(&a), black_box(&b)) <= 1
    });
    println!("unlike {counted} {served}");
}
