//! What a disk's image costs at least: memory that is set, words that are added.
use std::hint::black_box;
use std::time::Instant;

const SECTORS: u64 = 262_144;
const BIO: usize = 64 * 2_048;
const WORDS: usize = 64 * SECTORS as usize;

fn sum(words: &[u64]) -> u64 {
    words.iter().fold(0, |all, word| all.wrapping_add(*word))
}

fn fill(words: &mut [u64]) {
    for (i, word) in words.iter_mut().enumerate() {
        *word = i as u64;
    }
}

/// Memory that the system hands out as zeros.
fn open() -> bool {
    black_box(vec![0u64; WORDS]);
    true
}

/// New memory, `memset` of all of it, and a sum.
fn whole() -> bool {
    let mut words: Vec<u64> = Vec::with_capacity(WORDS);
    unsafe {
        std::ptr::write_bytes(words.as_mut_ptr(), black_box(1), WORDS);
        words.set_len(WORDS);
    }
    sum(black_box(&words)) != 0
}

/// Memory that the system hands out as zeros, a bio's words from `start` on, and their sum.
fn part(start: usize) -> bool {
    let mut words = vec![0u64; WORDS];
    let bio = &mut words[start..start + BIO];
    fill(bio);
    sum(black_box(bio)) != 0
}

fn main() {
    let mut words = std::env::args().skip(1);
    let count: u64 = words.next().and_then(|word| word.parse().ok()).unwrap_or(0);
    let only = words.next();
    let rows: [(&str, fn() -> bool); 4] = [("open", open), ("whole", whole), ("front", || part(0)), ("far", || part(WORDS - BIO))];
    for (name, row) in rows {
        if only.as_ref().is_some_and(|word| word != name) {
            continue;
        }
        let (mut nanoseconds, mut served) = (0, 0);
        for _ in 0..count / SECTORS {
            let start = Instant::now();
            let done = row();
            nanoseconds += start.elapsed().as_nanos();
            if done {
                served += SECTORS;
            }
        }
        println!("{name} {nanoseconds} {served}");
    }
}
