//! The twin of main.rt.txt: the same number behind the standard library's mutex, which keeps no order of callers, and a clock of the same shape.
use std::sync::Mutex;
use std::sync::atomic::{AtomicU64, Ordering};
use std::thread;
use std::time::Instant;

/// Adds to the number, and answers what it is then.
fn call(lock: &Mutex<u64>, more: u64) -> u64 {
    let mut total = lock.lock().unwrap();
    *total = total.wrapping_add(more);
    *total
}

/// Adds one so often, each in a call of its own.
fn add_often(lock: &Mutex<u64>, often: u64) {
    for _ in 0..often {
        call(lock, 1);
    }
}

/// The nanoseconds that so many threads take, and what they have added. The last of them is the one that starts the others.
fn time(threads: u64, count: u64) -> (u128, u64) {
    let lock = Mutex::new(0);
    let often = count / threads;
    let start = Instant::now();
    thread::scope(|scope| {
        for _ in 1..threads {
            scope.spawn(|| add_often(&lock, often));
        }
        add_often(&lock, often);
    });
    let nanoseconds = start.elapsed().as_nanos();
    (nanoseconds, lock.into_inner().unwrap())
}

/// The last ticket that was drawn.
struct Clock {
    last: AtomicU64,
}

/// The greatest ticket that it has seen, and the last one of its clock that it has found.
struct Pass {
    seen: u64,
    known: u64,
}

/// The greatest ticket that it has seen.
struct Note {
    seen: u64,
}

impl Clock {
    /// Draws a ticket that is greater than all that the pass and the note have seen.
    fn draw(&self, pass: &mut Pass, note: &mut Note) -> Option<u64> {
        let seen = pass.seen.max(note.seen);
        let mut last = pass.known.max(seen);
        while last < u64::MAX {
            let ticket = last + 1;
            match self.last.compare_exchange(pass.known, ticket, Ordering::SeqCst, Ordering::SeqCst) {
                Ok(_) => {
                    pass.known = ticket;
                    pass.seen = ticket;
                    note.seen = ticket;
                    return Some(ticket);
                }
                Err(found) => pass.known = found,
            }
            last = pass.known.max(seen);
        }
        pass.known = self.last.load(Ordering::SeqCst);
        None
    }
}

/// Draws so often with one pass and one note. It answers how many tickets it drew.
fn draw_often(clock: &Clock, often: u64) -> u64 {
    let mut pass = Pass { seen: 0, known: 0 };
    let mut note = Note { seen: 0 };
    let mut drawn = 0;
    for _ in 0..often {
        if clock.draw(&mut pass, &mut note).is_some() {
            drawn += 1;
        }
    }
    drawn
}

/// The nanoseconds that one thread or two take for their draws, and how many they drew.
fn time_draws(threads: u64, count: u64) -> (u128, u64) {
    let clock = Clock { last: AtomicU64::new(0) };
    let often = count / threads;
    let start = Instant::now();
    let drawn = thread::scope(|scope| {
        let others: Vec<_> = (1..threads).map(|_| scope.spawn(|| draw_often(&clock, often))).collect();
        let mine = draw_often(&clock, often);
        others.into_iter().fold(mine, |all, other| all + other.join().unwrap())
    });
    (start.elapsed().as_nanos(), drawn)
}

fn main() {
    let count = std::env::args().nth(1).and_then(|word| word.parse().ok()).unwrap_or(0);
    for (name, threads) in [("one", 1), ("two", 2), ("four", 4)] {
        let (nanoseconds, served) = time(threads, count);
        println!("{name} {nanoseconds} {served}");
    }
    for (name, threads) in [("draw", 1), ("draw2", 2)] {
        let (nanoseconds, served) = time_draws(threads, count);
        println!("{name} {nanoseconds} {served}");
    }
}
