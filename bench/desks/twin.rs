//! The twin of main.rt.txt: the machine of `../runs/twin.rs`, over plain objects and over objects behind a `Mutex` each with an atomic counter for
//! tickets, timed from the first event of a run to the last.
#[path = "../runs/twin.rs"]
#[allow(dead_code)]
mod machine;

use std::io::{self, Read};

pub fn main() {
    let count: u64 = std::env::args().nth(1).and_then(|word| word.parse().ok()).unwrap_or(0);
    let mut text = String::new();
    io::stdin().read_to_string(&mut text).unwrap();
    let (spent, stepped) = machine::time_runs(&text, count);
    println!("plain {spent} {stepped}");
    for (name, workers) in [("one", 1), ("two", 2), ("four", 4)] {
        let (spent, stepped) = machine::shared::time_shared(&text, workers, count);
        println!("{name} {spent} {stepped}");
    }
}
