//! The twin of main.rt.txt: sector by sector by `memcmp`, over the words of two members by pages (`../disks/pages.rs`), each of which has zeros for a
//! sector whose page has no words.
use std::hint::black_box;
use std::time::Instant;

#[path = "../disks/pages.rs"]
mod pages;

use pages::Pages;

const SECTORS: usize = 65_536;
const BIO: usize = 2_048;

struct Disk {
    sectors: usize,
    pages: Pages,
}

fn differ_at(one: &Disk, other: &Disk, place: usize) -> bool {
    one.pages.sector(place) != other.pages.sector(place)
}

fn count(one: &Disk, other: &Disk) -> u64 {
    (0..one.sectors).map(|place| u64::from(differ_at(one, other, place))).sum()
}

fn first_place(one: &Disk, other: &Disk, from: usize, differing: bool) -> usize {
    (from..one.sectors).find(|place| differ_at(one, other, *place) == differing).unwrap_or(one.sectors)
}

/// Where the first stretch from `from` on starts and ends.
fn next_unlike(one: &Disk, other: &Disk, from: usize) -> Option<(usize, usize)> {
    let start = first_place(one, other, from, true);
    (start < one.sectors).then(|| (start, first_place(one, other, start, false)))
}

fn stretches(one: &Disk, other: &Disk) -> u64 {
    let (mut count, mut from) = (0, 0);
    while let Some((_, end)) = next_unlike(one, other, from) {
        count += 1;
        from = end;
    }
    count
}

fn written(changed: bool) -> Disk {
    let mut disk = Disk { sectors: SECTORS, pages: Pages::open(SECTORS) };
    for k in 0..SECTORS / BIO {
        disk.pages.write(k * BIO, BIO, k as u64);
    }
    if changed {
        for k in 0..SECTORS / 2 {
            disk.pages.write(2 * k + 1, 1, (SECTORS * (k + 1)) as u64);
        }
    }
    disk
}

type Question = fn(&Disk, &Disk) -> u64;

fn main() {
    let mut words = std::env::args().skip(1);
    let rounds = words.next().and_then(|word| word.parse().ok()).unwrap_or(0) / SECTORS as u64;
    let only = words.next();
    let rows: [(&str, Question, bool); 4] = [
        ("count", count, false),
        ("count2", count, true),
        ("walk", stretches, false),
        ("walk2", stretches, true),
    ];
    for (name, question, changed) in rows {
        if only.as_ref().is_some_and(|word| word != name) {
            continue;
        }
        let (one, other) = (written(false), written(changed));
        let start = Instant::now();
        let found: u64 = (0..rounds).map(|_| question(black_box(&other), black_box(&one))).sum();
        let nanoseconds = start.elapsed().as_nanos();
        let served = if found == if changed { rounds * SECTORS as u64 / 2 } else { 0 } { rounds * SECTORS as u64 } else { 0 };
        println!("{name} {nanoseconds} {served}");
    }
}
