//! The twin of main.rt.txt with a disk of the same shape: words by pages (`pages.rs`), a flag for each sector up to the last one that was written, and room
//! for all of them that is reserved at the opening.
use std::time::Instant;

mod pages;

use pages::Pages;

const SECTORS: usize = 262_144;
const BIO: usize = 2_048;

struct Disk {
    pages: Pages,
    flags: Vec<bool>,
}

impl Disk {
    fn open() -> Disk {
        Disk { pages: Pages::open(SECTORS), flags: Vec::with_capacity(SECTORS) }
    }

    /// Writes a bio's sectors from `start` on.
    fn write(&mut self, start: usize) {
        self.pages.write(start, BIO, start as u64);
        if self.flags.len() < start + BIO {
            self.flags.resize(start + BIO, false);
        }
        self.flags[start..start + BIO].fill(true);
    }

    /// The sum of the words of all sectors that are written.
    fn sum(&self) -> u64 {
        let mut all = 0u64;
        for (place, written) in self.flags.iter().enumerate() {
            if *written {
                all = self.pages.sector(place).iter().fold(all, |all, word| all.wrapping_add(*word));
            }
        }
        all
    }

    fn first_place(&self, from: usize, written: bool) -> usize {
        (from..self.flags.len()).find(|place| self.flags[*place] == written).unwrap_or(self.flags.len())
    }

    /// Where the first run from `from` on starts and ends.
    fn next_run(&self, from: usize) -> Option<(usize, usize)> {
        let start = self.first_place(from, true);
        (start < self.flags.len()).then(|| (start, self.first_place(start, false)))
    }
}

fn has_one_run(disk: &Disk) -> bool {
    disk.next_run(0).is_some_and(|(_, end)| disk.next_run(end).is_none())
}

fn main() {
    let mut words = std::env::args().skip(1);
    let count: u64 = words.next().and_then(|word| word.parse().ok()).unwrap_or(0);
    let only = words.next();
    let rows: [(&str, &[usize]); 4] = [
        ("open", &[]),
        ("whole", &std::array::from_fn::<usize, { SECTORS / BIO }, _>(|k| k * BIO)),
        ("front", &[0]),
        ("far", &[SECTORS - BIO]),
    ];
    for (name, starts) in rows {
        if only.as_ref().is_some_and(|word| word != name) {
            continue;
        }
        let (mut nanoseconds, mut served) = (0, 0);
        for _ in 0..count / SECTORS as u64 {
            let start = Instant::now();
            let mut disk = Disk::open();
            starts.iter().for_each(|start| disk.write(*start));
            let sum = disk.sum();
            let written = has_one_run(&disk) && sum != 0;
            nanoseconds += start.elapsed().as_nanos();
            if written != starts.is_empty() {
                served += SECTORS as u64;
            }
        }
        println!("{name} {nanoseconds} {served}");
    }
}
