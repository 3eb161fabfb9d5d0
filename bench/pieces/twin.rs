//! The twin of main.rt.txt: the same devices in plain Rust.
use std::time::Instant;

#[allow(dead_code)]
struct Piece {
    len: u64,
    member: u32,
    at: u64,
}

trait MapLaw {
    fn size(&self) -> u64;
    fn piece(&self, start: u64, len: u64) -> Piece;
}

struct Linear {
    sizes: Vec<u64>,
}

impl MapLaw for Linear {
    fn size(&self) -> u64 {
        self.sizes.iter().sum()
    }

    fn piece(&self, start: u64, len: u64) -> Piece {
        let mut at = start;
        for (member, size) in self.sizes.iter().enumerate() {
            if at < *size {
                return Piece { len: (*size - at).min(len), member: member as u32, at };
            }
            at -= *size;
        }
        unreachable!()
    }
}

struct Stripe {
    chunk: u64,
    members: u64,
    smallest: u64,
}

impl MapLaw for Stripe {
    fn size(&self) -> u64 {
        self.smallest / self.chunk * self.chunk * self.members
    }

    fn piece(&self, start: u64, len: u64) -> Piece {
        let (number, within) = (start / self.chunk, start % self.chunk);
        Piece {
            len: (self.chunk - within).min(len),
            member: (number % self.members) as u32,
            at: number / self.members * self.chunk + within,
        }
    }
}

struct Limit {
    max: u64,
    chunk: u64,
    size: u64,
}

impl MapLaw for Limit {
    fn size(&self) -> u64 {
        self.size
    }

    fn piece(&self, start: u64, len: u64) -> Piece {
        let longest = if self.chunk == 0 { self.max } else { self.max.min(self.chunk - start % self.chunk) };
        Piece { len: longest.min(len), member: 0, at: start }
    }
}

struct Zone {
    members: Vec<u32>,
    base: u64,
    chunks: u64,
}

struct Zoned {
    chunk: u64,
    sizes: Vec<u64>,
    sectors: u64,
    zones: Vec<Zone>,
}

impl Zoned {
    fn new(chunk: u64, sizes: &[u64]) -> Zoned {
        let counts: Vec<u64> = sizes.iter().map(|size| size / chunk).collect();
        let mut levels: Vec<u64> = counts.iter().copied().filter(|count| *count > 0).collect();
        levels.sort_unstable();
        levels.dedup();
        let mut zones = Vec::new();
        let mut base = 0;
        for level in levels {
            let members: Vec<u32> = (0..counts.len() as u32).filter(|member| counts[*member as usize] >= level).collect();
            let chunks = members.len() as u64 * (level - base);
            zones.push(Zone { members, base, chunks });
            base = level;
        }
        Zoned { chunk, sizes: sizes.to_vec(), sectors: counts.iter().sum::<u64>() * chunk, zones }
    }

    /// The sector of the device that this sector of a member is, if it is in one of the member's whole chunks.
    fn sector_of(&self, member: u32, at: u64) -> Option<u64> {
        let row = at / self.chunk;
        if row >= self.sizes[member as usize] / self.chunk {
            return None;
        }
        let mut number = 0;
        for (place, size) in self.sizes.iter().enumerate() {
            let count = *size / self.chunk;
            number += count.min(row);
            if place < member as usize && row < count {
                number += 1;
            }
        }
        Some(number * self.chunk + at % self.chunk)
    }
}

impl MapLaw for Zoned {
    fn size(&self) -> u64 {
        self.sectors
    }

    fn piece(&self, start: u64, len: u64) -> Piece {
        let within = start % self.chunk;
        let mut number = start / self.chunk;
        for zone in &self.zones {
            if number < zone.chunks {
                let members = zone.members.len() as u64;
                return Piece {
                    len: (self.chunk - within).min(len),
                    member: zone.members[(number % members) as usize],
                    at: (zone.base + number / members) * self.chunk + within,
                };
            }
            number -= zone.chunks;
        }
        unreachable!()
    }
}

#[derive(Clone, Copy)]
#[allow(dead_code)]
struct Bio {
    write: u32,
    writer: u32,
    node: u32,
    dev: u32,
    start: u64,
    len: u64,
    word: u64,
    segment: u32,
    done: u32,
    set: Option<u32>,
}

#[derive(Clone, Copy)]
#[allow(dead_code)]
struct Pad {
    leg: u32,
}

#[allow(dead_code)]
struct Mirror {
    members: Vec<u32>,
    size: u64,
}

impl Mirror {
    fn legs(&self) -> u32 {
        self.members.len() as u32
    }

    /// The bio of one leg, and its padding.
    fn clone_for(&self, bio: &Bio, leg: u32, set: Option<u32>, node: u32) -> (Bio, Pad) {
        let clone = Bio { dev: self.members[leg as usize], set, node, ..*bio };
        (clone, Pad { leg })
    }
}

fn ask<D: MapLaw>(device: &D, count: u32) -> u64 {
    if device.size() < 20000 {
        return 0;
    }
    let mut start: u64 = 0;
    let mut served: u64 = 0;
    let mut places: u64 = 1;
    for _ in 0..count {
        let piece = device.piece(start, 16);
        if piece.len > 0 {
            served += 1;
        }
        places = places.wrapping_mul(31).wrapping_add(piece.at).wrapping_add(u64::from(piece.member));
        start = start.wrapping_add(piece.at).wrapping_add(piece.len) % 16384;
    }
    // so that each place is worked out
    if places == 0 { 0 } else { served }
}

fn time_pieces<D: MapLaw>(name: &str, device: &D, count: u32) {
    let start = Instant::now();
    let served = ask(device, count);
    println!("{name} {} {served}", start.elapsed().as_nanos());
}

fn seek(device: &Zoned, count: u32) -> u64 {
    let mut member = 0;
    let mut at: u64 = 0;
    let mut served: u64 = 0;
    for k in 0..count {
        if let Some(sector) = device.sector_of(member, at) {
            served += 1;
            member = (sector % 4) as u32;
            at = at.wrapping_add(sector).wrapping_add(u64::from(k)) % 2048;
        }
    }
    served
}

fn time_sectors(device: &Zoned, count: u32) {
    let start = Instant::now();
    let served = seek(device, count);
    println!("sector {} {served}", start.elapsed().as_nanos());
}

/// A bio of 16 sectors for the mirror.
fn bio() -> Bio {
    Bio {
        write: 0,
        writer: 0,
        node: 0,
        dev: 5,
        start: 64,
        len: 16,
        word: 1,
        segment: 0,
        done: 0,
        set: None,
    }
}

/// How many clones are kept.
const PLACES: u32 = 64;

/// Makes the clones of a bio for all legs, and of another bio then, so often, each at the next of the places. It answers how many were made.
fn copy(mirror: &Mirror, clones: &mut [(Bio, Pad)], rounds: u32) -> u64 {
    let mut bio = bio();
    let mut served: u64 = 0;
    for node in 0..rounds {
        for leg in 0..mirror.legs() {
            if let Some(clone) = clones.get_mut((served % u64::from(PLACES)) as usize) {
                *clone = mirror.clone_for(&bio, leg, Some(5), node);
                served += 1;
            }
        }
        bio.word = bio.word.wrapping_add(1024);
    }
    served
}

fn time_clones(count: u32) {
    // four members, which the compiler can't know
    let mut members = vec![1, 2, 3, 4];
    if count > 4_000_000 {
        members.push(6);
    }
    let mirror = Mirror { members, size: 2048 };
    let mut clones: Vec<(Bio, Pad)> = (0..PLACES).map(|leg| (bio(), Pad { leg })).collect();
    let start = Instant::now();
    let served = copy(&mirror, &mut clones, count / 4);
    let nanoseconds = start.elapsed().as_nanos();
    // so that each clone is made
    let words = clones.iter().fold(0u64, |all, (clone, _)| all.wrapping_add(clone.word));
    println!("mirror {nanoseconds} {}", if words == 0 { 0 } else { served });
}

fn main() {
    let count: u32 = std::env::args().nth(1).and_then(|word| word.parse().ok()).unwrap_or(0);
    // 8, which the compiler can't know
    let chunk = 8 + u64::from(count / 4_000_000);
    let sizes = [2048, 8192, 4096, 16384];
    time_pieces("linear", &Linear { sizes: sizes.to_vec() }, count);
    time_pieces("stripe", &Stripe { chunk, members: 4, smallest: 8192 }, count);
    time_pieces("limit", &Limit { max: 3, chunk, size: 32768 }, count);
    time_pieces("zoned", &Zoned::new(chunk, &sizes), count);
    time_sectors(&Zoned::new(chunk, &sizes), count);
    time_clones(count);
}
