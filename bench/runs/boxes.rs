//! Elements as boxes, as the program has them: a pool keeps its spares, and each bio, vector and slip has a box of its own.
use super::FS;
use std::collections::VecDeque;

pub type El<T> = Box<T>;

pub struct Bio {
    pub write: u32,
    pub writer: u32,
    pub node: u32,
    pub dev: u32,
    pub start: u64,
    pub len: u64,
    pub word: u64,
    pub set: u32,
    pub leg: u32,
    pub short: [(u64, u16); 4],
    pub segments: u8,
}

impl Bio {
    pub fn clear() -> Bio {
        Bio {
            write: 0,
            writer: 0,
            node: 0,
            dev: 0,
            start: 0,
            len: 0,
            word: 0,
            set: FS,
            leg: 0,
            short: [(0, 0); 4],
            segments: 0,
        }
    }

    /// One more of its own segments.
    pub fn push(&mut self, segment: (u64, u16)) {
        self.short[self.segments as usize] = segment;
        self.segments += 1;
    }
}

pub struct Vector {
    segments: Vec<(u64, u16)>,
}

impl Vector {
    pub fn new() -> Vector {
        Vector {
            segments: Vec::with_capacity(256),
        }
    }
    pub fn push(&mut self, segment: (u64, u16)) {
        self.segments.push(segment);
    }
    pub fn clear(&mut self) {
        self.segments.clear();
    }
}

pub struct Slip {
    pub dev: u32,
    pub legs: u32,
}

pub struct Pool<T> {
    spares: Vec<Box<T>>,
    aside: Vec<Box<T>>,
    pub min: usize,
    out: u64,
    live: u64,
    pos: usize,
    pub ordinary: u64,
    pub spare: u64,
    entries: Vec<bool>,
    tail: bool,
    make: fn() -> T,
}

pub enum Taken<T> {
    Ordinary(Box<T>),
    Spare(Box<T>),
    Missed(bool),
}

impl<T> Pool<T> {
    pub fn new(min: u32, entries: Vec<bool>, tail: bool, make: fn() -> T) -> Pool<T> {
        let min = min as usize;
        Pool {
            spares: (0..min).map(|_| Box::new(make())).collect(),
            aside: Vec::new(),
            min,
            out: 0,
            live: 0,
            pos: 0,
            ordinary: 0,
            spare: 0,
            entries,
            tail,
            make,
        }
    }
    pub fn take(&mut self) -> Taken<T> {
        let used = self.pos < self.entries.len();
        let allowed = if used {
            self.entries[self.pos]
        } else {
            self.tail
        };
        if used {
            self.pos += 1;
        }
        if allowed {
            self.out += 1;
            self.live += 1;
            self.ordinary += 1;
            return Taken::Ordinary(Box::new((self.make)()));
        }
        match self.spares.pop() {
            Some(el) => {
                self.out += 1;
                self.spare += 1;
                Taken::Spare(el)
            }
            None => Taken::Missed(used),
        }
    }
    pub fn give(&mut self, mut el: Box<T>) {
        self.out -= 1;
        *el = (self.make)();
        if self.spares.len() < self.min {
            self.spares.push(el);
        } else {
            self.live -= 1;
        }
    }
    pub fn resize(&mut self, min: usize) {
        while self.spares.len() > min {
            let el = self.spares.pop().unwrap();
            self.aside.push(el);
        }
        while self.spares.len() < min {
            let el = self.aside.pop().unwrap_or_else(|| Box::new((self.make)()));
            self.spares.push(el);
        }
        self.min = min;
    }
}

/// What the driver of this device has made goes in front of what waits: first what goes to others, then what goes to the device again.
pub fn merge(dev: u32, made: &mut VecDeque<El<Bio>>, waiting: &mut VecDeque<El<Bio>>) {
    let mut lower = VecDeque::new();
    let mut same = VecDeque::new();
    while let Some(bio) = made.pop_front() {
        if bio.dev == dev {
            same.push_back(bio);
        } else {
            lower.push_back(bio);
        }
    }
    lower.append(&mut same);
    lower.append(waiting);
    *waiting = lower;
}
