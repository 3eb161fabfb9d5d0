//! Elements as counts: a pool says how many spares it has, and asks the system for memory once for 1,024 elements, which it never gives back; a bio keeps
//! no segments and fits a cache line; lists are merged in their places. With these in place of `boxes.rs` the same events take less, so that this is the
//! harder twin.
use super::FS;
use std::collections::VecDeque;
use std::ops::{Deref, DerefMut};

/// How many elements a pool asks for at once.
const CHUNK: usize = 1024;

/// What a pool hands out: a place among its elements.
pub struct El<T: 'static>(&'static mut T);

impl<T: 'static> Deref for El<T> {
    type Target = T;
    fn deref(&self) -> &T {
        self.0
    }
}

impl<T: 'static> DerefMut for El<T> {
    fn deref_mut(&mut self) -> &mut T {
        self.0
    }
}

pub struct Bio {
    pub write: u32,
    pub writer: u32,
    pub node: u32,
    pub dev: u32,
    pub start: u64,
    pub len: u64,
    pub word: u64,
    pub set: u32,
    pub leg: u32,
}

impl Bio {
    pub fn clear() -> Bio {
        Bio {
            write: 0,
            writer: 0,
            node: 0,
            dev: 0,
            start: 0,
            len: 0,
            word: 0,
            set: FS,
            leg: 0,
        }
    }
    pub fn push(&mut self, _: (u64, u16)) {}
}

pub struct Vector;

impl Vector {
    pub fn new() -> Vector {
        Vector
    }
    pub fn push(&mut self, _: (u64, u16)) {}
    pub fn clear(&mut self) {}
}

pub struct Slip {
    pub dev: u32,
    pub legs: u32,
}

pub struct Pool<T: 'static> {
    spares: usize,
    free: Vec<&'static mut T>,
    pub min: usize,
    pos: usize,
    pub ordinary: u64,
    pub spare: u64,
    entries: Vec<bool>,
    tail: bool,
    make: fn() -> T,
}

pub enum Taken<T: 'static> {
    Ordinary(El<T>),
    Spare(El<T>),
    Missed(bool),
}

impl<T: 'static> Pool<T> {
    pub fn new(min: u32, entries: Vec<bool>, tail: bool, make: fn() -> T) -> Pool<T> {
        let min = min as usize;
        Pool {
            spares: min,
            free: Vec::new(),
            min,
            pos: 0,
            ordinary: 0,
            spare: 0,
            entries,
            tail,
            make,
        }
    }
    pub fn take(&mut self) -> Taken<T> {
        let used = self.pos < self.entries.len();
        let allowed = if used {
            self.entries[self.pos]
        } else {
            self.tail
        };
        if used {
            self.pos += 1;
        }
        if allowed {
            self.ordinary += 1;
            return Taken::Ordinary(self.element());
        }
        if self.spares == 0 {
            return Taken::Missed(used);
        }
        self.spares -= 1;
        self.spare += 1;
        Taken::Spare(self.element())
    }
    fn element(&mut self) -> El<T> {
        if self.free.is_empty() {
            let chunk: Vec<T> = (0..CHUNK).map(|_| (self.make)()).collect();
            self.free.extend(chunk.leak());
        }
        El(self.free.pop().unwrap())
    }
    pub fn give(&mut self, el: El<T>) {
        self.free.push(el.0);
        if self.spares < self.min {
            self.spares += 1;
        }
    }
    pub fn resize(&mut self, min: usize) {
        self.spares = min;
        self.min = min;
    }
}

/// What the driver of this device has made goes in front of what waits: first what goes to others, then what goes to the device again.
pub fn merge(dev: u32, made: &mut VecDeque<El<Bio>>, waiting: &mut VecDeque<El<Bio>>) {
    for place in (0..made.len()).rev() {
        if made[place].dev == dev {
            waiting.push_front(made.remove(place).unwrap());
        }
    }
    while let Some(bio) = made.pop_back() {
        waiting.push_front(bio);
    }
}
