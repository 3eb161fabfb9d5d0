//! The twin of main.rt.txt: a pool of the same shape in plain Rust, with a count of what is out in place of a ledger.
//!
//! A take and a give are inlined, as they are in the measured program; left to rustc they are calls, and a pair with a spare takes twice as long.
use std::time::Instant;

/// A body of 64 bytes.
struct Body {
    words: [u64; 8],
}

impl Body {
    fn fresh() -> Self {
        Body { words: [0; 8] }
    }
}

struct Script {
    entries: Vec<bool>,
    tail: bool,
}

impl Script {
    fn allows(&self, pos: u64) -> bool {
        self.entries.get(pos as usize).copied().unwrap_or(self.tail)
    }
}

struct Element {
    body: Box<Body>,
    no: u32,
}

enum Taken {
    Ordinary(Element),
    Spare(Element),
    Miss,
}

struct Pool {
    no: u32,
    out: u64,
    script: Script,
    /// Those laid aside, and the spares behind them.
    bodies: Vec<Box<Body>>,
    min: u64,
    aside: u64,
    live: u64,
    pos: u64,
    ordinary: u64,
    spare: u64,
}

impl Pool {
    fn open(no: u32, min: u32, script: Script) -> Pool {
        Pool {
            no,
            out: 0,
            script,
            bodies: (0..min).map(|_| Box::new(Body::fresh())).collect(),
            min: u64::from(min),
            aside: 0,
            live: 0,
            pos: 0,
            ordinary: 0,
            spare: 0,
        }
    }

    /// Lays elements aside, so that the reserve may be as many as `most`.
    fn widen(&mut self, most: u32) {
        let lacking = (most as usize).saturating_sub(self.bodies.len());
        self.bodies.extend((0..lacking).map(|_| Box::new(Body::fresh())));
        self.aside += lacking as u64;
    }

    /// Sets the reserve, with nothing out.
    fn resize(&mut self, min: u32) {
        let min = u64::from(min);
        self.aside = self.bodies.len() as u64 - min;
        self.min = min;
    }

    /// How many bodies are not laid aside.
    fn spares(&self) -> u64 {
        self.bodies.len() as u64 - self.aside
    }

    fn issue(&mut self, body: Box<Body>) -> Element {
        self.out += 1;
        Element { body, no: self.no }
    }

    #[inline(always)]
    fn take(&mut self) -> Taken {
        let is_allowed = self.script.allows(self.pos);
        if self.pos < self.script.entries.len() as u64 {
            self.pos += 1;
        }
        if self.out == u64::MAX {
            return Taken::Miss;
        }
        if is_allowed {
            let body = Box::new(Body::fresh());
            self.live += 1;
            self.ordinary = self.ordinary.saturating_add(1);
            return Taken::Ordinary(self.issue(body));
        }
        if self.spares() == 0 {
            return Taken::Miss;
        }
        let Some(body) = self.bodies.pop() else {
            return Taken::Miss;
        };
        self.spare = self.spare.saturating_add(1);
        Taken::Spare(self.issue(body))
    }

    #[inline(always)]
    fn give(&mut self, element: Element) {
        assert!(element.no == self.no);
        let mut body = element.body;
        self.out -= 1;
        if self.spares() < self.min {
            *body = Body::fresh();
            self.bodies.push(body);
        } else {
            self.live -= 1;
        }
    }
}

/// A pool of one spare.
fn open(allows: bool) -> Pool {
    let script = Script {
        entries: Vec::new(),
        tail: allows,
    };
    Pool::open(0, 1, script)
}

/// An element, where the pool has one.
#[inline(always)]
fn taken(pool: &mut Pool) -> Option<Element> {
    match pool.take() {
        Taken::Ordinary(element) | Taken::Spare(element) => Some(element),
        Taken::Miss => None,
    }
}

/// Takes an element, writes to its body and gives it back. It answers whether there was one.
fn pair(pool: &mut Pool, word: u64) -> bool {
    let Some(mut element) = taken(pool) else {
        return false;
    };
    element.body.words[0] = word;
    pool.give(element);
    true
}

/// One pair after the other. It answers how many had an element.
fn pairs(pool: &mut Pool, count: u32) -> u64 {
    let mut served = 0;
    for word in 0..count {
        if pair(pool, u64::from(word)) {
            served += 1;
        }
    }
    served
}

/// All takes first, and then all gives, the last taken first.
fn fill(pool: &mut Pool, count: u32) -> u64 {
    let mut held = Vec::with_capacity(count as usize);
    for word in 0..count {
        if let Some(mut element) = taken(pool) {
            element.body.words[0] = u64::from(word);
            held.push(element);
        }
    }
    let mut served = 0;
    for _ in 0..count {
        if let Some(element) = held.pop() {
            pool.give(element);
            served += 1;
        }
    }
    served
}

/// Sets the reserve, in a call of its own, so that the compiler makes each of them.
#[inline(never)]
fn set_reserve(pool: &mut Pool, min: u32) {
    pool.resize(min);
}

/// Sets the reserve to eight and to one in turn, so often, and answers how often the pool had as many spares then.
fn resizes(pool: &mut Pool, count: u32) -> u64 {
    let mut served = 0;
    for k in 0..count {
        let min = if k % 2 == 0 { 8 } else { 1 };
        set_reserve(pool, min);
        if pool.spares() == u64::from(min) {
            served += 1;
        }
    }
    served
}

/// The nanoseconds of so many pairs at a pool of its own.
fn time_pairs(allows: bool, count: u32) -> (u128, u64) {
    let mut pool = open(allows);
    let start = Instant::now();
    let served = pairs(&mut pool, count);
    (start.elapsed().as_nanos(), served)
}

/// The nanoseconds of a fill at a pool of its own.
fn time_fill(count: u32) -> (u128, u64) {
    let mut pool = open(true);
    let start = Instant::now();
    let served = fill(&mut pool, count);
    (start.elapsed().as_nanos(), served)
}

/// The nanoseconds of so many resizes of a pool of its own.
fn time_resizes(count: u32) -> (u128, u64) {
    let mut pool = open(false);
    pool.widen(8);
    let start = Instant::now();
    let served = resizes(&mut pool, count);
    (start.elapsed().as_nanos(), served)
}

fn main() {
    let count = std::env::args().nth(1).and_then(|word| word.parse().ok()).unwrap_or(0);
    let (ordinary, served) = time_pairs(true, count);
    println!("ordinary {ordinary} {served}");
    let (spare, served) = time_pairs(false, count);
    println!("spare {spare} {served}");
    let (filled, served) = time_fill(count);
    println!("fill {filled} {served}");
    let (resized, served) = time_resizes(count);
    println!("resize {resized} {served}");
}
