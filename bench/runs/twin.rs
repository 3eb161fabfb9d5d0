//! A twin of the program in plain Rust, with nothing proved: it reads an accepted text and runs it and writes its report, by the same rules and with
//! boxes, lists and books of the same shape, or writes what `check` and `layout` do. Texts that would be refused are not looked for. With `--cfg counts`
//! it is the harder twin, whose pools count their elements and which moves no boxes (`counts.rs`).
#![allow(unexpected_cfgs)]
use std::collections::VecDeque;
use std::env;
use std::io::{self, BufWriter, Read, Write as _};
use std::time::Instant;

#[cfg(not(counts))]
mod boxes;
#[cfg(counts)]
mod counts;
pub mod shared;

#[cfg(not(counts))]
use self::boxes::{Bio, El, Pool, Slip, Taken, Vector, merge};
#[cfg(counts)]
use self::counts::{Bio, El, Pool, Slip, Taken, Vector, merge};

#[derive(Clone, Copy, PartialEq, Eq)]
pub enum Status {
    Ok,
    Io,
    Medium,
    NoSpace,
}

impl Status {
    fn word(self) -> &'static str {
        match self {
            Status::Ok => "ok",
            Status::Io => "io",
            Status::Medium => "medium",
            Status::NoSpace => "nospace",
        }
    }
}

#[derive(Clone)]
pub enum Kind {
    Disk,
    Linear,
    Stripe(u64),
    Zoned(u64),
    Limit(u64, u64),
    Mirror,
}

#[derive(Clone)]
pub struct Device {
    pub name: String,
    pub kind: Kind,
    pub members: Vec<usize>,
    pub size: u64,
    pub rescuer: bool,
    pub bads: Vec<(u64, u64, Status)>,
    pub bios: u32,
    pub records: u32,
}

pub const FS: u32 = u32::MAX;

#[derive(Clone, Copy)]
pub struct Todo {
    pub number: u32,
    pub round: u32,
    pub dev: u32,
    pub start: u64,
    pub count: u64,
    pub tag: u64,
}

#[derive(Default)]
struct Held {
    vector: Option<El<Vector>>,
    bio: Option<El<Bio>>,
    slip: Option<El<Slip>>,
}

struct Node {
    master: bool,
    count: u64,
    status: Status,
    parent: Option<u32>,
    write: u32,
    held: Held,
}

struct Closed {
    status: Status,
    parent: Option<u32>,
    write: u32,
    held: Held,
}

struct Book {
    places: Vec<Option<Node>>,
    vacant: Vec<u32>,
}

enum End {
    Left,
    Up(Closed),
    Top(Closed),
}

impl Book {
    fn new(places: usize) -> Book {
        Book {
            places: (0..places).map(|_| None).collect(),
            vacant: (0..places as u32).collect(),
        }
    }
    fn open(&mut self, node: Node) -> u32 {
        let at = self.vacant.pop().unwrap();
        self.places[at as usize] = Some(node);
        at
    }
    fn node(&mut self, at: u32) -> &mut Node {
        self.places[at as usize].as_mut().unwrap()
    }
    fn write(&mut self, write: u32, vector: Option<El<Vector>>) -> u32 {
        self.open(Node {
            master: false,
            count: 1,
            status: Status::Ok,
            parent: None,
            write,
            held: Held {
                vector,
                bio: None,
                slip: None,
            },
        })
    }
    fn chain(&mut self, parent: u32) -> u32 {
        let above = self.node(parent);
        above.count += 1;
        let write = above.write;
        self.open(Node {
            master: false,
            count: 1,
            status: Status::Ok,
            parent: Some(parent),
            write,
            held: Held::default(),
        })
    }
    fn master(&mut self, parent: u32, part: El<Bio>, mut slip: El<Slip>, legs: u32) -> u32 {
        slip.dev = part.dev;
        let above = self.node(parent);
        above.held.bio = Some(part);
        let write = above.write;
        slip.legs = legs;
        self.open(Node {
            master: true,
            count: u64::from(legs),
            status: Status::Io,
            parent: Some(parent),
            write,
            held: Held {
                vector: None,
                bio: None,
                slip: Some(slip),
            },
        })
    }
    fn leg(&mut self, master: u32) -> u32 {
        let write = self.node(master).write;
        self.open(Node {
            master: false,
            count: 1,
            status: Status::Ok,
            parent: Some(master),
            write,
            held: Held::default(),
        })
    }
    fn drop_one(&mut self, at: u32, status: Status, part: Option<El<Bio>>) -> End {
        let node = self.node(at);
        if part.is_some() {
            node.held.bio = part;
        }
        if node.master {
            if status == Status::Ok {
                node.status = Status::Ok;
            }
        } else if node.status == Status::Ok {
            node.status = status;
        }
        node.count -= 1;
        if node.count > 0 {
            return End::Left;
        }
        let node = self.places[at as usize].take().unwrap();
        self.vacant.push(at);
        let closed = Closed {
            status: node.status,
            parent: node.parent,
            write: node.write,
            held: node.held,
        };
        if closed.parent.is_some() {
            End::Up(closed)
        } else {
            End::Top(closed)
        }
    }
}

struct Disk {
    image: Vec<u64>,
    written: Vec<bool>,
    pending: VecDeque<El<Bio>>,
}

enum Want {
    Takes(bool),
    Punts,
    Links(El<Bio>),
}

enum Doing {
    Rests,
    Push(El<Bio>),
    Cut(El<Bio>, Want),
    Record(El<Bio>),
    Master(El<Bio>, El<Slip>),
    Copies(Bio, u32, u32, Want),
}

struct Line {
    doing: Doing,
    list0: VecDeque<El<Bio>>,
    list1: VecDeque<El<Bio>>,
}

impl Line {
    fn new() -> Line {
        Line {
            doing: Doing::Rests,
            list0: VecDeque::new(),
            list1: VecDeque::new(),
        }
    }
}

enum Carried {
    Empty,
    Brings(El<Bio>, Status),
    Carries(u32, Closed),
}

enum Duty {
    Resizes(usize, u32, u32),
    Starts(u32, u32),
}

enum Task {
    Writer {
        number: u32,
        todo: VecDeque<Todo>,
        bio: Option<El<Bio>>,
        vector: Option<El<Vector>>,
        line: Line,
    },
    Rescuer {
        dev: u32,
        line: Line,
    },
    Completer {
        disk: u32,
        carried: Carried,
    },
    Keeper {
        duties: VecDeque<Duty>,
    },
}

struct Objects {
    devices: Vec<Device>,
    fs: Pool<Bio>,
    vecs: Pool<Vector>,
    bios: Vec<Option<Pool<Bio>>>,
    records: Vec<Option<Pool<Slip>>>,
    lists: Vec<VecDeque<El<Bio>>>,
    disks: Vec<Option<Disk>>,
    books: Vec<Book>,
    round: usize,
    left: Vec<u32>,
    all: u32,
    statuses: Vec<Status>,
    trace: Option<BufWriter<io::StdoutLock<'static>>>,
}

macro_rules! told { ($o:expr, $($arg:tt)*) => { if let Some(out) = $o.trace.as_mut() { writeln!(out, $($arg)*).unwrap(); } } }

struct Pcg {
    state: u64,
    incr: u64,
}

impl Pcg {
    fn new(mut number: u64) -> Pcg {
        let mut word = || {
            number = number
                .wrapping_mul(6364136223846793005)
                .wrapping_add(11634580027462260723);
            ((((number >> 18) ^ number) >> 27) as u32).rotate_right((number >> 59) as u32)
        };
        let (a, b, c, d) = (word(), word(), word(), word());
        let state = u64::from(a) | u64::from(b) << 32;
        let incr = (u64::from(c) | u64::from(d) << 32) | 1;
        let mut pcg = Pcg {
            state: state.wrapping_add(incr),
            incr,
        };
        pcg.step();
        pcg
    }
    fn step(&mut self) {
        self.state = self
            .state
            .wrapping_mul(6364136223846793005)
            .wrapping_add(self.incr);
    }
    fn word(&mut self) -> u32 {
        let state = self.state;
        self.step();
        ((((state >> 18) ^ state) >> 27) as u32).rotate_right((state >> 59) as u32)
    }
}

/// The first piece of a run at a device that cuts: its length, the member, and where it starts there.
pub fn piece(devices: &[Device], dev: u32, start: u64, len: u64) -> (u64, usize, u64) {
    let device = &devices[dev as usize];
    match device.kind {
        Kind::Linear => {
            let mut before = 0;
            for &m in &device.members {
                let size = devices[m].size;
                if start < before + size {
                    return ((before + size - start).min(len), m, start - before);
                }
                before += size;
            }
            unreachable!()
        }
        Kind::Stripe(chunk) => {
            let n = device.members.len() as u64;
            let c = start / chunk;
            let within = start % chunk;
            (
                (chunk - within).min(len),
                device.members[(c % n) as usize],
                c / n * chunk + within,
            )
        }
        Kind::Zoned(chunk) => {
            let whole: Vec<u64> = device
                .members
                .iter()
                .map(|&m| devices[m].size / chunk)
                .collect();
            let (mut c, within, mut level) = (start / chunk, start % chunk, 0);
            loop {
                let in_zone: Vec<usize> = (0..whole.len()).filter(|&k| whole[k] > level).collect();
                let next = in_zone.iter().map(|&k| whole[k]).min().unwrap();
                let chunks = in_zone.len() as u64 * (next - level);
                if c < chunks {
                    let m = in_zone.len() as u64;
                    return (
                        (chunk - within).min(len),
                        device.members[in_zone[(c % m) as usize]],
                        (level + c / m) * chunk + within,
                    );
                }
                c -= chunks;
                level = next;
            }
        }
        Kind::Limit(max, chunk) => {
            let n = if chunk == 0 {
                max
            } else {
                max.min(chunk - start % chunk)
            };
            (n.min(len), device.members[0], start)
        }
        Kind::Disk | Kind::Mirror => unreachable!(),
    }
}

pub fn cuts(devices: &[Device], dev: u32) -> bool {
    !matches!(devices[dev as usize].kind, Kind::Disk | Kind::Mirror)
}

/// The elements without a vector, and the fragments, of a run at a device.
fn needs(devices: &[Device], dev: u32, mut start: u64, mut len: u64) -> (u64, u64) {
    match devices[dev as usize].kind {
        Kind::Disk => (0, 1),
        Kind::Mirror => {
            let (mut e, mut g) = (1 + devices[dev as usize].members.len() as u64, 0);
            for &m in &devices[dev as usize].members {
                let (a, b) = needs(devices, m as u32, start, len);
                e += a;
                g += b;
            }
            (e, g)
        }
        _ => {
            let (mut e, mut g) = (0, 0);
            loop {
                let (n, m, at) = piece(devices, dev, start, len);
                let (a, b) = needs(devices, m as u32, at, n);
                e += a;
                g += b;
                start += n;
                len -= n;
                if len == 0 {
                    return (e, g);
                }
                e += 1;
            }
        }
    }
}

/// A part of a write that comes to a disk: its offset in the write, its sectors, the disk and its first sector there.
type Fragment = (u64, u64, u32, u64);

/// The fragments of a run at a device, whose first sector has this offset in the write.
fn fragments(devices: &[Device], dev: u32, mut offset: u64, mut start: u64, mut len: u64, into: &mut Vec<Fragment>) {
    match devices[dev as usize].kind {
        Kind::Disk => into.push((offset, len, dev, start)),
        Kind::Mirror => {
            for &m in &devices[dev as usize].members {
                fragments(devices, m as u32, offset, start, len, into);
            }
        }
        _ => {
            while len > 0 {
                let (n, m, at) = piece(devices, dev, start, len);
                fragments(devices, m as u32, offset, at, n, into);
                offset += n;
                start += n;
                len -= n;
            }
        }
    }
}

/// Writes the lines of `check`.
fn check(t: &Text, (e, g, z): (u64, u64, u64)) {
    for d in &t.devices {
        let kind = match d.kind {
            Kind::Disk => "disk",
            Kind::Linear => "linear",
            Kind::Stripe(_) => "stripe",
            Kind::Zoned(_) => "zoned",
            Kind::Limit(..) => "limit",
            Kind::Mirror => "mirror",
        };
        println!("device {} {kind} {}", d.name, d.size);
    }
    println!("need e {e} g {g} z {z} bound {}", 8 * e + 2 * g + z);
}

/// Writes the lines of `layout`.
fn layout(t: &Text) {
    let mut out = BufWriter::new(io::stdout().lock());
    for (number, (_, w)) in t.writes.iter().enumerate() {
        let mut own = Vec::new();
        fragments(&t.devices, w.dev, 0, w.start, w.count, &mut own);
        own.sort_by_key(|f| (f.0, f.2));
        for (offset, len, disk, at) in own {
            writeln!(out, "fragment {number} {offset} {len} {} {at}", t.devices[disk as usize].name).unwrap();
        }
    }
}

fn land(devices: &[Device], bio: &mut Bio) {
    while cuts(devices, bio.dev) {
        let (n, m, at) = piece(devices, bio.dev, bio.start, bio.len);
        if n < bio.len {
            return;
        }
        bio.dev = m as u32;
        bio.start = at;
    }
}

impl Objects {
    fn waits_first(&self, dev: u32, line: &Line) -> bool {
        !self.devices[dev as usize].rescuer || line.list0.is_empty() && line.list1.is_empty()
    }

    /// The first bio of list 1 goes to its driver.
    fn settle(&self, line: &mut Line) {
        line.doing = match line.list1.pop_front() {
            None => Doing::Rests,
            Some(mut bio) => {
                land(&self.devices, &mut bio);
                match self.devices[bio.dev as usize].kind {
                    Kind::Disk => Doing::Push(bio),
                    Kind::Mirror => Doing::Record(bio),
                    _ => {
                        let waits = self.waits_first(bio.dev, line);
                        Doing::Cut(bio, Want::Takes(waits))
                    }
                }
            }
        };
    }

    fn goes_on(&self, dev: u32, line: &mut Line) {
        merge(dev, &mut line.list0, &mut line.list1);
        self.settle(line);
    }

    fn punt(&mut self, dev: u32, line: &mut Line) -> u64 {
        let mut moved = 0;
        for list in [&mut line.list0, &mut line.list1] {
            let mut kept = VecDeque::new();
            while let Some(bio) = list.pop_front() {
                if bio.set == dev {
                    moved += 1;
                    self.lists[dev as usize].push_back(bio);
                } else {
                    kept.push_back(bio);
                }
            }
            *list = kept;
        }
        moved
    }

    fn name(&self, dev: u32) -> &str {
        &self.devices[dev as usize].name
    }

    /// A bio of a device's set. Answers what was had, or whether there was an event.
    fn take(&mut self, who: &str, dev: u32, waits: bool) -> Result<El<Bio>, bool> {
        let verb = if waits { "take" } else { "try" };
        match self.bios[dev as usize].as_mut().unwrap().take() {
            Taken::Ordinary(bio) => {
                if self.trace.is_some() {
                    let n = self.name(dev).to_string();
                    told!(self, "event {who} {verb} {n}.bios ordinary");
                }
                Ok(bio)
            }
            Taken::Spare(bio) => {
                if self.trace.is_some() {
                    let n = self.name(dev).to_string();
                    told!(self, "event {who} {verb} {n}.bios spare");
                }
                Ok(bio)
            }
            Taken::Missed(used) => {
                let event = used || !waits;
                if event && self.trace.is_some() {
                    let n = self.name(dev).to_string();
                    told!(self, "event {who} {verb} {n}.bios missed");
                }
                Err(event)
            }
        }
    }

    /// A step of a submission, and whether there was an event.
    fn line_step(&mut self, who: &str, line: &mut Line) -> bool {
        match std::mem::replace(&mut line.doing, Doing::Rests) {
            Doing::Rests => false,
            Doing::Push(bio) => {
                let dev = bio.dev;
                if self.trace.is_some() {
                    let n = self.name(dev).to_string();
                    told!(
                        self,
                        "event {who} push {n} {} {} leg {}",
                        bio.start,
                        bio.len,
                        bio.leg
                    );
                }
                self.disks[dev as usize]
                    .as_mut()
                    .unwrap()
                    .pending
                    .push_back(bio);
                self.goes_on(dev, line);
                true
            }
            Doing::Cut(bio, Want::Takes(waits)) => match self.take(who, bio.dev, waits) {
                Ok(hand) => {
                    line.doing = Doing::Cut(bio, Want::Links(hand));
                    true
                }
                Err(event) => {
                    line.doing = Doing::Cut(
                        bio,
                        if waits {
                            Want::Takes(true)
                        } else {
                            Want::Punts
                        },
                    );
                    event
                }
            },
            Doing::Cut(bio, Want::Punts) => {
                let moved = self.punt(bio.dev, line);
                if self.trace.is_some() {
                    let n = self.name(bio.dev).to_string();
                    told!(self, "event {who} punt {n} {moved}");
                }
                line.doing = Doing::Cut(bio, Want::Takes(true));
                true
            }
            Doing::Cut(mut bio, Want::Links(mut hand)) => {
                let node = self.books[bio.writer as usize].chain(bio.node);
                told!(self, "event {who} link {} chain {node}", bio.writer);
                let dev = bio.dev;
                let (n, m, at) = piece(&self.devices, dev, bio.start, bio.len);
                *hand = Bio {
                    dev: m as u32,
                    start: at,
                    len: n,
                    set: dev,
                    node,
                    leg: 0,
                    ..*bio
                };
                bio.start += n;
                bio.len -= n;
                bio.word = bio.word.wrapping_add(64 * n);
                line.list0.push_back(hand);
                line.list0.push_back(bio);
                self.goes_on(dev, line);
                true
            }
            Doing::Record(bio) => match self.records[bio.dev as usize].as_mut().unwrap().take() {
                Taken::Ordinary(slip) => {
                    if self.trace.is_some() {
                        let n = self.name(bio.dev).to_string();
                        told!(self, "event {who} take {n}.records ordinary");
                    }
                    line.doing = Doing::Master(bio, slip);
                    true
                }
                Taken::Spare(slip) => {
                    if self.trace.is_some() {
                        let n = self.name(bio.dev).to_string();
                        told!(self, "event {who} take {n}.records spare");
                    }
                    line.doing = Doing::Master(bio, slip);
                    true
                }
                Taken::Missed(used) => {
                    if used && self.trace.is_some() {
                        let n = self.name(bio.dev).to_string();
                        told!(self, "event {who} take {n}.records missed");
                    }
                    line.doing = Doing::Record(bio);
                    used
                }
            },
            Doing::Master(bio, slip) => {
                let copied = Bio { ..*bio };
                let legs = self.devices[bio.dev as usize].members.len() as u32;
                let master = self.books[bio.writer as usize].master(bio.node, bio, slip, legs);
                told!(self, "event {who} link {} master {master}", copied.writer);
                self.copies(copied, master, 0, line);
                true
            }
            Doing::Copies(bio, master, leg, Want::Takes(waits)) => {
                match self.take(who, bio.dev, waits) {
                    Ok(hand) => {
                        line.doing = Doing::Copies(bio, master, leg, Want::Links(hand));
                        true
                    }
                    Err(event) => {
                        line.doing = Doing::Copies(
                            bio,
                            master,
                            leg,
                            if waits {
                                Want::Takes(true)
                            } else {
                                Want::Punts
                            },
                        );
                        event
                    }
                }
            }
            Doing::Copies(bio, master, leg, Want::Punts) => {
                let moved = self.punt(bio.dev, line);
                if self.trace.is_some() {
                    let n = self.name(bio.dev).to_string();
                    told!(self, "event {who} punt {n} {moved}");
                }
                line.doing = Doing::Copies(bio, master, leg, Want::Takes(true));
                true
            }
            Doing::Copies(bio, master, leg, Want::Links(mut hand)) => {
                let node = self.books[bio.writer as usize].leg(master);
                told!(self, "event {who} link {} leg {node}", bio.writer);
                let member = self.devices[bio.dev as usize].members[leg as usize];
                *hand = Bio {
                    dev: member as u32,
                    set: bio.dev,
                    node,
                    leg,
                    ..bio
                };
                line.list0.push_back(hand);
                self.copies(bio, master, leg + 1, line);
                true
            }
        }
    }

    fn copies(&self, bio: Bio, master: u32, leg: u32, line: &mut Line) {
        if leg as usize == self.devices[bio.dev as usize].members.len() {
            self.goes_on(bio.dev, line);
            return;
        }
        let waits = self.waits_first(bio.dev, line);
        line.doing = Doing::Copies(bio, master, leg, Want::Takes(waits));
    }

    fn give_bio(&mut self, who: &str, bio: El<Bio>) {
        let set = bio.set;
        if set == FS {
            told!(self, "event {who} give fs.bios");
            self.fs.give(bio);
        } else {
            if self.trace.is_some() {
                let n = self.name(set).to_string();
                told!(self, "event {who} give {n}.bios");
            }
            self.bios[set as usize].as_mut().unwrap().give(bio);
        }
    }

    fn complete(&mut self, who: &str, disk: u32, pcg: &mut Pcg) -> Option<(El<Bio>, Status)> {
        let pending = self.disks[disk as usize].as_ref().unwrap().pending.len();
        if pending == 0 {
            return None;
        }
        let index = pcg.word() as usize % pending.min(64);
        let at = self.disks[disk as usize].as_mut().unwrap();
        let bio = at.pending.remove(index).unwrap();
        let status = self.devices[disk as usize]
            .bads
            .iter()
            .filter(|b| b.0 < bio.start + bio.len && bio.start < b.0 + b.1)
            .min_by_key(|b| b.0)
            .map_or(Status::Ok, |b| b.2);
        if status == Status::Ok {
            for j in 0..bio.len {
                let sector = (bio.start + j) as usize;
                let first = bio.word.wrapping_add(64 * j);
                for (i, word) in at.image[64 * sector..64 * sector + 64]
                    .iter_mut()
                    .enumerate()
                {
                    *word = first.wrapping_add(i as u64);
                }
                at.written[sector] = true;
            }
        }
        if self.trace.is_some() {
            let n = self.name(disk).to_string();
            told!(self, "event {who} complete {n} {index} {}", status.word());
        }
        Some((bio, status))
    }

    /// A step of a task, and whether there was an event.
    fn step(&mut self, task: &mut Task, pcg: &mut Pcg) -> bool {
        let tracing = self.trace.is_some();
        match task {
            Task::Writer {
                number,
                todo,
                bio,
                vector,
                line,
            } => {
                let who = if tracing {
                    format!("w{number}")
                } else {
                    String::new()
                };
                if !matches!(line.doing, Doing::Rests) {
                    return self.line_step(&who, line);
                }
                let Some(first) = todo.front().copied() else {
                    return false;
                };
                let segments = first.count.div_ceil(8);
                if bio.is_none() {
                    if first.round as usize > self.round {
                        return false;
                    }
                    return match self.fs.take() {
                        Taken::Ordinary(el) => {
                            told!(self, "event {who} take fs.bios ordinary");
                            *bio = Some(el);
                            true
                        }
                        Taken::Spare(el) => {
                            told!(self, "event {who} take fs.bios spare");
                            *bio = Some(el);
                            true
                        }
                        Taken::Missed(used) => {
                            if used {
                                told!(self, "event {who} take fs.bios missed");
                            }
                            used
                        }
                    };
                }
                if segments > 4 && vector.is_none() {
                    return match self.vecs.take() {
                        Taken::Ordinary(el) => {
                            told!(self, "event {who} take fs.vecs ordinary");
                            *vector = Some(el);
                            true
                        }
                        Taken::Spare(el) => {
                            told!(self, "event {who} take fs.vecs spare");
                            *vector = Some(el);
                            true
                        }
                        Taken::Missed(used) => {
                            if used {
                                told!(self, "event {who} take fs.vecs missed");
                            }
                            used
                        }
                    };
                }
                let mut el = bio.take().unwrap();
                let mut list = vector.take();
                *el = Bio {
                    write: first.number,
                    writer: *number,
                    node: 0,
                    dev: first.dev,
                    start: first.start,
                    len: first.count,
                    word: first.tag,
                    set: FS,
                    leg: 0,
                    ..Bio::clear()
                };
                for k in 0..segments {
                    let segment = (
                        first.tag.wrapping_add(512 * k),
                        (first.count - 8 * k).min(8) as u16,
                    );
                    match list.as_mut() {
                        Some(list) => list.push(segment),
                        None => el.push(segment),
                    }
                }
                let node = self.books[*number as usize].write(first.number, list);
                told!(self, "event {who} link {number} write {node}");
                el.node = node;
                todo.pop_front();
                line.list1.push_back(el);
                self.settle(line);
                true
            }
            Task::Rescuer { dev, line } => {
                let who = if tracing {
                    format!("r:{}", self.name(*dev))
                } else {
                    String::new()
                };
                if !matches!(line.doing, Doing::Rests) {
                    return self.line_step(&who, line);
                }
                let Some(bio) = self.lists[*dev as usize].pop_front() else {
                    return false;
                };
                if tracing {
                    let n = self.name(*dev).to_string();
                    told!(self, "event {who} pop {n}");
                }
                line.list1.push_back(bio);
                self.settle(line);
                true
            }
            Task::Completer { disk, carried } => {
                let who = if tracing {
                    format!("c:{}", self.name(*disk))
                } else {
                    String::new()
                };
                match std::mem::replace(carried, Carried::Empty) {
                    Carried::Empty => {
                        let Some((bio, status)) = self.complete(&who, *disk, pcg) else {
                            return false;
                        };
                        *carried = Carried::Brings(bio, status);
                    }
                    Carried::Brings(bio, status) => {
                        let (writer, node) = (bio.writer, bio.node);
                        *carried = self.dropped(&who, writer, node, status, Some(bio));
                    }
                    Carried::Carries(writer, mut closed) => {
                        if let Some(mut vector) = closed.held.vector.take() {
                            vector.clear();
                            told!(self, "event {who} give fs.vecs");
                            self.vecs.give(vector);
                            *carried = Carried::Carries(writer, closed);
                        } else if let Some(bio) = closed.held.bio.take() {
                            self.give_bio(&who, bio);
                            *carried = Carried::Carries(writer, closed);
                        } else if let Some(slip) = closed.held.slip.take() {
                            self.give_slip(&who, slip);
                            *carried = Carried::Carries(writer, closed);
                        } else if let Some(parent) = closed.parent {
                            *carried = self.dropped(&who, writer, parent, closed.status, None);
                        } else {
                            self.left[self.round] -= 1;
                            self.all -= 1;
                            self.statuses[closed.write as usize] = closed.status;
                            told!(
                                self,
                                "event {who} done {} {}",
                                closed.write,
                                closed.status.word()
                            );
                        }
                    }
                }
                true
            }
            Task::Keeper { duties } => {
                let later = match duties.front() {
                    None => return false,
                    Some(Duty::Resizes(_, _, later)) | Some(Duty::Starts(_, later)) => *later,
                };
                if self.all != later {
                    return false;
                }
                match duties.pop_front().unwrap() {
                    Duty::Resizes(pool, min, _) => {
                        if tracing {
                            let n = self.pool_name(pool);
                            told!(self, "event k resize {n} {min}");
                        }
                        match pool {
                            65 => self.fs.resize(min as usize),
                            64 => self.vecs.resize(min as usize),
                            n if n % 2 == 0 => {
                                self.bios[n / 2].as_mut().unwrap().resize(min as usize)
                            }
                            n => self.records[n / 2].as_mut().unwrap().resize(min as usize),
                        }
                    }
                    Duty::Starts(round, _) => {
                        self.round += 1;
                        told!(self, "event k round {round}");
                    }
                }
                true
            }
        }
    }

    fn pool_name(&self, pool: usize) -> String {
        match pool {
            65 => "fs.bios".into(),
            64 => "fs.vecs".into(),
            n if n % 2 == 0 => format!("{}.bios", self.devices[n / 2].name),
            n => format!("{}.records", self.devices[n / 2].name),
        }
    }

    fn give_slip(&mut self, who: &str, slip: El<Slip>) {
        let dev = slip.dev as usize;
        if self.trace.is_some() {
            let n = self.devices[dev].name.clone();
            told!(self, "event {who} give {n}.records");
        }
        self.records[dev].as_mut().unwrap().give(slip);
    }

    fn dropped(
        &mut self,
        who: &str,
        writer: u32,
        node: u32,
        status: Status,
        part: Option<El<Bio>>,
    ) -> Carried {
        let end = self.books[writer as usize].drop_one(node, status, part);
        let (word, carried) = match end {
            End::Left => ("left", Carried::Empty),
            End::Up(closed) => ("up", Carried::Carries(writer, closed)),
            End::Top(closed) => ("top", Carried::Carries(writer, closed)),
        };
        told!(
            self,
            "event {who} drop {writer} {node} {} {word}",
            status.word()
        );
        carried
    }
}

pub struct Text {
    pub devices: Vec<Device>,
    pub fs_bios: u32,
    pub fs_vecs: u32,
    pub scripts: Vec<(String, Vec<bool>, bool)>,
    pub none: bool,
    pub writes: Vec<(u32, Todo)>,
    pub resizes: Vec<(u32, String, u32)>,
    pub entries: u64,
}

pub fn read(text: &str) -> Text {
    let mut t = Text {
        devices: Vec::new(),
        fs_bios: 2,
        fs_vecs: 2,
        scripts: Vec::new(),
        none: false,
        writes: Vec::new(),
        resizes: Vec::new(),
        entries: 0,
    };
    let mut round = 0;
    for line in text.lines() {
        let words: Vec<&str> = line.split_whitespace().collect();
        if words.is_empty() || words[0].starts_with('#') {
            continue;
        }
        let find = |t: &Text, name: &str| t.devices.iter().position(|d| d.name == name).unwrap();
        match words[0] {
            "disk" => t.devices.push(Device {
                name: words[1].into(),
                kind: Kind::Disk,
                members: Vec::new(),
                size: words[2].parse().unwrap(),
                rescuer: false,
                bads: Vec::new(),
                bios: 0,
                records: 0,
            }),
            "bad" => {
                let d = find(&t, words[1]);
                let kind = match words[4] {
                    "io" => Status::Io,
                    "medium" => Status::Medium,
                    _ => Status::NoSpace,
                };
                t.devices[d].bads.push((
                    words[2].parse().unwrap(),
                    words[3].parse().unwrap(),
                    kind,
                ));
            }
            "fs" => {
                for w in &words[1..] {
                    let (k, v) = w.split_once('=').unwrap();
                    if k == "bios" {
                        t.fs_bios = v.parse().unwrap()
                    } else {
                        t.fs_vecs = v.parse().unwrap()
                    }
                }
            }
            "script" => {
                let entries: Vec<bool> = if words[2] == "." {
                    Vec::new()
                } else {
                    words[2].bytes().map(|b| b == b'+').collect()
                };
                t.entries += entries.len() as u64;
                t.scripts.push((words[1].into(), entries, words[3] == "+"));
            }
            "memory" => t.none = true,
            "sync" => round += 1,
            "resize" => t
                .resizes
                .push((round, words[1].into(), words[2].parse().unwrap())),
            "write" => {
                let number = t.writes.len() as u32;
                let dev = find(&t, words[2]) as u32;
                t.writes.push((
                    words[1].parse().unwrap(),
                    Todo {
                        number,
                        round,
                        dev,
                        start: words[3].parse().unwrap(),
                        count: words[4].parse().unwrap(),
                        tag: words[5].parse().unwrap(),
                    },
                ));
            }
            kind => {
                let (mut members, mut chunk, mut max, mut reserve, mut records, mut rescuer) =
                    (Vec::new(), 0u64, 0u64, 2u32, 2u32, kind == "mirror");
                for w in &words[2..] {
                    match w.split_once('=') {
                        None => members.push(find(&t, w)),
                        Some(("chunk", v)) => chunk = v.parse().unwrap(),
                        Some(("max", v)) => max = v.parse().unwrap(),
                        Some(("reserve", v)) => reserve = v.parse().unwrap(),
                        Some(("records", v)) => records = v.parse().unwrap(),
                        Some((_, v)) => rescuer = v == "yes",
                    }
                }
                let sizes: Vec<u64> = members.iter().map(|&m| t.devices[m].size).collect();
                let smallest = sizes.iter().copied().min().unwrap_or(0);
                let (kind, size) = match kind {
                    "linear" => (Kind::Linear, sizes.iter().sum()),
                    "stripe" => (
                        Kind::Stripe(chunk),
                        sizes.len() as u64 * chunk * (smallest / chunk),
                    ),
                    "zoned" => (
                        Kind::Zoned(chunk),
                        sizes.iter().map(|s| s / chunk * chunk).sum(),
                    ),
                    "limit" => (Kind::Limit(max, chunk), smallest),
                    _ => (Kind::Mirror, smallest),
                };
                let mirror = matches!(kind, Kind::Mirror);
                t.devices.push(Device {
                    name: words[1].into(),
                    kind,
                    members,
                    size,
                    rescuer,
                    bads: Vec::new(),
                    bios: reserve,
                    records: if mirror { records } else { 0 },
                });
            }
        }
    }
    let last = t.writes.last().map_or(0, |w| w.1.round);
    t.resizes.retain(|r| r.0 <= last);
    t
}

/// Whether each write ends within its device, and no two of one round share a sector.
fn stands(t: &Text) -> bool {
    let mut order: Vec<&Todo> = t.writes.iter().map(|write| &write.1).collect();
    order.sort_unstable_by_key(|write| (write.round, write.dev, write.start));
    let within = |write: &&Todo| write.start + write.count <= t.devices[write.dev as usize].size;
    let apart = |one: &Todo, other: &Todo| {
        (one.round, one.dev) != (other.round, other.dev) || one.start + one.count <= other.start
    };
    order.iter().all(within) && order.windows(2).all(|two| apart(two[0], two[1]))
}

fn generate(number: u64) -> String {
    let mut pcg = Pcg::new(number);
    let mut pick = |n: u32| u64::from(pcg.word() % n);
    let mut text = String::new();
    for k in 0..4 {
        text += &format!("disk d{k} 32768\n");
    }
    for k in 0..4 {
        text += &format!("limit l{k} max={} d{k}\n", 16 + pick(241));
    }
    let chunks = [8 * (1 + pick(32)), 8 * (1 + pick(32))];
    text += &format!(
        "stripe s0 chunk={} l0 l1\nstripe s1 chunk={} l2 l3\nmirror m s0 s1\n",
        chunks[0], chunks[1]
    );
    if number % 2 == 1 {
        text += "memory none\n";
    }
    let size = chunks.iter().map(|c| 2 * c * (32768 / c)).min().unwrap();
    let (mut p, mut k) = (0, 0u64);
    loop {
        let c = 1 + pick(512);
        if p + c > size {
            return text;
        }
        text += &format!("write {} m {p} {c} {}\n", k % 4, 64 * p);
        p += c;
        k += 1;
    }
}

/// The elements and the fragments of all writes, and how many places the book of each writer has.
pub fn needs_of(t: &Text) -> (u64, u64, [u64; 8]) {
    let (mut e, mut g) = (0, 0);
    let mut places = [0u64; 8];
    for (task, w) in &t.writes {
        let (a, b) = needs(&t.devices, w.dev, w.start, w.count);
        places[*task as usize] += 1 + a;
        e += 1 + a + u64::from(w.count > 32);
        g += b;
    }
    (e, g, places)
}

/// The objects and the tasks of a text, as its run begins.
fn open(t: &Text, places: &[u64; 8], trace: bool) -> (Objects, Vec<Task>) {
    let script = |pool: &str| {
        t.scripts
            .iter()
            .find(|s| s.0 == pool)
            .map_or((Vec::new(), !t.none), |s| (s.1.clone(), s.2))
    };
    let last = t.writes.last().map_or(0, |w| w.1.round);
    let numbered = |name: &str| match name {
        "fs.bios" => 65,
        "fs.vecs" => 64,
        n => {
            let (d, k) = n.rsplit_once('.').unwrap();
            let d = t.devices.iter().position(|x| x.name == d).unwrap();
            if k == "bios" {
                2 * d
            } else {
                2 * d + 1
            }
        }
    };
    let mut tasks: Vec<Task> = Vec::new();
    for number in 0..8 {
        let todo: VecDeque<Todo> = t
            .writes
            .iter()
            .filter(|w| w.0 == number)
            .map(|w| w.1)
            .collect();
        if !todo.is_empty() {
            tasks.push(Task::Writer {
                number,
                todo,
                bio: None,
                vector: None,
                line: Line::new(),
            });
        }
    }
    for (d, device) in t.devices.iter().enumerate() {
        if device.rescuer {
            tasks.push(Task::Rescuer {
                dev: d as u32,
                line: Line::new(),
            });
        }
    }
    for (d, device) in t.devices.iter().enumerate() {
        if matches!(device.kind, Kind::Disk) {
            tasks.push(Task::Completer {
                disk: d as u32,
                carried: Carried::Empty,
            });
        }
    }
    let left: Vec<u32> = (0..=last)
        .map(|r| t.writes.iter().filter(|w| w.1.round == r).count() as u32)
        .collect();
    if last > 0 {
        let mut duties = VecDeque::new();
        for r in 1..=last {
            let later: u32 = left[r as usize..].iter().sum();
            for c in t.resizes.iter().filter(|c| c.0 == r) {
                duties.push_back(Duty::Resizes(numbered(&c.1), c.2, later));
            }
            duties.push_back(Duty::Starts(r, later));
        }
        tasks.push(Task::Keeper { duties });
    }
    let bios = t
        .devices
        .iter()
        .map(|d| {
            if matches!(d.kind, Kind::Disk) {
                None
            } else {
                let (a, b) = script(&format!("{}.bios", d.name));
                Some(Pool::new(d.bios, a, b, Bio::clear))
            }
        })
        .collect();
    let records = t
        .devices
        .iter()
        .map(|d| {
            if !matches!(d.kind, Kind::Mirror) {
                None
            } else {
                let (a, b) = script(&format!("{}.records", d.name));
                Some(Pool::new(
                    d.records,
                    a,
                    b,
                    (|| Slip { dev: 0, legs: 0 }) as fn() -> Slip,
                ))
            }
        })
        .collect();
    let disks = t
        .devices
        .iter()
        .map(|d| {
            if !matches!(d.kind, Kind::Disk) {
                None
            } else {
                Some(Disk {
                    image: vec![0; 64 * d.size as usize],
                    written: vec![false; d.size as usize],
                    pending: VecDeque::new(),
                })
            }
        })
        .collect();
    let (fa, fb) = script("fs.bios");
    let (va, vb) = script("fs.vecs");
    let count = t.devices.len();
    let all = t.writes.len() as u32;
    let o = Objects {
        fs: Pool::new(t.fs_bios, fa, fb, Bio::clear),
        vecs: Pool::new(
            t.fs_vecs,
            va,
            vb,
            Vector::new,
        ),
        bios,
        records,
        lists: (0..count).map(|_| VecDeque::new()).collect(),
        disks,
        books: places.iter().map(|&p| Book::new(p as usize)).collect(),
        round: 0,
        left,
        all,
        statuses: vec![Status::Ok; t.writes.len()],
        trace: if trace {
            Some(BufWriter::with_capacity(8192, io::stdout().lock()))
        } else {
            None
        },
        devices: t.devices.clone(),
    };
    (o, tasks)
}

/// Runs the tasks to the end, by the words of a number. Answers how many events there were.
fn run(o: &mut Objects, tasks: &mut [Task], seed: u64) -> u64 {
    let mut pcg = Pcg::new(seed);
    let mut steps = 0u64;
    let n = tasks.len();
    while o.all > 0 {
        let mut place = pcg.word() as usize % n;
        while !o.step(&mut tasks[place], &mut pcg) {
            place += 1;
            if place == n {
                place = 0;
            }
        }
        steps += 1;
    }
    steps
}

/// The nanoseconds of as many runs of a text as have so many events at least, from the first event to the last, and how many events they had.
/// Memory of images is touched first as it is written, as the program's is.
pub fn time_runs(text: &str, count: u64) -> (u128, u64) {
    let t = read(text);
    let (_, _, places) = needs_of(&t);
    let (mut spent, mut steps) = (0, 0);
    while steps < count {
        let (mut o, mut tasks) = open(&t, &places, false);
        let start = Instant::now();
        let more = run(&mut o, &mut tasks, 0);
        drop((o.fs, o.vecs, o.bios, o.records, o.books, tasks));
        spent += start.elapsed().as_nanos();
        steps += more;
    }
    (spent, steps)
}

fn main() {
    let words: Vec<String> = env::args().skip(1).collect();
    let mut seed = 0;
    let (mut trace, mut made, mut workers) = (false, None, 0);
    let mut i = 1;
    if words[0] == "gen" {
        let n = words[1].parse().unwrap();
        made = Some(n);
        seed = n;
        i = 2;
    }
    while i < words.len() {
        if words[i] == "--trace" {
            trace = true;
        } else if words[i] == "--seed" {
            i += 1;
            seed = words[i].parse().unwrap();
        } else if words[i] == "--workers" {
            i += 1;
            workers = words[i].parse().unwrap();
        } else if let Some(v) = words[i].strip_prefix("--seed=") {
            seed = v.parse().unwrap();
        }
        i += 1;
    }
    let text = match made {
        Some(n) => generate(n),
        None => {
            let mut t = String::new();
            io::stdin().read_to_string(&mut t).unwrap();
            t
        }
    };
    let t = read(&text);
    if !stands(&t) {
        std::process::exit(3);
    }
    let (e, g, places) = needs_of(&t);
    let last = t.writes.last().map_or(0, |w| w.1.round);
    let z = t.entries + u64::from(last) + t.resizes.len() as u64;
    match words[0].as_str() {
        "check" => return check(&t, (e, g, z)),
        "layout" => return layout(&t),
        _ => {}
    }
    let count = t.devices.len();
    let (mut o, mut tasks) = open(&t, &places, trace);
    let steps = if workers == 0 {
        run(&mut o, &mut tasks, seed)
    } else {
        let shared = shared::Shared::new(o);
        let steps = shared::run_workers(&shared, tasks, workers);
        o = shared.into_objects();
        steps
    };
    let stdout = io::stdout();
    let mut out = o
        .trace
        .take()
        .unwrap_or_else(|| BufWriter::with_capacity(8192, stdout.lock()));
    if let Some(number) = made {
        writeln!(
            out,
            "gen {number} writes {} sectors {}",
            t.writes.len(),
            t.writes.iter().map(|w| w.1.count).sum::<u64>()
        )
        .unwrap();
    } else {
        for (k, s) in o.statuses.iter().enumerate() {
            writeln!(out, "write {k} {}", s.word()).unwrap();
        }
    }
    for (d, disk) in o.disks.iter().enumerate() {
        let Some(disk) = disk else { continue };
        let mut sum = 0u64;
        for (s, w) in disk.written.iter().enumerate() {
            if *w {
                for x in &disk.image[64 * s..64 * s + 64] {
                    sum = sum.wrapping_add(*x);
                }
            }
        }
        writeln!(out, "disk {} sum {sum:016x}", o.devices[d].name).unwrap();
        if made.is_some() {
            continue;
        }
        let mut at = 0;
        while at < disk.written.len() {
            if !disk.written[at] {
                at += 1;
                continue;
            }
            let from = at;
            while at < disk.written.len() && disk.written[at] {
                at += 1;
            }
            writeln!(out, "run {} {from} {}", o.devices[d].name, at - from).unwrap();
        }
    }
    if made.is_none() {
        writeln!(
            out,
            "pool fs.bios reserve {} ordinary {} spare {}",
            o.fs.min, o.fs.ordinary, o.fs.spare
        )
        .unwrap();
        writeln!(
            out,
            "pool fs.vecs reserve {} ordinary {} spare {}",
            o.vecs.min, o.vecs.ordinary, o.vecs.spare
        )
        .unwrap();
        for d in 0..count {
            if let Some(p) = &o.records[d] {
                writeln!(
                    out,
                    "pool {}.records reserve {} ordinary {} spare {}",
                    o.devices[d].name, p.min, p.ordinary, p.spare
                )
                .unwrap();
            }
            if let Some(p) = &o.bios[d] {
                writeln!(
                    out,
                    "pool {}.bios reserve {} ordinary {} spare {}",
                    o.devices[d].name, p.min, p.ordinary, p.spare
                )
                .unwrap();
            }
        }
    }
    writeln!(out, "steps {steps} of {}", 8 * e + 2 * g + z).unwrap();
    out.flush().unwrap();
    std::process::exit(
        if made.is_none() && o.statuses.iter().any(|s| *s != Status::Ok) {
            1
        } else {
            0
        },
    );
}
