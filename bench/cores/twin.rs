//! The twin of main.rt.txt: the plain state of a run in plain Rust, with the same parts, to which events are applied: the task that an event
//! names is found by an index, what the event says is compared with what the task asks for next, and the state changes in its place. With the
//! word `replay` it follows the lines of events behind a scenario, as the program does, and writes no `end` line.
#[path = "../runs/twin.rs"]
#[allow(dead_code)]
mod machine;

use machine::{Device, FS, Kind, Status, Text, Todo, cuts, needs_of, piece, read};
use std::collections::{BTreeMap, VecDeque};
use std::io::{self, Read};
use std::mem;
use std::time::Instant;

#[derive(Clone, Copy, PartialEq, Eq)]
enum TaskId {
    Writer(u32),
    Rescuer(u32),
    Completer(u32),
    Keeper,
}

#[derive(Clone, Copy, PartialEq, Eq)]
enum Got {
    Ordinary,
    Spare,
    Missed,
}

#[derive(Clone, Copy, PartialEq, Eq)]
enum How {
    Write,
    Chain,
    Master,
    Leg,
}

#[derive(Clone, Copy, PartialEq, Eq)]
enum End {
    Left,
    Up,
    Top,
}

/// What a task did. A pool is told by its number.
#[derive(Clone, Copy, PartialEq, Eq)]
enum What {
    Take { pool: u32, got: Got },
    Try { pool: u32, got: Got },
    Give { pool: u32 },
    Punt { dev: u32, moved: u64 },
    Pop { dev: u32 },
    Push { disk: u32, at: u64, len: u64, leg: u32 },
    Complete { disk: u32, index: u64, status: Status },
    Link { writer: u32, how: How, node: u32 },
    Drop { writer: u32, node: u32, status: Status, end: End },
    Done { write: u32, status: Status },
    Resize { pool: u32, min: u32 },
    Round { round: u32 },
}

struct Event {
    task: TaskId,
    what: What,
}

#[derive(Clone, Copy)]
#[allow(dead_code)]
struct Bio {
    write: u32,
    writer: u32,
    node: u32,
    dev: u32,
    start: u64,
    len: u64,
    word: u64,
    set: u32,
}

/// A bio that is out of a pool, with the data of the segments that it has itself.
#[derive(Clone, Copy)]
struct Part {
    bio: Bio,
    leg: u32,
    data: (u64, u64),
    pool: u32,
}

#[derive(Clone, Copy)]
#[allow(dead_code)]
struct Vector {
    data: (u64, u64),
    pool: u32,
}

#[derive(Clone, Copy)]
#[allow(dead_code)]
struct Slip {
    legs: u32,
    pool: u32,
}

/// The bio of a pool, as it is handed out.
fn clear(pool: u32) -> Part {
    let bio = Bio { write: 0, writer: 0, node: 0, dev: 0, start: 0, len: 0, word: 0, set: FS };
    Part { bio, leg: 0, data: (0, 0), pool }
}

struct Pool {
    entries: Vec<bool>,
    tail: bool,
    min: u64,
    spares: u64,
    out: u64,
    live: u64,
    pos: usize,
    ordinary: u64,
    spare: u64,
}

impl Pool {
    fn new(min: u32, script: (Vec<bool>, bool)) -> Pool {
        let min = u64::from(min);
        let (entries, tail) = script;
        Pool { entries, tail, min, spares: min, out: 0, live: 0, pos: 0, ordinary: 0, spare: 0 }
    }

    fn take(&mut self, got: Got, waits: bool) -> bool {
        let uses = self.pos < self.entries.len();
        match got {
            Got::Ordinary => {
                if !self.entries.get(self.pos).copied().unwrap_or(self.tail) {
                    return false;
                }
                self.out += 1;
                self.live += 1;
                self.ordinary += 1;
            }
            Got::Spare => {
                if self.spares == 0 {
                    return false;
                }
                self.spares -= 1;
                self.out += 1;
                self.spare += 1;
            }
            Got::Missed => {
                if self.spares > 0 || waits && !uses {
                    return false;
                }
            }
        }
        if uses {
            self.pos += 1;
        }
        true
    }

    fn give(&mut self) -> bool {
        if self.out == 0 {
            return false;
        }
        self.out -= 1;
        if self.spares < self.min {
            self.spares += 1;
        } else {
            self.live -= 1;
        }
        true
    }

    fn resize(&mut self, min: u32) -> bool {
        if self.out != 0 {
            return false;
        }
        self.min = u64::from(min);
        self.spares = self.min;
        true
    }
}

#[derive(Default)]
struct Held {
    bio: Option<Part>,
    vector: Option<Vector>,
    slip: Option<Slip>,
}

struct Node {
    master: bool,
    parent: Option<u32>,
    write: u32,
    count: u64,
    status: Status,
    held: Held,
}

struct Closed {
    held: Held,
    parent: Option<u32>,
    write: u32,
    status: Status,
}

struct Book {
    nodes: Vec<Option<Node>>,
}

impl Book {
    fn is_vacant(&self, place: u32) -> bool {
        matches!(self.nodes.get(place as usize), Some(None))
    }

    fn node(&mut self, place: u32) -> Option<&mut Node> {
        self.nodes.get_mut(place as usize)?.as_mut()
    }

    fn put(&mut self, place: u32, parent: Option<u32>, write: u32, vector: Option<Vector>) {
        let held = Held { vector, ..Held::default() };
        self.nodes[place as usize] = Some(Node { master: false, parent, write, count: 1, status: Status::Ok, held });
    }

    fn write(&mut self, write: u32, vector: Option<Vector>, place: u32) -> bool {
        if !self.is_vacant(place) {
            return false;
        }
        self.put(place, None, write, vector);
        true
    }

    fn chain(&mut self, parent: u32, place: u32) -> bool {
        if !self.is_vacant(place) {
            return false;
        }
        let Some(above) = self.node(parent) else {
            return false;
        };
        above.count += 1;
        let write = above.write;
        self.put(place, Some(parent), write, None);
        true
    }

    fn master(&mut self, parent: u32, part: &Part, slip: Slip, legs: u32, place: u32) -> bool {
        if !self.is_vacant(place) {
            return false;
        }
        let Some(above) = self.node(parent) else {
            return false;
        };
        above.held.bio = Some(*part);
        let write = above.write;
        let held = Held { slip: Some(Slip { legs, ..slip }), ..Held::default() };
        self.nodes[place as usize] =
            Some(Node { master: true, parent: Some(parent), write, count: u64::from(legs), status: Status::Io, held });
        true
    }

    fn leg(&mut self, master: u32, place: u32) -> bool {
        if !self.is_vacant(place) {
            return false;
        }
        let Some(above) = self.node(master) else {
            return false;
        };
        let write = above.write;
        self.put(place, Some(master), write, None);
        true
    }

    /// Tells a node of an end: what is left of it, where it closed, or nothing where the event does not fit.
    fn tell(&mut self, place: u32, status: Status, part: Option<Part>, end: End) -> Option<Option<Closed>> {
        let node = self.node(place)?;
        let fits = match end {
            End::Left => node.count > 1,
            End::Up => node.count == 1 && node.parent.is_some(),
            End::Top => node.count == 1 && node.parent.is_none(),
        };
        if !fits {
            return None;
        }
        if part.is_some() {
            node.held.bio = part;
        }
        if node.master {
            if status == Status::Ok {
                node.status = status;
            }
        } else if node.status == Status::Ok {
            node.status = status;
        }
        if end == End::Left {
            node.count -= 1;
            return Some(None);
        }
        let node = self.nodes[place as usize].take()?;
        let Node { parent, write, status, held, .. } = node;
        Some(Some(Closed { held, parent, write, status }))
    }
}

/// A disk, with the first word of each sector that was written in place of its data.
struct Disk {
    bads: Vec<(u64, u64, Status)>,
    firsts: Vec<Option<u64>>,
    pending: VecDeque<Part>,
}

impl Disk {
    fn complete(&mut self, index: u64, status: Status) -> Option<Part> {
        let bio = self.pending.get(index as usize)?.bio;
        let touches = |bad: &&(u64, u64, Status)| bad.0 < bio.start + bio.len && bio.start < bad.0 + bad.1;
        let found = self.bads.iter().filter(touches).min_by_key(|bad| bad.0).map_or(Status::Ok, |bad| bad.2);
        if found != status {
            return None;
        }
        if status == Status::Ok {
            let run = &mut self.firsts[bio.start as usize..(bio.start + bio.len) as usize];
            for (place, first) in run.iter_mut().enumerate() {
                *first = Some(bio.word.wrapping_add(64 * place as u64));
            }
        }
        self.pending.remove(index as usize)
    }
}

enum Want {
    Takes(bool),
    Punts,
    /// It has one of this pool.
    Links(u32),
}

enum Doing {
    Rests,
    Push(Part),
    Cut(Part, Want),
    Record(Part),
    Master(Part, Slip),
    Copies(Bio, u32, u32, Want),
}

struct Line {
    doing: Doing,
    list0: VecDeque<Part>,
    list1: VecDeque<Part>,
}

impl Line {
    fn new() -> Line {
        Line { doing: Doing::Rests, list0: VecDeque::new(), list1: VecDeque::new() }
    }
}

enum Taken {
    NoBio,
    HasBio(u32),
    HasBoth(u32, Vector),
}

struct Writer {
    number: u32,
    todo: Vec<Todo>,
    begun: usize,
    taken: Taken,
    line: Line,
}

enum Carried {
    Empty,
    Brings(Part, Status),
    Carries(u32, Closed),
}

struct Duty {
    pool: Option<u32>,
    number: u32,
    later: u64,
}

enum Task {
    Writer(Writer),
    Rescuer(u32, Line),
    Completer(u32, Carried),
    Keeper(Vec<Duty>, usize),
}

struct Objects {
    devices: Vec<Device>,
    pools: Vec<Pool>,
    rescues: Vec<VecDeque<Part>>,
    disks: Vec<Option<Disk>>,
    books: Vec<Book>,
    round: u32,
    left: Vec<u64>,
    statuses: Vec<Status>,
}

struct Core {
    objects: Objects,
    tasks: Vec<Task>,
    /// Where each task stands, by its name.
    places: Vec<u32>,
}

fn slot(task: TaskId) -> usize {
    match task {
        TaskId::Writer(number) => number as usize,
        TaskId::Rescuer(dev) => 8 + dev as usize,
        TaskId::Completer(disk) => 40 + disk as usize,
        TaskId::Keeper => 72,
    }
}

fn id(task: &Task) -> TaskId {
    match task {
        Task::Writer(writer) => TaskId::Writer(writer.number),
        Task::Rescuer(dev, _) => TaskId::Rescuer(*dev),
        Task::Completer(disk, _) => TaskId::Completer(*disk),
        Task::Keeper(..) => TaskId::Keeper,
    }
}

fn land(devices: &[Device], bio: &mut Bio) {
    while cuts(devices, bio.dev) {
        let (len, member, start) = piece(devices, bio.dev, bio.start, bio.len);
        if len < bio.len {
            return;
        }
        bio.dev = member as u32;
        bio.start = start;
    }
}

impl Objects {
    fn waits_first(&self, dev: u32, line: &Line) -> bool {
        !self.devices[dev as usize].rescuer || line.list0.is_empty() && line.list1.is_empty()
    }

    fn drive(&self, mut part: Part, line: &Line) -> Doing {
        land(&self.devices, &mut part.bio);
        match self.devices[part.bio.dev as usize].kind {
            Kind::Disk => Doing::Push(part),
            Kind::Mirror => Doing::Record(part),
            _ => Doing::Cut(part, Want::Takes(self.waits_first(part.bio.dev, line))),
        }
    }

    fn start(&self, part: Part, line: &mut Line) {
        line.list0.clear();
        line.list1.clear();
        line.doing = self.drive(part, line);
    }

    fn go_on(&self, dev: u32, line: &mut Line) {
        for lower in [false, true] {
            for part in line.list0.iter().rev() {
                if (part.bio.dev != dev) == lower {
                    line.list1.push_front(*part);
                }
            }
        }
        line.list0.clear();
        line.doing = match line.list1.pop_front() {
            None => Doing::Rests,
            Some(part) => self.drive(part, line),
        };
    }

    fn take(&mut self, pool: u32, waits: bool, what: &What) -> Option<Got> {
        let got = match *what {
            What::Take { pool: named, got } if waits && named == pool => got,
            What::Try { pool: named, got } if !waits && named == pool => got,
            _ => return None,
        };
        self.pools[pool as usize].take(got, waits).then_some(got)
    }

    fn give(&mut self, pool: u32, what: &What) -> bool {
        *what == What::Give { pool } && self.pools[pool as usize].give()
    }

    fn punt(&mut self, dev: u32, line: &mut Line, what: &What) -> bool {
        let count = |list: &VecDeque<Part>| list.iter().filter(|part| part.bio.set == dev).count() as u64;
        let moved = count(&line.list0) + count(&line.list1);
        if *what != (What::Punt { dev, moved }) {
            return false;
        }
        for list in [&mut line.list0, &mut line.list1] {
            for _ in 0..list.len() {
                if let Some(part) = list.pop_front() {
                    let into = if part.bio.set == dev { &mut self.rescues[dev as usize] } else { &mut *list };
                    into.push_back(part);
                }
            }
        }
        true
    }

    fn copies(&self, bio: Bio, master: u32, leg: u32, line: &mut Line) {
        if leg as usize == self.devices[bio.dev as usize].members.len() {
            return self.go_on(bio.dev, line);
        }
        line.doing = Doing::Copies(bio, master, leg, Want::Takes(self.waits_first(bio.dev, line)));
    }

    /// What an attempt at a bio for a driver leaves it to do.
    fn want(&mut self, dev: u32, waits: bool, what: &What) -> Option<Want> {
        Some(match self.take(2 * dev, waits, what)? {
            Got::Missed => if waits { Want::Takes(true) } else { Want::Punts },
            _ => Want::Links(2 * dev),
        })
    }

    fn cut(&mut self, mut part: Part, pool: u32, line: &mut Line, node: u32) {
        let mut hand = clear(pool);
        let dev = part.bio.dev;
        let (len, member, start) = piece(&self.devices, dev, part.bio.start, part.bio.len);
        hand.bio = Bio { node, dev: member as u32, start, len, set: dev, ..part.bio };
        hand.leg = 0;
        part.bio.start += len;
        part.bio.len -= len;
        part.bio.word = part.bio.word.wrapping_add(64 * len);
        line.list0.push_back(hand);
        line.list0.push_back(part);
        self.go_on(dev, line);
    }

    fn line_step(&mut self, line: &mut Line, what: &What) -> bool {
        // what it does is put back where the event is no step of it
        let doing = mem::replace(&mut line.doing, Doing::Rests);
        match self.line_done(doing, line, what) {
            Ok(()) => true,
            Err(doing) => {
                line.doing = doing;
                false
            }
        }
    }

    fn line_done(&mut self, doing: Doing, line: &mut Line, what: &What) -> Result<(), Doing> {
        match doing {
            Doing::Rests => return Err(doing),
            Doing::Push(part) => {
                let Bio { dev: disk, start: at, len, .. } = part.bio;
                if *what != (What::Push { disk, at, len, leg: part.leg }) {
                    return Err(doing);
                }
                if let Some(disk) = &mut self.disks[disk as usize] {
                    disk.pending.push_back(part);
                }
                self.go_on(disk, line);
            }
            Doing::Cut(part, Want::Takes(waits)) => match self.want(part.bio.dev, waits, what) {
                None => return Err(doing),
                Some(want) => line.doing = Doing::Cut(part, want),
            },
            Doing::Cut(part, Want::Punts) => {
                if !self.punt(part.bio.dev, line, what) {
                    return Err(doing);
                }
                line.doing = Doing::Cut(part, Want::Takes(true));
            }
            Doing::Cut(part, Want::Links(pool)) => match *what {
                What::Link { writer, how: How::Chain, node }
                    if writer == part.bio.writer && self.books[writer as usize].chain(part.bio.node, node) =>
                {
                    self.cut(part, pool, line, node)
                }
                _ => return Err(doing),
            },
            Doing::Record(part) => {
                let pool = 2 * part.bio.dev + 1;
                match self.take(pool, true, what) {
                    None => return Err(doing),
                    Some(Got::Missed) => line.doing = doing,
                    Some(_) => line.doing = Doing::Master(part, Slip { legs: 0, pool }),
                }
            }
            Doing::Master(part, slip) => {
                let legs = self.devices[part.bio.dev as usize].members.len() as u32;
                match *what {
                    What::Link { writer, how: How::Master, node }
                        if writer == part.bio.writer
                            && self.books[writer as usize].master(part.bio.node, &part, slip, legs, node) =>
                    {
                        self.copies(part.bio, node, 0, line)
                    }
                    _ => return Err(doing),
                }
            }
            Doing::Copies(bio, master, leg, Want::Takes(waits)) => match self.want(bio.dev, waits, what) {
                None => return Err(doing),
                Some(want) => line.doing = Doing::Copies(bio, master, leg, want),
            },
            Doing::Copies(bio, master, leg, Want::Punts) => {
                if !self.punt(bio.dev, line, what) {
                    return Err(doing);
                }
                line.doing = Doing::Copies(bio, master, leg, Want::Takes(true));
            }
            Doing::Copies(bio, master, leg, Want::Links(pool)) => match *what {
                What::Link { writer, how: How::Leg, node }
                    if writer == bio.writer && self.books[writer as usize].leg(master, node) =>
                {
                    let member = self.devices[bio.dev as usize].members[leg as usize];
                    let mut hand = clear(pool);
                    hand.bio = Bio { dev: member as u32, set: bio.dev, node, ..bio };
                    hand.leg = leg;
                    line.list0.push_back(hand);
                    self.copies(bio, master, leg + 1, line)
                }
                _ => return Err(doing),
            },
        }
        Ok(())
    }

    /// The next write of a writer at rest begins, if the event says so.
    fn begin(&mut self, writer: &mut Writer, todo: Todo, pool: u32, vector: Option<Vector>, what: &What) -> bool {
        let data = (todo.tag, todo.count);
        let full = vector.map(|vector| Vector { data, ..vector });
        match *what {
            What::Link { writer: named, how: How::Write, node }
                if named == writer.number && self.books[named as usize].write(todo.number, full, node) =>
            {
                let Todo { number: write, dev, start, count: len, tag: word, .. } = todo;
                let mut part = clear(pool);
                part.bio = Bio { write, writer: named, node, dev, start, len, word, set: FS };
                part.leg = 0;
                if vector.is_none() {
                    part.data = data;
                }
                writer.taken = Taken::NoBio;
                writer.begun += 1;
                self.start(part, &mut writer.line);
                true
            }
            _ => false,
        }
    }

    fn writer_step(&mut self, writer: &mut Writer, what: &What) -> bool {
        if !matches!(writer.line.doing, Doing::Rests) {
            return self.line_step(&mut writer.line, what);
        }
        let Some(&todo) = writer.todo.get(writer.begun) else {
            return false;
        };
        match writer.taken {
            Taken::NoBio => {
                if todo.round > self.round {
                    return false;
                }
                match self.take(65, true, what) {
                    None => return false,
                    Some(Got::Missed) => {}
                    Some(_) => writer.taken = Taken::HasBio(65),
                }
                true
            }
            Taken::HasBio(pool) if todo.count > 32 => {
                match self.take(64, true, what) {
                    None => return false,
                    Some(Got::Missed) => {}
                    Some(_) => writer.taken = Taken::HasBoth(pool, Vector { data: (0, 0), pool: 64 }),
                }
                true
            }
            Taken::HasBio(pool) => self.begin(writer, todo, pool, None, what),
            Taken::HasBoth(pool, vector) => self.begin(writer, todo, pool, Some(vector), what),
        }
    }

    /// A node is told of an end, as the event says: what the completer carries then.
    fn told(&mut self, writer: u32, node: u32, status: Status, part: Option<Part>, what: &What) -> Option<Carried> {
        match *what {
            What::Drop { writer: named, node: place, status: ending, end }
                if named == writer && place == node && ending == status =>
            {
                match self.books[writer as usize].tell(node, status, part, end)? {
                    None => Some(Carried::Empty),
                    Some(closed) => Some(Carried::Carries(writer, closed)),
                }
            }
            _ => None,
        }
    }

    fn completer_step(&mut self, disk: u32, carried: &mut Carried, what: &What) -> bool {
        match carried {
            Carried::Empty => match *what {
                What::Complete { disk: named, index, status } if named == disk => {
                    let Some(part) = self.disks[disk as usize].as_mut().and_then(|disk| disk.complete(index, status)) else {
                        return false;
                    };
                    *carried = Carried::Brings(part, status);
                    true
                }
                _ => false,
            },
            Carried::Brings(part, status) => {
                let bio = part.bio;
                let Some(next) = self.told(bio.writer, bio.node, *status, Some(*part), what) else {
                    return false;
                };
                *carried = next;
                true
            }
            Carried::Carries(writer, closed) => {
                if let Some(vector) = closed.held.vector {
                    if !self.give(vector.pool, what) {
                        return false;
                    }
                    closed.held.vector = None;
                } else if let Some(part) = closed.held.bio {
                    if !self.give(part.pool, what) {
                        return false;
                    }
                    closed.held.bio = None;
                } else if let Some(slip) = closed.held.slip {
                    if !self.give(slip.pool, what) {
                        return false;
                    }
                    closed.held.slip = None;
                } else if let Some(parent) = closed.parent {
                    let Some(next) = self.told(*writer, parent, closed.status, None, what) else {
                        return false;
                    };
                    *carried = next;
                } else {
                    let Closed { write, status, .. } = *closed;
                    if *what != (What::Done { write, status }) {
                        return false;
                    }
                    self.left[self.round as usize] -= 1;
                    self.statuses[write as usize] = status;
                    *carried = Carried::Empty;
                }
                true
            }
        }
    }

    fn keeper_step(&mut self, duties: &[Duty], done: &mut usize, what: &What) -> bool {
        let Some(duty) = duties.get(*done) else {
            return false;
        };
        if self.left.iter().sum::<u64>() != duty.later {
            return false;
        }
        let well = match duty.pool {
            Some(pool) => *what == What::Resize { pool, min: duty.number } && self.pools[pool as usize].resize(duty.number),
            None => *what == What::Round { round: duty.number } && (self.round as usize) + 1 < self.left.len(),
        };
        if well {
            *done += 1;
            self.round += u32::from(duty.pool.is_none());
        }
        well
    }

    fn task_step(&mut self, task: &mut Task, what: &What) -> bool {
        match task {
            Task::Writer(writer) => self.writer_step(writer, what),
            Task::Rescuer(dev, line) => {
                if !matches!(line.doing, Doing::Rests) {
                    return self.line_step(line, what);
                }
                if *what != (What::Pop { dev: *dev }) {
                    return false;
                }
                let Some(part) = self.rescues[*dev as usize].pop_front() else {
                    return false;
                };
                self.start(part, line);
                true
            }
            Task::Completer(disk, carried) => self.completer_step(*disk, carried, what),
            Task::Keeper(duties, done) => self.keeper_step(duties, done, what),
        }
    }
}

impl Core {
    fn apply(&mut self, event: &Event) -> bool {
        let Some(&place) = self.places.get(slot(event.task)) else {
            return false;
        };
        match self.tasks.get_mut(place as usize) {
            Some(task) if id(task) == event.task => self.objects.task_step(task, &event.what),
            _ => false,
        }
    }
}

fn pool_of(text: &Text, word: &str) -> u32 {
    match word {
        "fs.bios" => 65,
        "fs.vecs" => 64,
        _ => {
            let (name, kind) = word.rsplit_once('.').unwrap();
            2 * dev_of(text, name) + u32::from(kind == "records")
        }
    }
}

fn dev_of(text: &Text, word: &str) -> u32 {
    text.devices.iter().position(|device| device.name == word).unwrap() as u32
}

fn status_of(word: &str) -> Status {
    match word {
        "ok" => Status::Ok,
        "medium" => Status::Medium,
        "nospace" => Status::NoSpace,
        _ => Status::Io,
    }
}

fn got_of(word: &str) -> Got {
    match word {
        "ordinary" => Got::Ordinary,
        "spare" => Got::Spare,
        _ => Got::Missed,
    }
}

fn event_of(text: &Text, line: &str) -> Event {
    // no line has more, and a list of them would take memory for each
    let mut words = [""; 9];
    for (place, word) in words.iter_mut().zip(line.split(' ')) {
        *place = word;
    }
    let number = |at: usize| words[at].parse::<u64>().unwrap();
    let short = |at: usize| number(at) as u32;
    let task = match words[1] {
        "k" => TaskId::Keeper,
        word if word.starts_with("r:") => TaskId::Rescuer(dev_of(text, &word[2..])),
        word if word.starts_with("c:") => TaskId::Completer(dev_of(text, &word[2..])),
        word => TaskId::Writer(word[1..].parse().unwrap()),
    };
    let what = match words[2] {
        "take" => What::Take { pool: pool_of(text, words[3]), got: got_of(words[4]) },
        "try" => What::Try { pool: pool_of(text, words[3]), got: got_of(words[4]) },
        "give" => What::Give { pool: pool_of(text, words[3]) },
        "punt" => What::Punt { dev: dev_of(text, words[3]), moved: number(4) },
        "pop" => What::Pop { dev: dev_of(text, words[3]) },
        "push" => What::Push { disk: dev_of(text, words[3]), at: number(4), len: number(5), leg: short(7) },
        "complete" => What::Complete { disk: dev_of(text, words[3]), index: number(4), status: status_of(words[5]) },
        "link" => {
            let how = match words[4] {
                "write" => How::Write,
                "chain" => How::Chain,
                "master" => How::Master,
                _ => How::Leg,
            };
            What::Link { writer: short(3), how, node: short(5) }
        }
        "drop" => {
            let end = match words[6] {
                "left" => End::Left,
                "up" => End::Up,
                _ => End::Top,
            };
            What::Drop { writer: short(3), node: short(4), status: status_of(words[5]), end }
        }
        "done" => What::Done { write: short(3), status: status_of(words[4]) },
        "resize" => What::Resize { pool: pool_of(text, words[3]), min: short(4) },
        _ => What::Round { round: short(3) },
    };
    Event { task, what }
}

fn pools_of(text: &Text) -> Vec<Pool> {
    let script = |pool: &str| {
        let found = text.scripts.iter().find(|script| script.0 == pool);
        found.map_or((Vec::new(), !text.none), |script| (script.1.clone(), script.2))
    };
    let mut pools = Vec::new();
    for number in 0..64 {
        let pool = match text.devices.get(number / 2) {
            Some(device) if number % 2 == 0 => Pool::new(device.bios, script(&format!("{}.bios", device.name))),
            Some(device) => Pool::new(device.records, script(&format!("{}.records", device.name))),
            None => Pool::new(0, (Vec::new(), true)),
        };
        pools.push(pool);
    }
    pools.push(Pool::new(text.fs_vecs, script("fs.vecs")));
    pools.push(Pool::new(text.fs_bios, script("fs.bios")));
    pools
}

fn tasks_of(text: &Text, left: &[u64]) -> Vec<Task> {
    let mut tasks = Vec::new();
    for number in 0..8 {
        let own = text.writes.iter().filter(|write| write.0 == number);
        let todo: Vec<Todo> = own.map(|write| write.1).collect();
        if !todo.is_empty() {
            tasks.push(Task::Writer(Writer { number, todo, begun: 0, taken: Taken::NoBio, line: Line::new() }));
        }
    }
    for (dev, device) in text.devices.iter().enumerate() {
        if device.rescuer {
            tasks.push(Task::Rescuer(dev as u32, Line::new()));
        }
    }
    for (dev, device) in text.devices.iter().enumerate() {
        if matches!(device.kind, Kind::Disk) {
            tasks.push(Task::Completer(dev as u32, Carried::Empty));
        }
    }
    let mut duties = Vec::new();
    for round in 1..left.len() as u32 {
        let later = left[round as usize..].iter().sum();
        for resize in text.resizes.iter().filter(|resize| resize.0 == round) {
            duties.push(Duty { pool: Some(pool_of(text, &resize.1)), number: resize.2, later });
        }
        duties.push(Duty { pool: None, number: round, later });
    }
    if !duties.is_empty() {
        tasks.push(Task::Keeper(duties, 0));
    }
    tasks
}

/// The state in which the runs of a text begin.
fn open(text: &Text) -> Core {
    let (_, _, places) = needs_of(text);
    let last = text.writes.last().map_or(0, |write| write.1.round);
    let left: Vec<u64> =
        (0..=last).map(|round| text.writes.iter().filter(|write| write.1.round == round).count() as u64).collect();
    let tasks = tasks_of(text, &left);
    let mut slots = vec![0; 73];
    for (place, task) in tasks.iter().enumerate() {
        slots[slot(id(task))] = place as u32;
    }
    let disk = |device: &Device| match device.kind {
        Kind::Disk => Some(Disk {
            bads: device.bads.clone(),
            firsts: vec![None; device.size as usize],
            pending: VecDeque::new(),
        }),
        _ => None,
    };
    let objects = Objects {
        devices: text.devices.clone(),
        pools: pools_of(text),
        rescues: text.devices.iter().map(|_| VecDeque::new()).collect(),
        disks: text.devices.iter().map(disk).collect(),
        books: places.iter().map(|&count| Book { nodes: (0..count).map(|_| None).collect() }).collect(),
        round: 0,
        left,
        statuses: vec![Status::Ok; text.writes.len()],
    };
    Core { objects, tasks, places: slots }
}

/// Applies events up to the first that is no step. It answers how many were applied.
fn apply_all(core: &mut Core, events: &[Event]) -> u64 {
    let mut applied = 0;
    for event in events {
        if !core.apply(event) {
            return applied;
        }
        applied += 1;
    }
    applied
}

/// What stands for each name of a node in a trace: the place in its writer's book, by the order in which the writer opens nodes.
struct Names {
    opened: [u32; 8],
    places: BTreeMap<(u32, u32), u32>,
}

impl Names {
    fn placed(&mut self, what: What) -> Option<What> {
        match what {
            What::Link { writer, how, node } => {
                let place = self.opened[writer as usize];
                if self.places.contains_key(&(writer, node)) {
                    return None;
                }
                self.opened[writer as usize] += 1;
                self.places.insert((writer, node), place);
                Some(What::Link { writer, how, node: place })
            }
            What::Drop { writer, node, status, end } => {
                let place = *self.places.get(&(writer, node))?;
                if end != End::Left {
                    self.places.remove(&(writer, node));
                }
                Some(What::Drop { writer, node: place, status, end })
            }
            _ => Some(what),
        }
    }
}

/// Whether the first word of a line is `event`.
fn is_told(line: &str) -> bool {
    line.split([' ', '\t', '\r']).find(|word| !word.is_empty()) == Some("event")
}

/// The pools in the order of a report, with their names.
fn told_pools(text: &Text) -> Vec<(usize, String)> {
    let mut pools = vec![(65, "fs.bios".to_string()), (64, "fs.vecs".to_string())];
    for (dev, device) in text.devices.iter().enumerate() {
        if matches!(device.kind, Kind::Mirror) {
            pools.push((2 * dev + 1, format!("{}.records", device.name)));
        }
        if !matches!(device.kind, Kind::Disk) {
            pools.push((2 * dev, format!("{}.bios", device.name)));
        }
    }
    pools
}

/// Follows the lines of events behind a scenario, and writes how many came, a bad line, and how far each pool went.
fn replay(input: &str) {
    let mut cut = 0;
    let before = input.split_inclusive('\n').take_while(|line| !is_told(line.trim_end_matches('\n')));
    let first = before.inspect(|line| cut += line.len()).count() + 1;
    let text = read(&input[..cut]);
    let mut core = open(&text);
    let mut names = Names { opened: [0; 8], places: BTreeMap::new() };
    let pools = told_pools(&text);
    let has = |core: &Core, pool: usize| (core.objects.pools[pool].spares, core.objects.pools[pool].out);
    let mut extents: Vec<(u64, u64)> = pools.iter().map(|pool| has(&core, pool.0)).collect();
    let (mut events, mut bad) = (0, None);
    for (number, line) in input[cut..].lines().enumerate() {
        if !is_told(line) {
            continue;
        }
        let mut event = event_of(&text, line);
        let placed = names.placed(event.what);
        event.what = placed.unwrap_or(event.what);
        if placed.is_none() || !core.apply(&event) {
            bad = Some(first + number);
            break;
        }
        for (extent, pool) in extents.iter_mut().zip(&pools) {
            let (spares, out) = has(&core, pool.0);
            *extent = (extent.0.min(spares), extent.1.max(out));
        }
        events += 1;
    }
    println!("replay events {events}");
    if let Some(line) = bad {
        println!("bad line {line}");
    }
    for ((_, name), (lowest, most)) in pools.iter().zip(extents) {
        println!("pool {name} lowest {lowest} most {most}");
    }
}

fn main() {
    let count: u64 = std::env::args().nth(1).and_then(|word| word.parse().ok()).unwrap_or(0);
    let mut input = String::new();
    io::stdin().read_to_string(&mut input).unwrap();
    if std::env::args().nth(1).as_deref() == Some("replay") {
        replay(&input);
        return;
    }
    let (text, trace) = input.split_once("# events\n").unwrap();
    let text = read(text);
    let events: Vec<Event> = trace.lines().map(|line| event_of(&text, line)).collect();
    let (mut spent, mut applied) = (0, 0);
    while applied < count {
        let mut core = open(&text);
        let start = Instant::now();
        let more = apply_all(&mut core, &events);
        spent += start.elapsed().as_nanos();
        applied += more;
        if more < events.len() as u64 {
            break;
        }
    }
    println!("apply {spent} {applied}");
}
