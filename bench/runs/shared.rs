//! Runs by threads: the same steps over objects behind a `Mutex` each, where each event draws a ticket of one clock. Workers sweep over their tasks, step
//! each on while it meets events, and sleep at a bell where a sweep met nothing. Nothing is traced.
use super::*;
use std::sync::atomic::{AtomicU64, AtomicUsize, Ordering};
use std::sync::{Condvar, Mutex};
use std::thread;

/// An object, and the last ticket that was drawn at it.
struct Thing<T> {
    object: T,
    last: u64,
}

fn thing<T>(object: T) -> Mutex<Thing<T>> {
    Mutex::new(Thing { object, last: 0 })
}

struct Tally {
    round: usize,
    left: Vec<u32>,
    all: u32,
    statuses: Vec<Status>,
}

pub struct Shared {
    devices: Vec<Device>,
    clock: AtomicU64,
    fs: Mutex<Thing<Pool<Bio>>>,
    vecs: Mutex<Thing<Pool<Vector>>>,
    bios: Vec<Option<Mutex<Thing<Pool<Bio>>>>>,
    records: Vec<Option<Mutex<Thing<Pool<Slip>>>>>,
    lists: Vec<Mutex<Thing<VecDeque<El<Bio>>>>>,
    disks: Vec<Option<Mutex<Thing<Disk>>>>,
    books: Vec<Mutex<Thing<Book>>>,
    tally: Mutex<Thing<Tally>>,
}

/// What became of a step.
#[derive(Clone, Copy, PartialEq)]
enum Came {
    Over,
    Nothing,
    Event,
}

fn event(met: bool) -> Came {
    if met { Came::Event } else { Came::Nothing }
}

fn goes_on(devices: &[Device], dev: u32, line: &mut Line) {
    merge(dev, &mut line.list0, &mut line.list1);
    settle(devices, line);
}

fn waits_first(devices: &[Device], dev: u32, line: &Line) -> bool {
    !devices[dev as usize].rescuer || line.list0.is_empty() && line.list1.is_empty()
}

fn settle(devices: &[Device], line: &mut Line) {
    line.doing = match line.list1.pop_front() {
        None => Doing::Rests,
        Some(mut bio) => {
            land(devices, &mut bio);
            match devices[bio.dev as usize].kind {
                Kind::Disk => Doing::Push(bio),
                Kind::Mirror => Doing::Record(bio),
                _ => {
                    let waits = waits_first(devices, bio.dev, line);
                    Doing::Cut(bio, Want::Takes(waits))
                }
            }
        }
    };
}

fn copies(devices: &[Device], bio: Bio, master: u32, leg: u32, line: &mut Line) {
    if leg as usize == devices[bio.dev as usize].members.len() {
        return goes_on(devices, bio.dev, line);
    }
    let waits = waits_first(devices, bio.dev, line);
    line.doing = Doing::Copies(bio, master, leg, Want::Takes(waits));
}

/// What stays in the lists where the bios of a set are taken out.
fn kept(dev: u32, list: &mut VecDeque<El<Bio>>, into: &mut VecDeque<El<Bio>>) {
    let mut kept = VecDeque::new();
    while let Some(bio) = list.pop_front() {
        if bio.set == dev {
            into.push_back(bio);
        } else {
            kept.push_back(bio);
        }
    }
    *list = kept;
}

fn carried(writer: u32, end: End) -> Carried {
    match end {
        End::Left => Carried::Empty,
        End::Up(closed) | End::Top(closed) => Carried::Carries(writer, closed),
    }
}

impl Shared {
    pub fn new(o: Objects) -> Shared {
        Shared {
            clock: AtomicU64::new(0),
            fs: thing(o.fs),
            vecs: thing(o.vecs),
            bios: o.bios.into_iter().map(|pool| pool.map(thing)).collect(),
            records: o.records.into_iter().map(|pool| pool.map(thing)).collect(),
            lists: o.lists.into_iter().map(thing).collect(),
            disks: o.disks.into_iter().map(|disk| disk.map(thing)).collect(),
            books: o.books.into_iter().map(thing).collect(),
            tally: thing(Tally { round: o.round, left: o.left, all: o.all, statuses: o.statuses }),
            devices: o.devices,
        }
    }

    /// The objects as they are left.
    pub fn into_objects(self) -> Objects {
        fn of<T>(thing: Mutex<Thing<T>>) -> T {
            thing.into_inner().unwrap().object
        }
        let tally = of(self.tally);
        Objects {
            fs: of(self.fs),
            vecs: of(self.vecs),
            bios: self.bios.into_iter().map(|pool| pool.map(of)).collect(),
            records: self.records.into_iter().map(|pool| pool.map(of)).collect(),
            lists: self.lists.into_iter().map(of).collect(),
            disks: self.disks.into_iter().map(|disk| disk.map(of)).collect(),
            books: self.books.into_iter().map(of).collect(),
            round: tally.round,
            left: tally.left,
            all: tally.all,
            statuses: tally.statuses,
            trace: None,
            devices: self.devices,
        }
    }

    /// Calls an object. The call draws a ticket where it is an event.
    fn call<T, R>(&self, lock: &Mutex<Thing<T>>, ask: impl FnOnce(&mut T) -> (R, bool)) -> R {
        let mut thing = lock.lock().unwrap();
        let (reply, met) = ask(&mut thing.object);
        if met {
            thing.last = self.clock.fetch_add(1, Ordering::SeqCst) + 1;
        }
        reply
    }

    fn take<T: 'static>(&self, pool: &Mutex<Thing<Pool<T>>>, waits: bool) -> Result<El<T>, bool> {
        self.call(pool, |pool| match pool.take() {
            Taken::Ordinary(el) | Taken::Spare(el) => (Ok(el), true),
            Taken::Missed(used) => (Err(used || !waits), used || !waits),
        })
    }

    fn punt(&self, dev: u32, line: &mut Line) {
        self.call(&self.lists[dev as usize], |list| {
            kept(dev, &mut line.list0, list);
            kept(dev, &mut line.list1, list);
            ((), true)
        });
    }

    fn set(&self, dev: u32) -> &Mutex<Thing<Pool<Bio>>> {
        self.bios[dev as usize].as_ref().unwrap()
    }

    fn slips(&self, dev: u32) -> &Mutex<Thing<Pool<Slip>>> {
        self.records[dev as usize].as_ref().unwrap()
    }

    fn book<R>(&self, writer: u32, ask: impl FnOnce(&mut Book) -> R) -> R {
        self.call(&self.books[writer as usize], |book| (ask(book), true))
    }

    fn line_step(&self, line: &mut Line) -> bool {
        let wants = |waits| if waits { Want::Takes(true) } else { Want::Punts };
        match std::mem::replace(&mut line.doing, Doing::Rests) {
            Doing::Rests => return false,
            Doing::Push(bio) => {
                let dev = bio.dev;
                self.call(self.disks[dev as usize].as_ref().unwrap(), |disk| (disk.pending.push_back(bio), true));
                goes_on(&self.devices, dev, line);
            }
            Doing::Cut(bio, Want::Takes(waits)) => match self.take(self.set(bio.dev), waits) {
                Ok(hand) => line.doing = Doing::Cut(bio, Want::Links(hand)),
                Err(met) => {
                    line.doing = Doing::Cut(bio, wants(waits));
                    return met;
                }
            },
            Doing::Cut(bio, Want::Punts) => {
                self.punt(bio.dev, line);
                line.doing = Doing::Cut(bio, Want::Takes(true));
            }
            Doing::Cut(mut bio, Want::Links(mut hand)) => {
                let node = self.book(bio.writer, |book| book.chain(bio.node));
                let dev = bio.dev;
                let (n, m, at) = piece(&self.devices, dev, bio.start, bio.len);
                *hand = Bio { dev: m as u32, start: at, len: n, set: dev, node, leg: 0, ..*bio };
                bio.start += n;
                bio.len -= n;
                bio.word = bio.word.wrapping_add(64 * n);
                line.list0.push_back(hand);
                line.list0.push_back(bio);
                goes_on(&self.devices, dev, line);
            }
            Doing::Record(bio) => match self.take(self.slips(bio.dev), true) {
                Ok(slip) => line.doing = Doing::Master(bio, slip),
                Err(met) => {
                    line.doing = Doing::Record(bio);
                    return met;
                }
            },
            Doing::Master(bio, slip) => {
                let copied = Bio { ..*bio };
                let legs = self.devices[bio.dev as usize].members.len() as u32;
                let master = self.book(bio.writer, |book| book.master(bio.node, bio, slip, legs));
                copies(&self.devices, copied, master, 0, line);
            }
            Doing::Copies(bio, master, leg, Want::Takes(waits)) => match self.take(self.set(bio.dev), waits) {
                Ok(hand) => line.doing = Doing::Copies(bio, master, leg, Want::Links(hand)),
                Err(met) => {
                    line.doing = Doing::Copies(bio, master, leg, wants(waits));
                    return met;
                }
            },
            Doing::Copies(bio, master, leg, Want::Punts) => {
                self.punt(bio.dev, line);
                line.doing = Doing::Copies(bio, master, leg, Want::Takes(true));
            }
            Doing::Copies(bio, master, leg, Want::Links(mut hand)) => {
                let node = self.book(bio.writer, |book| book.leg(master));
                let member = self.devices[bio.dev as usize].members[leg as usize];
                *hand = Bio { dev: member as u32, set: bio.dev, node, leg, ..bio };
                line.list0.push_back(hand);
                copies(&self.devices, bio, master, leg + 1, line);
            }
        }
        true
    }

    /// A pending bio of a disk, by the choice of the worker that steps the task: the oldest. It looks first, so that a choice is made behind no lock.
    fn complete(&self, disk: u32) -> Option<(El<Bio>, Status)> {
        let bads = &self.devices[disk as usize].bads;
        let disk = self.disks[disk as usize].as_ref().unwrap();
        if self.call(disk, |at| (at.pending.len(), false)) == 0 {
            return None;
        }
        let chosen = 0;
        self.call(disk, |at| {
            let last = at.pending.len().checked_sub(1);
            let Some(bio) = last.and_then(|last| at.pending.remove(last.min(chosen))) else {
                return (None, false);
            };
            let status = bads
                .iter()
                .filter(|b| b.0 < bio.start + bio.len && bio.start < b.0 + b.1)
                .min_by_key(|b| b.0)
                .map_or(Status::Ok, |b| b.2);
            if status == Status::Ok {
                for j in 0..bio.len {
                    let sector = (bio.start + j) as usize;
                    let first = bio.word.wrapping_add(64 * j);
                    for (i, word) in at.image[64 * sector..64 * sector + 64].iter_mut().enumerate() {
                        *word = first.wrapping_add(i as u64);
                    }
                    at.written[sector] = true;
                }
            }
            (Some((bio, status)), true)
        })
    }

    fn give<T: 'static>(&self, pool: &Mutex<Thing<Pool<T>>>, el: El<T>) {
        self.call(pool, |pool| (pool.give(el), true));
    }

    /// The task of a completer brings what it has on its way.
    fn carry(&self, disk: u32, hand: Carried) -> Option<Carried> {
        Some(match hand {
            Carried::Empty => {
                let (bio, status) = self.complete(disk)?;
                Carried::Brings(bio, status)
            }
            Carried::Brings(bio, status) => {
                let writer = bio.writer;
                carried(writer, self.book(writer, |book| book.drop_one(bio.node, status, Some(bio))))
            }
            Carried::Carries(writer, mut closed) => {
                if let Some(mut vector) = closed.held.vector.take() {
                    vector.clear();
                    self.give(&self.vecs, vector);
                } else if let Some(bio) = closed.held.bio.take() {
                    let pool = if bio.set == FS { &self.fs } else { self.set(bio.set) };
                    self.give(pool, bio);
                } else if let Some(slip) = closed.held.slip.take() {
                    self.give(self.slips(slip.dev), slip);
                } else if let Some(parent) = closed.parent {
                    return Some(carried(writer, self.book(writer, |book| book.drop_one(parent, closed.status, None))));
                } else {
                    self.call(&self.tally, |tally| {
                        tally.left[tally.round] -= 1;
                        tally.all -= 1;
                        tally.statuses[closed.write as usize] = closed.status;
                        ((), true)
                    });
                    return Some(Carried::Empty);
                }
                Carried::Carries(writer, closed)
            }
        })
    }

    fn idle(&self) -> Came {
        self.call(&self.tally, |tally| (if tally.all == 0 { Came::Over } else { Came::Nothing }, false))
    }

    fn keep(&self, duties: &mut VecDeque<Duty>) -> Came {
        let Some(Duty::Resizes(_, _, later) | Duty::Starts(_, later)) = duties.front() else {
            return Came::Over;
        };
        if self.call(&self.tally, |tally| (tally.all, false)) != *later {
            return Came::Nothing;
        }
        match duties.pop_front().unwrap() {
            Duty::Starts(..) => self.call(&self.tally, |tally| (tally.round += 1, true)),
            Duty::Resizes(65, min, _) => self.call(&self.fs, |pool| (pool.resize(min as usize), true)),
            Duty::Resizes(64, min, _) => self.call(&self.vecs, |pool| (pool.resize(min as usize), true)),
            Duty::Resizes(n, min, _) if n % 2 == 0 => self.call(self.set(n as u32 / 2), |pool| (pool.resize(min as usize), true)),
            Duty::Resizes(n, min, _) => self.call(self.slips(n as u32 / 2), |pool| (pool.resize(min as usize), true)),
        }
        Came::Event
    }

    fn write(&self, number: u32, todo: &mut VecDeque<Todo>, bio: &mut Option<El<Bio>>, vector: &mut Option<El<Vector>>, line: &mut Line) -> Came {
        if !matches!(line.doing, Doing::Rests) {
            return event(self.line_step(line));
        }
        let Some(first) = todo.front().copied() else {
            return Came::Over;
        };
        let segments = first.count.div_ceil(8);
        if bio.is_none() {
            if first.round as usize > self.call(&self.tally, |tally| (tally.round, false)) {
                return Came::Nothing;
            }
            return match self.take(&self.fs, true) {
                Ok(el) => {
                    *bio = Some(el);
                    Came::Event
                }
                Err(met) => event(met),
            };
        }
        if segments > 4 && vector.is_none() {
            return match self.take(&self.vecs, true) {
                Ok(el) => {
                    *vector = Some(el);
                    Came::Event
                }
                Err(met) => event(met),
            };
        }
        let (mut el, mut list) = (bio.take().unwrap(), vector.take());
        *el = Bio {
            write: first.number,
            writer: number,
            dev: first.dev,
            start: first.start,
            len: first.count,
            word: first.tag,
            set: FS,
            ..Bio::clear()
        };
        for k in 0..segments {
            let segment = (first.tag.wrapping_add(512 * k), (first.count - 8 * k).min(8) as u16);
            match list.as_mut() {
                Some(list) => list.push(segment),
                None => el.push(segment),
            }
        }
        el.node = self.book(number, |book| book.write(first.number, list));
        todo.pop_front();
        line.list1.push_back(el);
        settle(&self.devices, line);
        Came::Event
    }

    fn step(&self, task: &mut Task) -> Came {
        match task {
            Task::Writer { number, todo, bio, vector, line } => self.write(*number, todo, bio, vector, line),
            Task::Rescuer { dev, line } => {
                if !matches!(line.doing, Doing::Rests) {
                    return event(self.line_step(line));
                }
                let popped = self.call(&self.lists[*dev as usize], |list| {
                    let bio = list.pop_front();
                    let met = bio.is_some();
                    (bio, met)
                });
                let Some(bio) = popped else {
                    return self.idle();
                };
                line.list1.push_back(bio);
                settle(&self.devices, line);
                Came::Event
            }
            Task::Completer { disk, carried } => match self.carry(*disk, std::mem::replace(carried, Carried::Empty)) {
                Some(hand) => {
                    *carried = hand;
                    Came::Event
                }
                None => self.idle(),
            },
            Task::Keeper { duties } => self.keep(duties),
        }
    }
}

/// What wakes workers that found nothing to do.
struct Bell {
    rings: AtomicU64,
    waiters: AtomicUsize,
    lock: Mutex<()>,
    wakes: Condvar,
}

impl Bell {
    fn ring(&self) {
        self.rings.fetch_add(1, Ordering::SeqCst);
        if self.waiters.load(Ordering::SeqCst) != 0 {
            drop(self.lock.lock().unwrap());
            self.wakes.notify_all();
        }
    }

    fn wait(&self, heard: u64) {
        self.waiters.fetch_add(1, Ordering::SeqCst);
        let mut held = self.lock.lock().unwrap();
        while self.rings.load(Ordering::SeqCst) == heard {
            held = self.wakes.wait(held).unwrap();
        }
        drop(held);
        self.waiters.fetch_sub(1, Ordering::SeqCst);
    }
}

/// How often a visit steps a task at the most.
const MOST_STEPS: u32 = 64;

/// Sweeps over these tasks until none goes on: visits each, and steps it on while it meets events. Answers how many events they had.
fn finish(shared: &Shared, tasks: &mut [Task], bell: &Bell) -> u64 {
    let mut events = 0;
    loop {
        let heard = bell.rings.load(Ordering::SeqCst);
        let (mut met, mut over) = (false, true);
        for task in tasks.iter_mut() {
            let mut came = shared.step(task);
            over &= came == Came::Over;
            let mut steps = 1;
            while came == Came::Event {
                events += 1;
                met = true;
                bell.ring();
                if steps == MOST_STEPS {
                    break;
                }
                came = shared.step(task);
                steps += 1;
            }
        }
        if over {
            return events;
        }
        if !met {
            bell.wait(heard);
        }
    }
}

/// Runs the tasks to the end by so many threads. Answers how many events there were.
pub fn run_workers(shared: &Shared, tasks: Vec<Task>, workers: usize) -> u64 {
    let mut hands: Vec<Vec<Task>> = (0..workers).map(|_| Vec::new()).collect();
    for (number, task) in tasks.into_iter().enumerate() {
        hands[number % workers].push(task);
    }
    let bell = Bell { rings: AtomicU64::new(0), waiters: AtomicUsize::new(0), lock: Mutex::new(()), wakes: Condvar::new() };
    let mut own = hands.remove(0);
    thread::scope(|scope| {
        let bell = &bell;
        let others: Vec<_> = hands.into_iter().map(|mut hand| scope.spawn(move || finish(shared, &mut hand, bell))).collect();
        let mine = finish(shared, &mut own, bell);
        others.into_iter().map(|other| other.join().unwrap()).sum::<u64>() + mine
    })
}

/// The nanoseconds of as many runs of a text by so many threads as have so many events at least, from the first event to the last, and how many events
/// they had.
pub fn time_shared(text: &str, workers: usize, count: u64) -> (u128, u64) {
    let t = read(text);
    let (_, _, places) = needs_of(&t);
    let (mut spent, mut steps) = (0, 0);
    while steps < count {
        let (o, tasks) = open(&t, &places, false);
        let shared = Shared::new(o);
        let start = Instant::now();
        steps += run_workers(&shared, tasks, workers);
        spent += start.elapsed().as_nanos();
    }
    (spent, steps)
}
