//! The twin of main.rt.txt: a book of the same shape in plain Rust, over a vector of nodes with a list of free places.
use std::mem::MaybeUninit;
use std::time::Instant;

#[derive(Clone, Copy, PartialEq, Eq)]
#[allow(dead_code)]
enum Status {
    Ok,
    Io,
    Medium,
    NoSpace,
}

#[derive(Clone, Copy)]
enum Role {
    Top,
    Chain { parent: u32 },
    Master { parent: u32 },
    Leg { parent: u32 },
}

/// The memory of a bio.
#[allow(dead_code)]
struct BioBody {
    words: [u64; 19],
    next: Option<Box<BioBody>>,
}

#[allow(dead_code)]
struct Element<P> {
    body: Box<P>,
    no: u32,
}

#[allow(dead_code)]
struct Vector {
    segments: [(u64, u32); 256],
}

#[allow(dead_code)]
struct Slip {
    legs: u32,
}

#[derive(Default)]
#[allow(dead_code)]
struct Back {
    bio: Option<Element<BioBody>>,
    vector: Option<Element<Vector>>,
    slip: Option<Element<Slip>>,
}

impl Back {
    /// The own part of a node and a mirror's record, for which there is no master.
    fn unmastered(part: Element<BioBody>, slip: Element<Slip>) -> Back {
        Back {
            bio: Some(part),
            vector: None,
            slip: Some(slip),
        }
    }
}

struct Node {
    role: Role,
    write: u32,
    count: u64,
    status: Status,
    held: Back,
    /// As much as makes a place as large as one of the measured program. Nothing is written to it.
    _room: MaybeUninit<[u64; 5]>,
}

const _: () = assert!(size_of::<Option<Node>>() == 112);

/// Of two ends, the first that failed.
fn first_failing(old: Status, new: Status) -> Status {
    if old == Status::Ok { new } else { old }
}

/// Of two ends, one that was well, if one was.
fn any_well(old: Status, new: Status) -> Status {
    if new == Status::Ok { new } else { old }
}

impl Node {
    /// A node of one end that holds nothing.
    fn new(role: Role, write: u32) -> Node {
        Node {
            role,
            write,
            count: 1,
            status: Status::Ok,
            held: Back::default(),
            _room: MaybeUninit::uninit(),
        }
    }

    /// Keeps how it has ended, with one more end, and the last part that came.
    fn tell(&mut self, status: Status, part: Option<Element<BioBody>>) {
        self.status = match self.role {
            Role::Master { .. } => any_well(self.status, status),
            _ => first_failing(self.status, status),
        };
        if part.is_some() {
            self.held.bio = part;
        }
    }

    /// What is left of it as it closes.
    fn close(self) -> ClosedNode {
        let parent = match self.role {
            Role::Top => None,
            Role::Chain { parent } | Role::Master { parent } | Role::Leg { parent } => Some(parent),
        };
        let status = match self.role {
            Role::Master { .. } if self.status != Status::Ok => Status::Io,
            _ => self.status,
        };
        ClosedNode {
            held: self.held,
            parent,
            write: self.write,
            status,
        }
    }
}

#[allow(dead_code)]
enum Link {
    Made(u32),
    NoRoom(Back),
    Stray(Back),
}

#[allow(dead_code)]
struct ClosedNode {
    held: Back,
    parent: Option<u32>,
    write: u32,
    status: Status,
}

#[allow(dead_code)]
enum Dropped {
    Left,
    Up(ClosedNode),
    Top(ClosedNode),
    Stray(Option<Element<BioBody>>),
}

#[allow(dead_code)]
struct Book {
    writer: u32,
    nodes: Vec<Option<Node>>,
    free: Vec<u32>,
}

impl Book {
    fn open(writer: u32, places: u32) -> Book {
        Book {
            writer,
            nodes: (0..places).map(|_| None).collect(),
            free: (0..places).collect(),
        }
    }

    fn insert(&mut self, node: Node) -> Result<u32, Node> {
        let Some(place) = self.free.pop() else {
            return Err(node);
        };
        self.nodes[place as usize] = Some(node);
        Ok(place)
    }

    fn open_write(&mut self, write: u32, vector: Option<Element<Vector>>) -> Link {
        let mut node = Node::new(Role::Top, write);
        node.held.vector = vector;
        match self.insert(node) {
            Ok(place) => Link::Made(place),
            Err(node) => Link::NoRoom(node.held),
        }
    }

    fn chain(&mut self, parent: u32) -> Link {
        let Some(Some(node)) = self.nodes.get(parent as usize) else {
            return Link::Stray(Back::default());
        };
        if node.count == u64::MAX {
            return Link::NoRoom(Back::default());
        }
        match self.insert(Node::new(Role::Chain { parent }, node.write)) {
            Ok(place) => {
                if let Some(Some(node)) = self.nodes.get_mut(parent as usize) {
                    node.count += 1;
                }
                Link::Made(place)
            }
            Err(child) => Link::NoRoom(child.held),
        }
    }

    fn master(&mut self, parent: u32, part: Element<BioBody>, mut slip: Element<Slip>, legs: u32) -> Link {
        let write = match self.nodes.get(parent as usize) {
            Some(Some(node)) => node.write,
            _ => return Link::Stray(Back::unmastered(part, slip)),
        };
        if self.free.is_empty() {
            return Link::NoRoom(Back::unmastered(part, slip));
        }
        slip.body.legs = legs;
        let mut master = Node::new(Role::Master { parent }, write);
        master.count = u64::from(legs);
        master.status = Status::Io;
        master.held.slip = Some(slip);
        match self.insert(master) {
            Ok(place) => {
                if let Some(Some(node)) = self.nodes.get_mut(parent as usize) {
                    node.held.bio = Some(part);
                }
                Link::Made(place)
            }
            Err(_) => unreachable!(),
        }
    }

    fn leg(&mut self, master: u32) -> Link {
        let write = match self.nodes.get(master as usize) {
            Some(Some(node)) => node.write,
            _ => return Link::Stray(Back::default()),
        };
        match self.insert(Node::new(Role::Leg { parent: master }, write)) {
            Ok(place) => Link::Made(place),
            Err(leg) => Link::NoRoom(leg.held),
        }
    }

    #[inline(always)]
    fn drop_one(&mut self, place: u32, status: Status, part: Option<Element<BioBody>>) -> Dropped {
        let Some(slot) = self.nodes.get_mut(place as usize) else {
            return Dropped::Stray(part);
        };
        let Some(node) = slot else {
            return Dropped::Stray(part);
        };
        node.tell(status, part);
        if node.count > 1 {
            node.count -= 1;
            return Dropped::Left;
        }
        let Some(node) = slot.take() else {
            return Dropped::Left;
        };
        self.free.push(place);
        let closed = node.close();
        match closed.parent {
            None => Dropped::Top(closed),
            Some(_) => Dropped::Up(closed),
        }
    }
}

/// A book of so many places, and the place of the one node that is open.
fn open(places: u32) -> (Book, u32) {
    let mut book = Book::open(0, places);
    let top = match book.open_write(0, None) {
        Link::Made(place) => place,
        _ => 0,
    };
    (book, top)
}

/// The place of a new child, if there is room for one.
fn child(book: &mut Book, parent: u32) -> Option<u32> {
    match book.chain(parent) {
        Link::Made(place) => Some(place),
        _ => None,
    }
}

/// Tells a node of an end. It answers whether the node waits for others.
fn tell(book: &mut Book, place: u32, status: Status) -> bool {
    match book.drop_one(place, status, None) {
        Dropped::Left => true,
        _ => false,
    }
}

/// Drops a child and tells its parent. It answers whether the child closed and the parent waits for others.
fn drop_child(book: &mut Book, place: u32) -> bool {
    match book.drop_one(place, Status::Ok, None) {
        Dropped::Up(ClosedNode {
            parent: Some(parent),
            status,
            ..
        }) => tell(book, parent, status),
        _ => false,
    }
}

/// One child after the other. It answers how many were opened and dropped.
fn pairs(book: &mut Book, top: u32, count: u32) -> u64 {
    let mut served = 0;
    for _ in 0..count {
        if let Some(place) = child(book, top) {
            if drop_child(book, place) {
                served += 1;
            }
        }
    }
    served
}

/// All children first, and then all drops, the first child first.
fn fill(book: &mut Book, top: u32, count: u32) -> u64 {
    let mut children = Vec::with_capacity(count as usize);
    for _ in 0..count {
        if let Some(place) = child(book, top) {
            children.push(place);
        }
    }
    let mut served = 0;
    for place in &children {
        if drop_child(book, *place) {
            served += 1;
        }
    }
    served
}

/// The place of the node, if one was opened.
fn made(link: Link) -> Option<u32> {
    match link {
        Link::Made(place) => Some(place),
        _ => None,
    }
}

/// Tells a leg of its end, and its master of the leg's. It answers what is left of the master, where that was its last leg.
fn end_leg(book: &mut Book, leg: u32) -> Option<ClosedNode> {
    match book.drop_one(leg, Status::Ok, None) {
        Dropped::Up(ClosedNode {
            parent: Some(master),
            status,
            ..
        }) => match book.drop_one(master, status, None) {
            Dropped::Up(closed) => Some(closed),
            _ => None,
        },
        _ => None,
    }
}

/// Tells the node of a write of its only end. It answers the part that the node kept.
fn end_write(book: &mut Book, top: u32, status: Status) -> Option<Element<BioBody>> {
    match book.drop_one(top, status, None) {
        Dropped::Top(ClosedNode { held, .. }) => held.bio,
        _ => None,
    }
}

/// A write to a mirror of two members: its node is opened, a master for its part and two legs, and all of them end. The part and the record
/// are handed out again.
fn mirrored(
    book: &mut Book,
    write: u32,
    part: Element<BioBody>,
    slip: Element<Slip>,
) -> Option<(Element<BioBody>, Element<Slip>)> {
    let top = made(book.open_write(write, None))?;
    let master = made(book.master(top, part, slip, 2))?;
    let first = made(book.leg(master))?;
    let second = made(book.leg(master))?;
    if end_leg(book, first).is_some() {
        return None;
    }
    let ClosedNode {
        held,
        parent,
        status,
        ..
    } = end_leg(book, second)?;
    let part = end_write(book, parent?, status)?;
    Some((part, held.slip?))
}

/// One write to a mirror after the other. It answers how many had their part and their record back.
fn mirrors(book: &mut Book, part: Element<BioBody>, slip: Element<Slip>, count: u32) -> u64 {
    let mut hand = Some((part, slip));
    let mut served = 0;
    for write in 0..count {
        let Some((part, slip)) = hand else {
            return served;
        };
        hand = mirrored(book, write, part, slip);
        if hand.is_some() {
            served += 1;
        }
    }
    served
}

/// The nanoseconds of so many pairs at a book of two places.
fn time_pairs(count: u32) -> (u128, u64) {
    let (mut book, top) = open(2);
    let start = Instant::now();
    let served = pairs(&mut book, top, count);
    (start.elapsed().as_nanos(), served)
}

/// The nanoseconds of the second fill of a book with a place for each child: the first one touches the memory.
fn time_fill(count: u32) -> (u128, u64) {
    let (mut book, top) = open(count.saturating_add(1));
    let _first = fill(&mut book, top, count);
    let start = Instant::now();
    let served = fill(&mut book, top, count);
    (start.elapsed().as_nanos(), served)
}

/// The nanoseconds of so many writes to a mirror at a book of four places.
fn time_mirrors(count: u32) -> (u128, u64) {
    let mut book = Book::open(0, 4);
    let part = Element {
        body: Box::new(BioBody {
            words: [0; 19],
            next: None,
        }),
        no: 0,
    };
    let slip = Element {
        body: Box::new(Slip { legs: 0 }),
        no: 1,
    };
    let start = Instant::now();
    let served = mirrors(&mut book, part, slip, count);
    (start.elapsed().as_nanos(), served)
}

fn main() {
    let count = std::env::args().nth(1).and_then(|word| word.parse().ok()).unwrap_or(0);
    let (chained, served) = time_pairs(count);
    println!("chain {chained} {served}");
    let (filled, served) = time_fill(count);
    println!("fill {filled} {served}");
    let (mirrored, served) = time_mirrors(count);
    println!("mirror {mirrored} {served}");
}
