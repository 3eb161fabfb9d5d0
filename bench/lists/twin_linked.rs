//! The twin of main.rt.txt with lists of the same shape: bodies that are linked through their boxes, in two chains a list, with no `unsafe`.
include!("common.rs");

#[derive(Default)]
#[allow(dead_code)]
struct Body {
    leg: u32,
    /// As much as makes it as large as a body of the measured program, 160 bytes: the row `merge` reads memory that is in no cache.
    room: [u64; 2],
    bio: Bio,
    short: [Segment; 4],
    segments: u32,
    next: Link,
}

const _: () = assert!(size_of::<Body>() == 160);

/// A body in a box of its own, and the number of its pool.
#[allow(dead_code)]
struct Element {
    body: Box<Body>,
    share: u32,
}

type Link = Option<Element>;

/// Puts an element before a chain.
fn attach(link: &mut Link, mut element: Element) {
    element.body.next = link.take();
    *link = Some(element);
}

/// Takes the first element off a chain.
fn detach(link: &mut Link) -> Option<Element> {
    let mut element = link.take()?;
    *link = element.body.next.take();
    Some(element)
}

/// Puts the elements of a chain before another, the first one deepest.
fn reverse_onto(mut from: Link, mut onto: Link) -> Link {
    while let Some(element) = detach(&mut from) {
        attach(&mut onto, element);
    }
    onto
}

/// Moves the bios of a chain: those for this device before `same`, and the others before `lower`.
fn part(mut from: Link, dev: u32, mut lower: Link, mut same: Link) -> (Link, Link) {
    while let Some(element) = detach(&mut from) {
        if element.body.bio.dev == dev {
            attach(&mut same, element);
        } else {
            attach(&mut lower, element);
        }
    }
    (lower, same)
}

/// Moves the bios of a chain: those of this set before `chosen`, and the others before `others`. It answers how many were of the set, too.
fn part_by_set(mut from: Link, set: Option<u32>, mut chosen: Link, mut others: Link) -> (Link, Link, u64) {
    let mut count = 0;
    while let Some(element) = detach(&mut from) {
        if element.body.bio.set == set {
            attach(&mut chosen, element);
            count += 1;
        } else {
            attach(&mut others, element);
        }
    }
    (chosen, others, count)
}

/// The elements at the front, and those at the back with the last one first.
#[derive(Default)]
struct BioList {
    front: Link,
    back: Link,
    count: u64,
}

impl BioList {
    fn push(&mut self, element: Element) {
        attach(&mut self.back, element);
        self.count += 1;
    }

    fn pop(&mut self) -> Option<Element> {
        if self.front.is_none() {
            self.front = reverse_onto(self.back.take(), None);
        }
        let element = detach(&mut self.front)?;
        self.count -= 1;
        Some(element)
    }

    fn merge(&mut self, mut other: BioList) {
        let count = self.count + other.count;
        if self.count < other.count {
            std::mem::swap(self, &mut other);
            let before = reverse_onto(other.back, self.front.take());
            self.front = reverse_onto(reverse_onto(other.front, None), before);
        } else {
            let behind = reverse_onto(other.front, self.back.take());
            self.back = reverse_onto(reverse_onto(other.back, None), behind);
        }
        self.count = count;
    }

    fn is_empty(&self) -> bool {
        self.count == 0
    }

    /// Takes the bios of a set out. They and the others each keep their order.
    fn take_set(&mut self, set: Option<u32>) -> BioList {
        let (chosen, others, behind) = part_by_set(self.back.take(), set, None, None);
        let (chosen, others, before) = part_by_set(reverse_onto(self.front.take(), None), set, chosen, others);
        let count = behind + before;
        self.front = others;
        self.count -= count;
        BioList {
            front: chosen,
            back: None,
            count,
        }
    }

    fn sort_before(&mut self, other: &mut BioList, dev: u32) {
        if other.count == 0 {
            return;
        }
        let (lower, same) = part(other.back.take(), dev, None, self.front.take());
        let (lower, same) = part(reverse_onto(other.front.take(), None), dev, lower, same);
        self.front = reverse_onto(reverse_onto(lower, None), same);
        self.count += other.count;
        other.count = 0;
    }
}

#[derive(Default)]
struct TaskLists {
    list0: BioList,
    list1: BioList,
}

impl TaskLists {
    fn next(&mut self, served: u32) -> Option<Element> {
        self.list1.sort_before(&mut self.list0, served);
        self.list1.pop()
    }
}

/// A bio of a set for a device.
fn bio(dev: u32, set: Option<u32>) -> Element {
    let mut body = Box::new(Body::default());
    body.bio.dev = dev;
    body.bio.set = set;
    Element { body, share: 1 }
}
