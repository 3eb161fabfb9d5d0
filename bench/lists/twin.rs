//! The twin of main.rt.txt: the lists as `VecDeque`s of boxes in plain Rust, with bodies of the same fields.
use std::collections::VecDeque;

include!("common.rs");

#[derive(Default)]
#[allow(dead_code)]
struct Body {
    leg: u32,
    bio: Bio,
    short: [Segment; 4],
    segments: u32,
}

type Element = Box<Body>;

/// A list, as a ring of pointers to its bodies.
#[derive(Default)]
struct BioList {
    ring: VecDeque<Element>,
}

impl BioList {
    fn push(&mut self, element: Element) {
        self.ring.push_back(element);
    }

    fn pop(&mut self) -> Option<Element> {
        self.ring.pop_front()
    }

    fn merge(&mut self, mut other: BioList) {
        self.ring.append(&mut other.ring);
    }

    fn is_empty(&self) -> bool {
        self.ring.is_empty()
    }

    /// Takes the bios of a set out. The ring is turned once.
    fn take_set(&mut self, set: Option<u32>) -> BioList {
        let mut chosen = BioList::default();
        for _ in 0..self.ring.len() {
            if let Some(element) = self.ring.pop_front() {
                if element.bio.set == set {
                    chosen.push(element);
                } else {
                    self.push(element);
                }
            }
        }
        chosen
    }
}

/// The two lists, and two more to sort into, which keep their memory.
#[derive(Default)]
struct TaskLists {
    list0: BioList,
    list1: BioList,
    lower: BioList,
    same: BioList,
}

impl TaskLists {
    fn next(&mut self, served: u32) -> Option<Element> {
        while let Some(element) = self.list0.pop() {
            if element.bio.dev == served {
                self.same.push(element);
            } else {
                self.lower.push(element);
            }
        }
        while let Some(element) = self.same.ring.pop_back() {
            self.list1.ring.push_front(element);
        }
        while let Some(element) = self.lower.ring.pop_back() {
            self.list1.ring.push_front(element);
        }
        self.list1.pop()
    }
}

/// A bio of a set for a device.
fn bio(dev: u32, set: Option<u32>) -> Element {
    let mut body = Box::new(Body::default());
    body.bio.dev = dev;
    body.bio.set = set;
    body
}
