//! The twin of main.rt.txt with lists as those of Linux: bodies that are linked through their boxes, and a raw pointer to the last one.
include!("common.rs");

#[derive(Default)]
#[allow(dead_code)]
struct Body {
    leg: u32,
    /// As much as makes it as large as a body of the measured program, 160 bytes: the row `merge` reads memory that is in no cache.
    room: [u64; 2],
    bio: Bio,
    short: [Segment; 4],
    segments: u32,
    next: Link,
}

const _: () = assert!(size_of::<Body>() == 160);

/// A body in a box of its own, and the number of its pool.
#[allow(dead_code)]
struct Element {
    body: Box<Body>,
    share: u32,
}

type Link = Option<Element>;

/// The first element, and where the last one stands, as `struct bio_list` has them.
struct BioList {
    head: Link,
    tail: *mut Body,
}

impl Default for BioList {
    fn default() -> Self {
        BioList {
            head: None,
            tail: std::ptr::null_mut(),
        }
    }
}

impl BioList {
    fn push(&mut self, mut element: Element) {
        let tail: *mut Body = &mut *element.body;
        if self.head.is_none() {
            self.head = Some(element);
        } else {
            // where the list is not empty, its tail is the body of its last element
            unsafe { (*self.tail).next = Some(element) };
        }
        self.tail = tail;
    }

    fn pop(&mut self) -> Option<Element> {
        let mut element = self.head.take()?;
        self.head = element.body.next.take();
        Some(element)
    }

    fn merge(&mut self, mut other: BioList) {
        if other.head.is_none() {
            return;
        }
        if self.head.is_none() {
            *self = other;
            return;
        }
        // as in a push
        unsafe { (*self.tail).next = other.head.take() };
        self.tail = other.tail;
    }
}

impl BioList {
    fn is_empty(&self) -> bool {
        self.head.is_none()
    }

    /// Takes the bios of a set out, as `punt_bios_to_rescuer` has it: all are popped, and go to one list or the other.
    fn take_set(&mut self, set: Option<u32>) -> BioList {
        let (mut chosen, mut others) = (BioList::default(), BioList::default());
        while let Some(element) = self.pop() {
            if element.body.bio.set == set {
                chosen.push(element);
            } else {
                others.push(element);
            }
        }
        *self = others;
        chosen
    }
}

#[derive(Default)]
struct TaskLists {
    list0: BioList,
    list1: BioList,
}

impl TaskLists {
    fn next(&mut self, served: u32) -> Option<Element> {
        if self.list0.head.is_some() {
            let (mut lower, mut same) = (BioList::default(), BioList::default());
            while let Some(element) = self.list0.pop() {
                if element.body.bio.dev == served {
                    same.push(element);
                } else {
                    lower.push(element);
                }
            }
            lower.merge(same);
            lower.merge(std::mem::take(&mut self.list1));
            self.list1 = lower;
        }
        self.list1.pop()
    }
}

/// A bio of a set for a device.
fn bio(dev: u32, set: Option<u32>) -> Element {
    let mut body = Box::new(Body::default());
    body.bio.dev = dev;
    body.bio.set = set;
    Element { body, share: 1 }
}
