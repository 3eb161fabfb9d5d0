// What the twins of main.rt.txt have in common: each includes this file, and has its own bodies, elements and lists.
use std::time::Instant;

const SERVED: u32 = 1;
/// The set whose bios are punted: that of the device that is served.
const PUNTED: Option<u32> = Some(1);
/// How many sets are asked for their first attempts in turn.
const SETS: u32 = 64;

#[derive(Clone, Copy, Default)]
#[allow(dead_code)]
struct Segment {
    word: u64,
    sectors: u32,
}

#[derive(Default)]
#[allow(dead_code)]
struct Bio {
    write: u32,
    writer: u32,
    node: u32,
    dev: u32,
    start: u64,
    len: u64,
    word: u64,
    segment: u32,
    done: u32,
    set: Option<u32>,
}

impl TaskLists {
    fn submit(&mut self, element: Element) {
        self.list0.push(element);
    }

    /// Takes the bios of a set out of both lists.
    fn punt(&mut self, set: Option<u32>) -> BioList {
        let mut moved = self.list0.take_set(set);
        moved.merge(self.list1.take_set(set));
        moved
    }

    fn busy(&self) -> bool {
        !self.list0.is_empty() || !self.list1.is_empty()
    }
}

/// The bios of a device's set that wait for its rescuer.
#[allow(dead_code)]
struct RescueList {
    dev: u32,
    bios: BioList,
}

impl RescueList {
    fn add(&mut self, moved: BioList) {
        self.bios.merge(moved);
    }

    fn pop(&mut self) -> Option<Element> {
        self.bios.pop()
    }
}

/// What a set is made with.
#[allow(dead_code)]
struct SetPlan {
    set: Option<u32>,
    bios: u32,
    vecs: Option<u32>,
    rescuer: bool,
}

/// Whether the first attempt at a bio of this set is one that does not wait.
fn first_is_try(plan: &SetPlan, lists: &TaskLists) -> bool {
    plan.rescuer && lists.busy()
}

/// The driver submits a bio for the device below and one for its own, and two bios are served.
fn round(lists: &mut TaskLists, lower: Element, same: Element) -> Option<(Element, Element)> {
    lists.submit(lower);
    lists.submit(same);
    let first = lists.next(SERVED)?;
    let second = lists.next(SERVED)?;
    Some((first, second))
}

/// One round after the other. It answers how many bios were served.
fn rounds(lists: &mut TaskLists, lower: Element, same: Element, count: u32) -> u64 {
    let mut hand = Some((lower, same));
    let mut served = 0;
    for _ in 0..count {
        let Some((lower, same)) = hand else {
            return served;
        };
        hand = round(lists, lower, same);
        served += 2;
    }
    served
}

/// The nanoseconds of so many rounds over so many bios that wait.
fn time_rounds(waiting: u32, count: u32) -> (u128, u64) {
    let start = Instant::now();
    let mut lists = TaskLists::default();
    for _ in 0..waiting {
        lists.list1.push(bio(2, None));
    }
    let served = rounds(&mut lists, bio(0, None), bio(1, None), count);
    (start.elapsed().as_nanos(), served)
}

/// The nanoseconds of so many merges of one bio each onto a list of so many.
fn time_merges(waiting: u32, count: u32) -> (u128, u64) {
    let mut list = BioList::default();
    for _ in 0..waiting {
        list.push(bio(2, None));
    }
    let start = Instant::now();
    let mut merged = 0;
    for _ in 0..count {
        let Some(element) = list.pop() else {
            break;
        };
        let mut one = BioList::default();
        one.push(element);
        list.merge(one);
        merged += 1;
    }
    (start.elapsed().as_nanos(), merged)
}

/// The driver submits a bio of the set that is punted and one of another. The rescuer gets the set's bios and takes the first one off, and
/// the other one is served.
fn punt_round(lists: &mut TaskLists, rescued: &mut RescueList, own: Element, other: Element) -> Option<(Element, Element)> {
    lists.submit(own);
    lists.submit(other);
    rescued.add(lists.punt(PUNTED));
    let own = rescued.pop()?;
    let other = lists.next(SERVED)?;
    Some((own, other))
}

/// One such round after the other. It answers how many had both bios back.
fn punt_rounds(lists: &mut TaskLists, own: Element, other: Element, count: u32) -> u64 {
    let mut rescued = RescueList {
        dev: SERVED,
        bios: BioList::default(),
    };
    let mut hand = Some((own, other));
    let mut served = 0;
    for _ in 0..count {
        let Some((own, other)) = hand else {
            return served;
        };
        hand = punt_round(lists, &mut rescued, own, other);
        if hand.is_some() {
            served += 1;
        }
    }
    served
}

/// The nanoseconds of so many rounds with a punt, over so many bios of another set that wait.
fn time_punts(waiting: u32, count: u32) -> (u128, u64) {
    let start = Instant::now();
    let mut lists = TaskLists::default();
    for _ in 0..waiting {
        lists.list1.push(bio(2, None));
    }
    let served = punt_rounds(&mut lists, bio(0, PUNTED), bio(0, None), count);
    (start.elapsed().as_nanos(), served)
}

/// The sets that are asked, each with a task's two lists: two of three have a rescuer, and each other one has lists with a bio.
fn sets() -> Vec<(SetPlan, TaskLists)> {
    let mut sets = Vec::with_capacity(SETS as usize);
    for k in 0..SETS {
        let plan = SetPlan {
            set: Some(k),
            bios: 2,
            vecs: None,
            rescuer: k % 3 != 0,
        };
        let mut lists = TaskLists::default();
        if k % 2 == 0 {
            lists.list1.push(bio(0, None));
        }
        sets.push((plan, lists));
    }
    sets
}

/// Asks the sets in turn, all of them so often. It answers how many were asked, where one of them said yes.
fn ask(sets: &[(SetPlan, TaskLists)], rounds: u32) -> u64 {
    let mut asked: u64 = 0;
    let mut tries: u64 = 0;
    for _ in 0..rounds {
        for (plan, lists) in sets {
            asked += 1;
            if first_is_try(plan, lists) {
                tries += 1;
            }
        }
    }
    // so that each answer is worked out
    if tries == 0 { 0 } else { asked }
}

/// The nanoseconds of so many questions for first attempts.
fn time_asks(count: u32) -> (u128, u64) {
    let sets = sets();
    let start = Instant::now();
    let asked = ask(&sets, count / SETS);
    (start.elapsed().as_nanos(), asked)
}

fn main() {
    let count: u32 = std::env::args().nth(1).and_then(|word| word.parse().ok()).unwrap_or(0);
    let (alone, served) = time_rounds(0, count / 2);
    println!("alone {alone} {served}");
    let (waiting, served) = time_rounds(100, count / 2);
    println!("waiting {waiting} {served}");
    let (few, merged) = time_merges(100, count);
    println!("few {few} {merged}");
    let (merge, merged) = time_merges(100_000, count);
    println!("merge {merge} {merged}");
    let (punt, served) = time_punts(0, count);
    println!("punt {punt} {served}");
    let (crowd, served) = time_punts(100, count);
    println!("crowd {crowd} {served}");
    let (asks, asked) = time_asks(count);
    println!("try {asks} {asked}");
}
