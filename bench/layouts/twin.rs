//! `layout` in plain Rust, for texts of `disk`, `limit` and `write` lines that are in order: it reads a text, makes all fragments, and then writes
//! a line for each through a `BufWriter`.
use std::io::{BufWriter, Read, Write, stdin, stdout};

enum Kind {
    Disk,
    Limit { max: u64, below: usize },
}

struct Device {
    name: String,
    kind: Kind,
}

struct Task {
    dev: usize,
    start: u64,
    count: u64,
}

struct Fragment {
    write: u32,
    offset: u64,
    len: u64,
    disk: usize,
    at: u64,
}

fn find(devices: &[Device], name: &str) -> usize {
    devices.iter().position(|device| device.name == name).expect("a device that was declared")
}

fn number(word: &str) -> u64 {
    word.parse().expect("a number")
}

fn read(text: &str) -> (Vec<Device>, Vec<Task>) {
    let (mut devices, mut tasks) = (Vec::new(), Vec::new());
    for line in text.lines() {
        let words: Vec<&str> = line.split_ascii_whitespace().collect();
        match words[..] {
            ["disk", name, _sectors] => devices.push(Device { name: name.to_owned(), kind: Kind::Disk }),
            ["limit", name, max, below] => {
                let max = number(max.strip_prefix("max=").expect("max="));
                let below = find(&devices, below);
                devices.push(Device { name: name.to_owned(), kind: Kind::Limit { max, below } });
            }
            ["write", _task, dev, start, count, _tag] => {
                tasks.push(Task { dev: find(&devices, dev), start: number(start), count: number(count) });
            }
            _ => {}
        }
    }
    (devices, tasks)
}

fn add(devices: &[Device], write: u32, offset: u64, dev: usize, start: u64, count: u64, all: &mut Vec<Fragment>) {
    match devices[dev].kind {
        Kind::Disk => all.push(Fragment { write, offset, len: count, disk: dev, at: start }),
        Kind::Limit { max, below } => {
            let mut done = 0;
            while done < count {
                let len = max.min(count - done);
                add(devices, write, offset + done, below, start + done, len, all);
                done += len;
            }
        }
    }
}

fn main() -> std::io::Result<()> {
    let mut text = String::new();
    stdin().read_to_string(&mut text)?;
    let (devices, tasks) = read(&text);
    let mut all = Vec::new();
    for (write, task) in tasks.iter().enumerate() {
        let from = all.len();
        add(&devices, write as u32, 0, task.dev, task.start, task.count, &mut all);
        all[from..].sort_by_key(|fragment| (fragment.offset, fragment.disk));
    }
    let mut out = BufWriter::new(stdout().lock());
    for Fragment { write, offset, len, disk, at } in &all {
        writeln!(out, "fragment {write} {offset} {len} {} {at}", devices[*disk].name)?;
    }
    out.flush()
}
