// What both twins have: the events that sixteen tasks noted.

const TASKS: u64 = 16;

#[derive(Clone, Copy)]
#[allow(dead_code)]
enum TaskId {
    Writer(u32),
    Rescuer(u32),
    Completer(u32),
    Keeper,
}

#[derive(Clone, Copy)]
#[allow(dead_code)]
enum What {
    Push { disk: u32, at: u64, len: u64, leg: u32 },
    Round { round: u32 },
}

/// As large as an event of the program.
#[derive(Clone, Copy)]
#[allow(dead_code)]
struct Event {
    task: TaskId,
    what: What,
}

/// How many tickets in a row go to one task.
#[derive(Clone, Copy)]
enum Row {
    Turns,
    One,
    Many,
}

/// The number behind this one in a row that looks like chance (Knuth's multiplier of 64 bits).
fn next(number: u64) -> u64 {
    number.wrapping_mul(6364136223846793005).wrapping_add(1442695040888963407)
}

/// Which task draws the ticket, by the row and a number by chance.
fn task_of(row: Row, ticket: u64, chance: u64) -> u64 {
    match row {
        Row::Turns => ticket % TASKS,
        Row::One => (chance >> 33) % TASKS,
        Row::Many => (next(ticket / 64) >> 33) % TASKS,
    }
}

/// What sixteen tasks noted of so many events together.
fn noted(row: Row, count: u64) -> Vec<Vec<(u64, Event)>> {
    let mut lists: Vec<Vec<_>> = (0..TASKS).map(|_| Vec::new()).collect();
    let mut chance = 1;
    for ticket in 0..count {
        chance = next(chance);
        let task = task_of(row, ticket, chance);
        let event = Event { task: TaskId::Keeper, what: What::Push { disk: 0, at: ticket, len: 1, leg: 0 } };
        lists[task as usize].push((ticket, event));
    }
    lists
}

fn main() {
    let count = std::env::args().nth(1).and_then(|word| word.parse().ok()).unwrap_or(0);
    for (name, row) in [("turns", Row::Turns), ("chance", Row::One), ("chance64", Row::Many)] {
        let lists = noted(row, count);
        let start = Instant::now();
        let joined = join_by_ticket(lists);
        let nanoseconds = start.elapsed().as_nanos();
        std::hint::black_box(&joined);
        println!("{name} {nanoseconds} {}", joined.len());
    }
}
