//! The lists that are run. Each is the front of an endless row of records, so
//! that a longer one begins with a shorter one; nothing is random.

use second::bounds::LIST;
use second::build::*;

/// A row of records and what it is for.
pub struct Kind {
    /// Its name.
    pub name: &'static str,
    /// What its lists hold.
    pub holds: &'static str,
    start: u32,
    record: fn(usize) -> Record,
}

/// A list of a kind.
pub struct Made {
    /// Its bytes.
    pub bytes: Vec<u8>,
    /// How many records it has.
    pub records: usize,
}

/// Every kind of list.
pub const KINDS: [Kind; 6] = [
    Kind {
        name: "queues",
        holds: "5 queues; append, read next, read at (cut), rewrite, delete, items of 4 and 16 bytes; tables stay small",
        start: 0,
        record: queues,
    },
    Kind {
        name: "full-queue",
        holds: "128 appends of 1 byte to one queue, then read at the last place but one and read next, in turn",
        start: 0,
        record: full_queue,
    },
    Kind {
        name: "starts",
        holds: "4 programs, 2 terminals; start with 8 bytes of data, start without, advance, dispatch twice, retrieve, finish twice",
        start: 0,
        record: starts,
    },
    Kind {
        name: "wrap",
        holds: "28 starts of some 300,000,000 ticks, then advance by as much, ask ticks, cancel, start again: 3 wraps, most requests left expired in the line",
        start: 0xffff_fff0,
        record: wrap,
    },
    Kind {
        name: "handlers",
        holds: "start, dispatch, then by the task: handle, a read of no queue (goes to the label), ignore, another (goes on), reset, another (abend)",
        start: 0,
        record: handlers,
    },
    Kind {
        name: "shortest",
        holds: "ask ticks alone, the shortest record: as many records as a list can have",
        start: 0,
        record: |_| ask(),
    },
];

/// Lists of nearly one command alone.
pub const ALONE: [Kind; 15] = [
    alone("define-there", "define program, of a program that is there", |_| {
        define_program(program(0))
    }),
    alone("advance-none", "advance by 1 tick, nothing waiting", |_| advance(1)),
    alone("dispatch-none", "dispatch, nothing in the line", |_| dispatch()),
    alone("start-unknown", "start, of an unknown program", |_| start("TASK", "NONE", "", 5, b"")),
    alone(
        "start",
        "start of request after request, no space from the 33rd on",
        |index| match index {
            0 => define_program(program(0)),
            _ => start(&*request('A', index), program(0), "", 5, b""),
        },
    ),
    alone("cancel-unknown", "cancel, of an unknown request", |_| cancel("NONE")),
    alone("retrieve-none", "retrieve by a task that ignores it, no data there", |index| {
        by_a_task(index, retrieve(64))
    }),
    alone("ignore", "ignore by a task", |index| by_a_task(index, ignore(9))),
    alone("append-blank", "append to a queue of no name", |_| append("", b"x")),
    alone("append", "append of 1 byte to one queue, no space from the 129th on", |_| {
        append("ONLY", b"x")
    }),
    alone("read-unknown", "read next, of an unknown queue", |_| read_next("NONE", 64)),
    alone("read-first", "read at 1, of one item of 16 bytes", |index| {
        of_one_item(index, read_at("ONLY", 1, 64))
    }),
    alone("rewrite-first", "rewrite at 1, of one item", |index| {
        of_one_item(index, rewrite("ONLY", 1, b"x"))
    }),
    alone("delete-unknown", "delete, of an unknown queue", |_| delete("NONE")),
    alone("stranger", "ask ticks, by a task that is not active", |_| ask().by("NOBODY")),
];

const fn alone(name: &'static str, holds: &'static str, record: fn(usize) -> Record) -> Kind {
    Kind { name, holds, start: 0, record }
}

/// A task is dispatched and ignores 9, and then all is its record.
fn by_a_task(index: usize, record: Record) -> Record {
    match index {
        0 => define_program(program(0)),
        1 => start("TASK", program(0), "", 0, b""),
        2 => dispatch(),
        3 => ignore(9).by("TASK"),
        _ => record.by("TASK"),
    }
}

/// An item is appended, and then all is the record.
fn of_one_item(index: usize, record: Record) -> Record {
    match index {
        0 => append("ONLY", b"0123456789abcdef"),
        _ => record,
    }
}

impl Kind {
    /// The list of `most` records, or of as many as fit 4,096 bytes.
    pub fn make(&self, most: usize) -> Made {
        let mut list = List::starting_at(self.start);
        let mut records = 0;
        while records < most {
            let record = (self.record)(records);
            if list.length() + 2 + record.bytes().len() > *LIST.end() {
                break;
            }
            list.add(&record);
            records += 1;
        }
        Made { bytes: list.finished(), records }
    }
}

fn queues(index: usize) -> Record {
    let (round, step) = (index / 10, index % 10);
    let queue: &str = ["NORTH", "EAST", "SOUTH", "WEST"][round % 4];
    match step {
        0 => append(queue, b"0123456789abcdef"),
        1 => append(queue, b"fedcba9876543210"),
        2 | 3 | 6 => read_next(queue, 64),
        4 => read_at(queue, 1, 8),
        5 => rewrite(queue, 2, b"0000111122223333"),
        7 => append("COMMON", b"item"),
        8 => read_next("COMMON", 64),
        _ => delete(queue),
    }
}

fn full_queue(index: usize) -> Record {
    match index {
        0..128 => append("FULL", b"x"),
        _ if index % 2 == 0 => read_at("FULL", 127, 64),
        _ => read_next("FULL", 64),
    }
}

fn starts(index: usize) -> Record {
    let Some(index) = index.checked_sub(6) else {
        return match index {
            0..4 => define_program(program(index)),
            _ => define_terminal(terminal(index)),
        };
    };
    let (round, step) = (index / 8, index % 8);
    let (first, other) = (request('R', round), request('S', round));
    match step {
        0 => start(&*first, program(round), terminal(round), 5, b"12345678"),
        1 => start(&*other, program(round + 1), "", 3, b""),
        2 => advance(5),
        3 | 4 => dispatch(),
        5 => retrieve(64).by(&*first),
        6 => finish().by(&*first),
        _ => finish().by(&*other),
    }
}

fn wrap(index: usize) -> Record {
    const WAITING: usize = 28;
    let again = |k: usize| {
        let interval = 300_000_000 + (k * 7_919_000 % 59_999_000) as u32;
        start(&*request('W', k), program(0), "", interval, b"")
    };
    match index {
        0 => define_program(program(0)),
        1..=WAITING => again(index - 1),
        _ => {
            let (round, step) = ((index - 1 - WAITING) / 4, (index - 1 - WAITING) % 4);
            match step {
                0 => advance(300_000_000),
                1 => ask(),
                2 => cancel(&*request('W', round % WAITING)),
                _ => again(round % WAITING),
            }
        }
    }
}

fn handlers(index: usize) -> Record {
    let Some(index) = index.checked_sub(1) else {
        return define_program(program(0));
    };
    let (round, step) = (index / 8, index % 8);
    let task = request('H', round);
    match step {
        0 => start(&*task, program(0), "", 0, b""),
        1 => dispatch(),
        2 => handle(2, 7).by(&*task),
        4 => ignore(2).by(&*task),
        6 => reset(2).by(&*task),
        _ => read_next("NOWHERE", 64).by(&*task),
    }
}

fn program(number: usize) -> &'static str {
    ["PUMP", "FANS", "BELT", "LAMP"][number % 4]
}

fn terminal(number: usize) -> &'static str {
    ["T001", "T002"][number % 2]
}

fn request(letter: char, number: usize) -> String {
    format!("{letter}{number:07}")
}
