//! A bench that runs records one by one and compares the printed answers.

#![allow(dead_code)] // each test file uses its own part of this one

pub use second::build::*;
use second::{print, Monitor};

/// The answer of a command that did what it says and has the number 0.
pub const OK: &str = "0 0 0 0 -";

/// A monitor under test.
pub struct Bench {
    monitor: Monitor,
}

impl Bench {
    /// Fresh tables, the register at 0.
    pub fn fresh() -> Bench {
        Bench::starting_at(0)
    }

    /// Fresh tables, the register at `start`.
    pub fn starting_at(start: u32) -> Bench {
        Bench { monitor: Monitor::fresh(start) }
    }

    /// Fresh tables with one program P and the active task T running it.
    pub fn with_task() -> Bench {
        let mut bench = Bench::fresh();
        bench.put(define_program("P"), OK);
        bench.run_task("T", "P");
        bench
    }

    /// Runs a record; the answer is given as document 01 prints it, but for
    /// its place: condition, action, label, number, bytes.
    #[track_caller]
    pub fn put(&mut self, record: Record, answer: &str) {
        assert_eq!(self.answer(&record), answer, "to {record:?}");
    }

    /// The printed answer to a record, without its place.
    pub fn answer(&mut self, record: &Record) -> String {
        let answer = self.monitor.record(&record.bytes());
        let mut line = Vec::new();
        print::print_answer(&mut line, 1, &answer);
        let line = String::from_utf8(line).expect("printed lines are ASCII");
        line.trim_end().strip_prefix("1 ").expect("the place comes first").to_string()
    }

    /// Starts a task without data or terminal and dispatches it.
    #[track_caller]
    pub fn run_task(&mut self, task: &str, program: &str) {
        self.put(start(task, program, "", 0, b""), OK);
        self.dispatches(0, task, program, "");
    }

    /// Dispatches; expects the number passed over and the three names.
    #[track_caller]
    pub fn dispatches(&mut self, passed_over: u32, request: &str, program: &str, terminal: &str) {
        let names = format!("{request:8}{program:4}{terminal:4}");
        self.put(dispatch(), &format!("0 0 0 {passed_over} {}", hex(names.as_bytes())));
    }

    /// Appends `count` items of one byte to a queue that has none yet.
    #[track_caller]
    pub fn fill(&mut self, queue: &str, count: u32) {
        for place in 1..=count {
            self.put(append(queue, &[place as u8]), &format!("0 0 0 {place} -"));
        }
    }

    /// The monitor, for looking at its tables.
    pub fn monitor(&self) -> &Monitor {
        &self.monitor
    }
}

/// Bytes in lower-case hex.
pub fn hex(bytes: &[u8]) -> String {
    bytes.iter().map(|byte| format!("{byte:02x}")).collect()
}

/// A list of these records.
pub fn list_of(start: u32, records: &[Record]) -> Vec<u8> {
    let mut list = List::starting_at(start);
    for record in records {
        list.add(record);
    }
    list.finished()
}

/// The printed lines of a list.
pub fn printed(list: &[u8]) -> String {
    let mut out = Vec::new();
    print::print_list(&mut out, list);
    String::from_utf8(out).expect("printed lines are ASCII")
}
