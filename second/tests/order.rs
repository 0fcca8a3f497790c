//! The order of checks: where two conditions hold, the earlier wins.

mod common;

use common::*;

/// Every command, well-formed, with operands that are refused by its row.
fn every_command() -> Vec<Record> {
    vec![
        define_program(""),
        define_terminal(""),
        advance(u32::MAX),
        ask(),
        dispatch(),
        start("", "", "", u32::MAX, &[0; 65]),
        cancel(""),
        retrieve(0),
        finish(),
        append("", b""),
        read_next("", 0),
        read_at("", 0, 0),
        rewrite("", 0, b""),
        delete(""),
        handle(11, 0),
        ignore(11),
        reset(11),
    ]
}

#[test]
fn malformed_before_stranger() {
    let mut m = Bench::fresh();
    for record in every_command() {
        let (command, operands) = record.parts();
        // Too long; for those with a rest, too short.
        let wrong = match command {
            6 | 10 | 13 => Record::raw(command, &operands[..7]),
            _ => Record::raw(command, &[operands, &[0]].concat()),
        };
        m.put(wrong.clone(), "33 0 0 0 -");
        m.put(wrong.by("NOBODY"), "33 0 0 0 -");
    }
}

#[test]
fn operands_a_byte_short_are_malformed() {
    let mut m = Bench::fresh();
    for record in every_command() {
        let (command, operands) = record.parts();
        let least = match command {
            6 => 20,
            10 => 8,
            13 => 10,
            _ => operands.len(),
        };
        if least > 0 {
            m.put(Record::raw(command, &operands[..least - 1]), "33 0 0 0 -");
        }
    }
}

#[test]
fn commands_outside_1_to_17_are_malformed() {
    let mut m = Bench::with_task();
    for command in (18..=255).chain([0]) {
        m.put(Record::raw(command, b"").by("NOBODY"), "33 0 0 0 -");
        m.put(Record::raw(command, b"").by("T"), "33 0 0 0 -"); // and no abend
    }
    m.put(ask().by("T"), OK);
}

#[test]
fn stranger_before_the_row() {
    let mut m = Bench::fresh();
    for record in every_command() {
        m.put(record.by("NOBODY"), "34 0 0 0 -");
    }
}

#[test]
fn only_an_active_task_is_no_stranger() {
    let mut m = Bench::with_task();
    m.put(start("EXPIRED", "P", "", 0, b""), OK);
    m.put(start("WAITING", "P", "", 1, b""), OK);
    m.put(ask().by("EXPIRED"), "34 0 0 0 -");
    m.put(ask().by("WAITING"), "34 0 0 0 -");
    m.put(ask().by("P"), "34 0 0 0 -"); // a program is no task
    m.put(finish().by("T"), OK);
    m.put(finish().by("T"), "34 0 0 0 -"); // nor is a finished one
}

#[test]
fn wrong_issuer_before_the_row() {
    let mut m = Bench::with_task();
    m.put(handle(10, 77).by("T"), OK);
    // 7 and 8 would come from these rows, were the issuer the right one.
    m.put(define_program("P").by("T"), "10 1 77 0 -");
    m.put(define_terminal("X").by("T"), "10 1 77 0 -");
    m.put(advance(1).by("T"), "10 1 77 0 -");
    m.put(dispatch().by("T"), "10 1 77 0 -"); // number 0, not the line's length
    for record in [retrieve(0), finish(), handle(1, 1), ignore(1), reset(1)] {
        m.put(record, "10 0 0 0 -");
    }
    m.put(ask(), OK); // the clock has not moved
    m.put(start("R", "P", "X", 0, b""), "6 0 0 0 -"); // and X is unknown
}

#[test]
fn define_blank_then_known_then_full() {
    let mut m = Bench::fresh();
    for number in 1..=16 {
        m.put(define_program(format!("P{number}").as_str()), OK);
    }
    m.put(define_program(""), "10 0 0 0 -");
    m.put(define_program("P1"), "7 0 0 0 -");
    m.put(define_program("P17"), "1 0 0 0 -");
    for number in 1..=8 {
        m.put(define_terminal(format!("T{number}").as_str()), OK);
    }
    m.put(define_terminal(""), "10 0 0 0 -");
    m.put(define_terminal("T8"), "7 0 0 0 -");
    m.put(define_terminal("T9"), "1 0 0 0 -");
}

#[test]
fn start_by_its_row() {
    let mut m = Bench::fresh();
    m.put(define_program("P"), OK);
    for number in 1..=32 {
        m.put(start(format!("R{number}").as_str(), "P", "", 1, b""), OK);
    }
    let long = &[0; 65];
    m.put(start("", "P", "", 1, long), "10 0 0 0 -");
    m.put(start("R1", "X", "X", 359_999_001, long), "10 0 0 0 -");
    m.put(start("R1", "X", "X", 1, long), "4 0 0 0 -");
    m.put(start("R1", "X", "X", 1, b""), "5 0 0 0 -");
    m.put(start("R1", "P", "X", 1, b""), "6 0 0 0 -");
    m.put(start("R1", "P", "", 1, b""), "7 0 0 0 -");
    m.put(start("R33", "P", "", 1, b""), "1 0 0 0 -");
}

#[test]
fn start_with_a_blank_program_is_unknown() {
    let mut m = Bench::fresh();
    m.put(start("R1", "", "", 1, b""), "5 0 0 0 -");
}

#[test]
fn cancel_blank_before_not_found() {
    let mut m = Bench::fresh();
    m.put(cancel(""), "10 0 0 0 -");
    m.put(cancel("R"), "8 0 0 0 -");
}

#[test]
fn retrieve_end_of_data_before_length() {
    let mut m = Bench::with_task();
    m.put(retrieve(0).by("T"), "9 2 0 0 -");
}

#[test]
fn append_by_its_row() {
    let mut m = Bench::fresh();
    m.fill("Q", 128);
    m.put(append("", b""), "10 0 0 0 -");
    m.put(append("", b"x"), "10 0 0 0 -");
    m.put(append("Q", b""), "4 0 0 0 -");
    m.put(append("NEW", &[0; 65]), "4 0 0 0 -");
    m.put(read_next("NEW", 0), "2 0 0 0 -"); // 4 makes no queue
    m.put(append("Q", b"x"), "1 0 0 0 -");
}

#[test]
fn reads_by_their_rows() {
    let mut m = Bench::fresh();
    m.fill("Q", 1);
    m.put(read_next("", 0), "10 0 0 0 -");
    m.put(read_at("", 0, 0), "10 0 0 0 -");
    m.put(read_next("X", 0), "2 0 0 0 -");
    m.put(read_at("X", 0, 0), "2 0 0 0 -");
    m.put(read_at("Q", 0, 0), "3 0 0 0 -");
    m.put(read_next("Q", 0), "4 0 0 1 -");
    m.put(read_next("Q", 0), "3 0 0 0 -");
}

#[test]
fn rewrite_by_its_row() {
    let mut m = Bench::fresh();
    m.fill("Q", 1);
    m.put(rewrite("", 0, b""), "10 0 0 0 -");
    m.put(rewrite("X", 0, b""), "4 0 0 0 -");
    m.put(rewrite("Q", 0, &[0; 65]), "4 0 0 0 -");
    m.put(rewrite("X", 0, b"x"), "2 0 0 0 -");
    m.put(rewrite("Q", 0, b"x"), "3 0 0 0 -");
    m.put(rewrite("Q", 1, b"x"), OK);
}

#[test]
fn delete_blank_before_unknown() {
    let mut m = Bench::fresh();
    m.put(delete(""), "10 0 0 0 -");
    m.put(delete("X"), "2 0 0 0 -");
}
