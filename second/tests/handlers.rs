//! Document 01, "Handler rules".

mod common;

use common::*;

/// What the task T gets from a read of an unknown queue (condition 2).
fn unknown_queue() -> Record {
    read_next("NONE", 64).by("T")
}

#[test]
fn own_setting_before_the_general_one() {
    let mut m = Bench::with_task();
    m.put(handle(0, 100).by("T"), OK);
    m.put(handle(2, 200).by("T"), OK);
    m.put(unknown_queue(), "2 1 200 0 -");
    m.put(ignore(2).by("T"), OK);
    m.put(unknown_queue(), "2 0 0 0 -");
    m.put(cancel("NONE").by("T"), "8 1 100 0 -");
}

#[test]
fn ignore_in_general_and_a_label_of_its_own() {
    let mut m = Bench::with_task();
    m.put(ignore(0).by("T"), OK);
    m.put(handle(2, 65535).by("T"), OK);
    m.put(unknown_queue(), "2 1 65535 0 -");
    m.put(cancel("NONE").by("T"), "8 0 0 0 -");
}

#[test]
fn the_general_setting_stands_for_every_condition() {
    let mut m = Bench::with_task();
    m.put(handle(0, 9).by("T"), OK);
    m.fill("Q", 128);
    let conditions = [
        (append("Q", b"x"), 1),
        (delete("NONE"), 2),
        (read_at("Q", 0, 1), 3),
        (append("Q", b""), 4),
        (start("R", "NONE", "", 0, b""), 5),
        (start("R", "P", "NONE", 0, b""), 6),
        (start("T", "P", "", 0, b""), 7),
        (cancel("T"), 8),
        (retrieve(1), 9),
        (cancel(""), 10),
    ];
    for (record, condition) in conditions {
        m.put(record.by("T"), &format!("{condition} 1 9 0 -"));
    }
}

#[test]
fn reset_gives_the_decision_back() {
    let mut m = Bench::with_task();
    m.put(handle(0, 1).by("T"), OK);
    m.put(handle(2, 2).by("T"), OK);
    m.put(reset(2).by("T"), OK);
    m.put(unknown_queue(), "2 1 1 0 -");
    m.put(reset(0).by("T"), OK);
    m.put(unknown_queue(), "2 2 0 0 -");
}

#[test]
fn reset_of_the_general_setting_keeps_the_others() {
    let mut m = Bench::with_task();
    m.put(ignore(0).by("T"), OK);
    m.put(handle(2, 2).by("T"), OK);
    m.put(reset(0).by("T"), OK);
    m.put(unknown_queue(), "2 1 2 0 -");
    m.put(cancel("NONE").by("T"), "8 2 0 0 -");
}

#[test]
fn a_setting_for_one_condition_does_not_stand_for_another() {
    let mut m = Bench::with_task();
    m.put(ignore(3).by("T"), OK);
    m.put(unknown_queue(), "2 2 0 0 -");
}

#[test]
fn condition_0_goes_on_whatever_the_general_setting() {
    let mut m = Bench::with_task();
    m.put(handle(0, 5).by("T"), OK);
    m.put(ask().by("T"), OK);
    m.put(append("Q", b"x").by("T"), "0 0 0 1 -");
}

#[test]
fn conditions_above_10_and_label_0_are_refused() {
    let mut m = Bench::with_task();
    m.put(ignore(10).by("T"), OK);
    m.put(handle(1, 0).by("T"), "10 0 0 0 -");
    m.put(handle(0, 0).by("T"), "10 0 0 0 -");
    for condition in [11, 33, 255] {
        m.put(handle(condition, 1).by("T"), "10 0 0 0 -");
        m.put(ignore(condition).by("T"), "10 0 0 0 -");
        m.put(reset(condition).by("T"), "10 0 0 0 -");
    }
    m.put(handle(10, 1).by("T"), OK);
    m.put(handle(11, 1).by("T"), "10 1 1 0 -");
    m.put(reset(10).by("T"), OK);
    m.put(ignore(11).by("T"), "10 2 0 0 -"); // by its own settings, it abends
}

#[test]
fn a_refused_handle_keeps_the_setting() {
    let mut m = Bench::with_task();
    m.put(handle(2, 7).by("T"), OK);
    m.put(ignore(10).by("T"), OK);
    m.put(handle(2, 0).by("T"), "10 0 0 0 -");
    m.put(unknown_queue(), "2 1 7 0 -");
}

#[test]
fn settings_belong_to_one_task() {
    let mut m = Bench::with_task();
    m.put(define_program("P2"), OK);
    m.run_task("U", "P2");
    m.put(ignore(0).by("T"), OK);
    m.put(handle(2, 4).by("U"), OK);
    m.put(unknown_queue(), "2 0 0 0 -");
    m.put(read_next("NONE", 64).by("U"), "2 1 4 0 -");
    m.put(cancel("NONE").by("U"), "8 2 0 0 -");
    m.put(ask().by("T"), OK); // U's abend leaves T alone
}

#[test]
fn all_are_unset_at_dispatch() {
    for end in [finish(), define_program("").by("T")] {
        let mut m = Bench::with_task();
        m.put(ignore(2).by("T"), OK);
        m.answer(&end.by("T")); // a finish, or an abend by 10
        m.run_task("T", "P"); // the same name again
        m.put(unknown_queue(), "2 2 0 0 -");
    }
}

#[test]
fn for_the_system_the_action_is_always_0() {
    let mut m = Bench::with_task();
    m.put(handle(0, 5).by("T"), OK);
    m.put(read_next("NONE", 64), "2 0 0 0 -");
    m.put(cancel(""), "10 0 0 0 -");
}

#[test]
fn a_wrong_kind_of_issuer_passes_the_handlers() {
    for record in [define_program("X"), define_terminal("X"), advance(1), dispatch()] {
        let mut m = Bench::with_task();
        m.put(handle(10, 3).by("T"), OK);
        m.put(record.clone().by("T"), "10 1 3 0 -");
        m.put(ignore(10).by("T"), OK);
        m.put(record.clone().by("T"), "10 0 0 0 -");
        m.put(reset(10).by("T"), OK);
        m.put(record.by("T"), "10 2 0 0 -");
        m.put(ask().by("T"), "34 0 0 0 -");
    }
}

#[test]
fn abend_frees_the_program_and_the_terminal() {
    let mut m = Bench::fresh();
    m.put(define_program("P1"), OK);
    m.put(define_program("P2"), OK);
    m.put(define_terminal("TERM"), OK);
    m.put(start("T", "P1", "TERM", 0, b""), OK);
    m.put(start("SAME T", "P2", "TERM", 0, b""), OK);
    m.put(start("SAME P", "P1", "", 0, b""), OK);
    m.dispatches(0, "T", "P1", "TERM");
    m.put(dispatch(), "8 0 0 2 -");
    m.put(unknown_queue(), "2 2 0 0 -");
    m.dispatches(0, "SAME T", "P2", "TERM");
    m.dispatches(0, "SAME P", "P1", "");
    m.put(start("T", "P1", "TERM", 0, b""), OK); // and the name
}

#[test]
fn abend_comes_besides_what_the_command_did() {
    // A cut read of the queue moves the pointer all the same.
    let mut m = Bench::with_task();
    m.put(append("Q", b"first"), "0 0 0 1 -");
    m.put(append("Q", b"second"), "0 0 0 2 -");
    m.put(read_next("Q", 1).by("T"), "4 2 0 5 66");
    m.put(read_next("Q", 64), "0 0 0 6 7365636f6e64");
    // A refused append at 128 items leaves the empty queue.
    m.run_task("T", "P");
    m.fill("FULL", 126);
    m.put(append("NEW", b"x").by("T"), "1 2 0 0 -");
    m.put(read_next("NEW", 64), "3 0 0 0 -");
    m.put(ask().by("T"), "34 0 0 0 -");
}

#[test]
fn abend_after_a_cut_retrieve_removes_the_task_and_the_other_request() {
    let mut m = Bench::with_task();
    m.put(start("OTHER", "P", "", 0, b"data"), OK);
    m.put(retrieve(1).by("T"), "4 2 0 4 64");
    m.put(ask().by("T"), "34 0 0 0 -");
    m.put(dispatch(), "8 0 0 0 -"); // the line is empty
    m.put(start("OTHER", "P", "", 0, b""), OK);
    m.put(start("T", "P", "", 0, b""), OK);
}

#[test]
fn abend_after_own_data_was_cut() {
    let mut m = Bench::fresh();
    m.put(define_program("P"), OK);
    m.put(start("T", "P", "", 0, b"data"), OK);
    m.dispatches(0, "T", "P", "");
    m.put(retrieve(3).by("T"), "4 2 0 4 646174");
    m.put(retrieve(3).by("T"), "34 0 0 0 -");
}

#[test]
fn the_action_alters_neither_number_nor_bytes() {
    let mut m = Bench::with_task();
    m.put(append("Q", b"item"), "0 0 0 1 -");
    m.put(handle(4, 8).by("T"), OK);
    m.put(read_at("Q", 1, 2).by("T"), "4 1 8 4 6974");
    m.put(ignore(4).by("T"), OK);
    m.put(read_at("Q", 1, 2).by("T"), "4 0 0 4 6974");
    m.put(reset(4).by("T"), OK);
    m.put(read_at("Q", 1, 2).by("T"), "4 2 0 4 6974");
}

#[test]
fn handling_and_ignoring_change_no_other_table() {
    let mut m = Bench::with_task();
    m.put(start("R", "P", "", 0, b"d"), OK);
    m.put(ignore(0).by("T"), OK);
    m.put(start("R", "P", "", 0, b"e").by("T"), "7 0 0 0 -");
    m.put(handle(7, 1).by("T"), OK);
    m.put(start("R", "P", "", 0, b"f").by("T"), "7 1 1 0 -");
    m.put(retrieve(64).by("T"), "0 0 0 1 64");
}

#[test]
fn malformed_records_and_strangers_pass_by_the_handlers() {
    let mut m = Bench::with_task();
    m.put(handle(0, 5).by("T"), OK);
    m.put(Record::raw(4, b"x").by("T"), "33 0 0 0 -");
    m.put(reset(0).by("T"), OK);
    m.put(Record::raw(99, b"").by("T"), "33 0 0 0 -");
    m.put(ask().by("T"), OK); // no abend
}
