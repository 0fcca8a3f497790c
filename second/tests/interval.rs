//! Document 01, "Interval rules".

mod common;

use common::*;

/// Programs P1 to P4 and terminals T1 and T2.
fn cabinet(start: u32) -> Bench {
    let mut m = Bench::starting_at(start);
    for program in ["P1", "P2", "P3", "P4"] {
        m.put(define_program(program), OK);
    }
    for terminal in ["T1", "T2"] {
        m.put(define_terminal(terminal), OK);
    }
    m
}

#[test]
fn expired_as_soon_as_due_is_at_most_the_clock() {
    let mut m = cabinet(0);
    m.put(start("R", "P1", "", 5, b""), OK);
    m.put(advance(4), OK);
    m.put(dispatch(), "8 0 0 0 -");
    m.put(advance(0), OK);
    m.put(advance(1), "0 0 0 1 -");
    m.dispatches(0, "R", "P1", "");
}

#[test]
fn interval_0_expires_at_once_and_is_not_newly_expired_later() {
    let mut m = cabinet(0);
    m.put(start("R", "P1", "", 0, b""), OK);
    m.put(advance(10), OK);
    m.dispatches(0, "R", "P1", "");
}

#[test]
fn the_line_is_ordered_by_due() {
    let mut m = cabinet(0);
    m.put(start("LATE", "P1", "", 30, b""), OK);
    m.put(start("MIDDLE", "P2", "", 20, b""), OK);
    m.put(start("EARLY", "P3", "", 10, b""), OK);
    m.put(advance(30), "0 0 0 3 -");
    m.dispatches(0, "EARLY", "P3", "");
    m.dispatches(0, "MIDDLE", "P2", "");
    m.dispatches(0, "LATE", "P1", "");
}

#[test]
fn interval_0_stands_behind_all_that_expired_before() {
    let mut m = cabinet(0);
    m.put(start("A", "P1", "", 10, b""), OK);
    m.put(advance(10), "0 0 0 1 -");
    m.put(start("B", "P2", "", 0, b""), OK); // same due as A, accepted later
    m.put(start("C", "P3", "", 1, b""), OK);
    m.put(advance(1), "0 0 0 1 -");
    m.dispatches(0, "A", "P1", "");
    m.dispatches(0, "B", "P2", "");
    m.dispatches(0, "C", "P3", "");
}

#[test]
fn order_of_acceptance_among_32_requests_due_at_two_ticks() {
    let mut m = cabinet(0);
    // Accepted at 32 different clocks; every other one is due a tick later.
    let names: Vec<String> = (0..32).map(|number| format!("R{}", number * 7 % 32)).collect();
    for (clock, name) in (0..).zip(&names) {
        m.put(start(name.as_str(), "P1", "", 40 + clock % 2 - clock, b""), OK);
        m.put(advance(1), OK);
    }
    m.put(advance(9), "0 0 0 32 -");
    let (even, odd) = (names.iter().step_by(2), names.iter().skip(1).step_by(2));
    for name in even.chain(odd) {
        m.dispatches(0, name, "P1", "");
        m.put(finish().by(name.as_str()), OK);
    }
}

#[test]
fn order_of_acceptance_survives_cancels() {
    let mut m = cabinet(0);
    for (request, program) in [("Z", "P1"), ("Y", "P2"), ("X", "P3"), ("W", "P4")] {
        m.put(start(request, program, "", 9, b""), OK);
    }
    m.put(cancel("Y"), OK);
    m.put(start("Y", "P2", "", 9, b""), OK); // accepted last now
    m.put(advance(9), "0 0 0 4 -");
    for (request, program) in [("Z", "P1"), ("X", "P3"), ("W", "P4"), ("Y", "P2")] {
        m.dispatches(0, request, program, "");
    }
}

#[test]
fn a_name_used_again_goes_to_the_end_of_the_line() {
    let mut m = cabinet(0);
    m.put(start("A", "P1", "", 0, b""), OK);
    m.put(start("B", "P2", "", 0, b""), OK);
    m.put(cancel("A"), OK);
    m.put(start("C", "P3", "", 0, b""), OK);
    m.put(start("A", "P1", "", 0, b""), OK);
    m.dispatches(0, "B", "P2", "");
    m.dispatches(0, "C", "P3", "");
    m.dispatches(0, "A", "P1", "");
}

#[test]
fn due_beyond_the_wrap_of_the_register() {
    let mut m = cabinet(0xffff_fffe);
    m.put(start("BEYOND", "P1", "", 5, b""), OK);
    m.put(start("BEFORE", "P2", "", 1, b""), OK);
    m.put(advance(4), "0 0 0 1 -");
    m.put(ask(), "0 0 0 2 -");
    m.dispatches(0, "BEFORE", "P2", "");
    m.put(dispatch(), "8 0 0 0 -");
    m.put(advance(1), "0 0 0 1 -");
    m.dispatches(0, "BEYOND", "P1", "");
}

#[test]
fn the_line_keeps_its_order_however_long_it_waits() {
    let mut m = cabinet(0);
    m.put(start("B", "P1", "", 1, b""), OK);
    m.put(start("A", "P2", "", 2, b""), OK);
    m.put(advance(2), "0 0 0 2 -");
    for _ in 0..3 {
        m.put(advance(1_000_000_000), OK); // beyond half of the circle
    }
    m.put(start("C", "P3", "", 1, b""), OK);
    m.put(advance(1_000_000_000), "0 0 0 1 -");
    m.put(advance(1_000_000_000), OK); // the register has gone round
    m.put(start("D", "P4", "", 1, b""), OK); // its due is below C's on the register
    m.put(advance(1), "0 0 0 1 -");
    for (request, program) in [("B", "P1"), ("A", "P2"), ("C", "P3"), ("D", "P4")] {
        m.dispatches(0, request, program, "");
    }
}

#[test]
fn the_longest_wait_is_not_cut_short_by_the_wrap() {
    let mut m = cabinet(u32::MAX - 100);
    m.put(start("R", "P1", "", 359_999_000, b""), OK);
    m.put(advance(359_998_999), OK);
    m.put(advance(1), "0 0 0 1 -");
}

#[test]
fn dispatch_passes_over_what_cannot_start() {
    let mut m = cabinet(0);
    m.put(start("A", "P1", "T1", 0, b""), OK);
    m.put(start("B", "P1", "T2", 0, b""), OK); // A's program
    m.put(start("C", "P2", "T1", 0, b""), OK); // A's terminal
    m.put(start("D", "P3", "", 0, b""), OK);
    m.put(start("E", "P4", "T2", 0, b""), OK);
    m.dispatches(0, "A", "P1", "T1");
    m.dispatches(2, "D", "P3", "");
    m.dispatches(2, "E", "P4", "T2");
    m.put(dispatch(), "8 0 0 2 -"); // the whole line's length
    m.put(finish().by("A"), OK);
    m.dispatches(1, "C", "P2", "T1"); // E holds the terminal of B
    m.put(finish().by("E"), OK);
    m.dispatches(0, "B", "P1", "T2");
    m.put(dispatch(), "8 0 0 0 -");
}

#[test]
fn several_tasks_hold_no_terminal() {
    let mut m = cabinet(0);
    m.run_task("A", "P1");
    m.run_task("B", "P2");
    m.run_task("C", "P3");
}

#[test]
fn nothing_startable_counts_the_whole_line() {
    let mut m = cabinet(0);
    m.run_task("A", "P1");
    for request in ["B", "C", "D"] {
        m.put(start(request, "P1", "", 0, b""), OK);
    }
    m.put(start("E", "P2", "", 1, b""), OK); // waiting, not in the line
    m.put(dispatch(), "8 0 0 3 -");
}

#[test]
fn retrieve_gives_own_data_once() {
    let mut m = cabinet(0);
    m.put(start("A", "P1", "", 0, b"own"), OK);
    m.dispatches(0, "A", "P1", "");
    m.put(ignore(0).by("A"), OK);
    m.put(retrieve(64).by("A"), "0 0 0 3 6f776e");
    m.put(retrieve(64).by("A"), "9 0 0 0 -");
}

#[test]
fn retrieve_then_takes_from_the_line_in_its_order() {
    let mut m = cabinet(0);
    m.put(start("A", "P1", "T1", 0, b"own"), OK);
    m.put(start("OTHERP", "P2", "T1", 0, b"x"), OK);
    m.put(start("OTHERT", "P1", "T2", 0, b"x"), OK);
    m.put(start("NONE", "P1", "", 0, b"x"), OK);
    m.put(start("NODATA", "P1", "T1", 0, b""), OK);
    m.put(start("LATER", "P1", "T1", 2, b"2"), OK);
    m.put(start("SOONER", "P1", "T1", 1, b"1"), OK);
    m.put(start("WAITING", "P1", "T1", 3, b"w"), OK);
    m.put(advance(2), "0 0 0 2 -");
    m.dispatches(0, "A", "P1", "T1");
    m.put(ignore(0).by("A"), OK);
    m.put(retrieve(64).by("A"), "0 0 0 3 6f776e");
    m.put(retrieve(64).by("A"), "0 0 0 1 31");
    m.put(retrieve(64).by("A"), "0 0 0 1 32");
    m.put(retrieve(64).by("A"), "9 0 0 0 -");
    m.put(dispatch(), "8 0 0 4 -"); // the two retrieved are gone
    m.put(start("SOONER", "P1", "", 1, b""), OK); // and their names are free
    m.put(start("NODATA", "P1", "", 1, b""), "7 0 0 0 -");
}

#[test]
fn a_task_without_data_goes_on_to_the_line_and_none_equals_none() {
    let mut m = cabinet(0);
    m.run_task("A", "P1");
    m.put(start("B", "P1", "", 0, b"other"), OK);
    m.put(retrieve(64).by("A"), "0 0 0 5 6f74686572");
    m.put(cancel("B"), "8 0 0 0 -");
}

#[test]
fn the_line_keeps_its_order_when_a_request_is_retrieved_or_cancelled() {
    let mut m = cabinet(0);
    m.run_task("A", "P1");
    m.put(start("B", "P2", "", 0, b""), OK);
    m.put(start("C", "P1", "", 0, b"c"), OK);
    m.put(start("D", "P2", "", 0, b"d"), OK);
    m.put(start("E", "P3", "", 0, b"e"), OK);
    m.put(start("F", "P4", "", 0, b"f"), OK);
    m.put(retrieve(64).by("A"), "0 0 0 1 63");
    m.put(cancel("B"), OK);
    m.dispatches(0, "D", "P2", "");
    m.dispatches(0, "E", "P3", "");
    m.dispatches(0, "F", "P4", "");
}

#[test]
fn data_cut_by_the_room_counts_as_taken() {
    let mut m = cabinet(0);
    m.put(start("A", "P1", "", 0, b"own"), OK);
    m.put(start("B", "P1", "", 0, b"other"), OK);
    m.dispatches(0, "A", "P1", "");
    m.put(ignore(0).by("A"), OK);
    m.put(retrieve(2).by("A"), "4 0 0 3 6f77");
    m.put(retrieve(0).by("A"), "4 0 0 5 -");
    m.put(retrieve(64).by("A"), "9 0 0 0 -");
    m.put(cancel("B"), "8 0 0 0 -");
}

#[test]
fn start_data_of_up_to_64_bytes() {
    let mut m = cabinet(0);
    m.put(start("A", "P1", "", 0, &[0xcd; 64]), OK);
    m.put(start("B", "P1", "", 0, &[0xcd; 65]), "4 0 0 0 -");
    m.dispatches(0, "A", "P1", "");
    m.put(retrieve(64).by("A"), &format!("0 0 0 64 {}", "cd".repeat(64)));
}

#[test]
fn cancel_removes_waiting_and_expired_but_not_active() {
    let mut m = Bench::with_task();
    m.put(start("WAITING", "P", "", 1, b""), OK);
    m.put(start("EXPIRED", "P", "", 0, b""), OK);
    m.put(cancel("T"), "8 0 0 0 -");
    m.put(cancel("WAITING"), OK);
    m.put(cancel("EXPIRED"), OK);
    m.put(cancel("WAITING"), "8 0 0 0 -");
    m.put(cancel("EXPIRED"), "8 0 0 0 -");
    m.put(ask().by("T"), OK);
    m.put(advance(1), OK); // nothing left to expire
}

#[test]
fn a_name_is_in_use_until_it_is_removed() {
    let mut m = Bench::with_task();
    m.put(start("T", "P", "", 0, b""), "7 0 0 0 -");
    m.put(start("W", "P", "", 1, b""), OK);
    m.put(start("W", "P", "", 1, b""), "7 0 0 0 -");
    m.put(advance(1), "0 0 0 1 -");
    m.put(start("W", "P", "", 1, b""), "7 0 0 0 -");
    m.put(finish().by("T"), OK);
    m.put(start("T", "P", "", 0, b""), OK);
}

#[test]
fn finish_removes_the_task_and_its_data() {
    let mut m = cabinet(0);
    m.put(start("A", "P1", "T1", 0, b"own"), OK);
    m.dispatches(0, "A", "P1", "T1");
    m.put(finish().by("A"), OK);
    m.put(start("A", "P1", "T1", 0, b""), OK);
    m.dispatches(0, "A", "P1", "T1");
    m.put(retrieve(64).by("A"), "9 2 0 0 -");
}

#[test]
fn tasks_may_start_cancel_and_ask() {
    let mut m = Bench::with_task();
    m.put(start("R", "P", "", 5, b"").by("T"), OK);
    m.put(cancel("R").by("T"), OK);
    m.put(advance(3), OK);
    m.put(ask().by("T"), "0 0 0 3 -");
}

#[test]
fn the_register_appears_in_ask_only_and_wraps() {
    let mut m = Bench::starting_at(u32::MAX);
    m.put(ask(), "0 0 0 4294967295 -");
    m.put(advance(1), OK);
    m.put(ask(), OK);
}
