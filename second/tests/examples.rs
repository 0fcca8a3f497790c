//! Document 01, "Examples to prove (P) or run (R)".

mod common;

use common::*;

const P1_LIST: &str = "
    0000005c 01 fffffffa
    000d 01 2020202020202020 53504544
    001d 06 2020202020202020 5230303030303031 53504544 20202020 0000000a
    000d 03 2020202020202020 00000009
    000d 03 2020202020202020 00000001
    0009 04 2020202020202020";

const P1_LINES: &str = "\
1 0 0 0 0 -
2 0 0 0 0 -
3 0 0 0 0 -
4 0 0 0 1 -
5 0 0 0 4 -
";

#[test]
fn p1_the_list_and_its_lines() {
    let digits: String = P1_LIST.split_whitespace().collect();
    let list = second::hex::read(digits.as_bytes()).expect("the list is hex");
    assert_eq!(printed(&list), P1_LINES);
}

#[test]
fn p1_the_builders_make_the_same_list() {
    let records = [
        define_program("SPED"),
        start("R0000001", "SPED", "", 10, b""),
        advance(9),
        advance(1),
        ask(),
    ];
    let digits: String = P1_LIST.split_whitespace().collect();
    assert_eq!(hex(&list_of(0xffff_fffa, &records)), digits);
}

#[test]
fn p2_the_longest_interval() {
    let mut m = Bench::fresh();
    m.put(define_program("P"), OK);
    m.put(start("R1", "P", "", 359_999_000, b""), OK);
    m.put(start("R2", "P", "", 359_999_001, b""), "10 0 0 0 -");
    m.put(start("R2", "P", "", u32::MAX, b""), "10 0 0 0 -");
}

#[test]
fn p3_the_longest_advance() {
    let mut m = Bench::fresh();
    m.put(advance(1_000_000_000), OK);
    m.put(advance(1_000_000_001), "10 0 0 0 -");
    m.put(advance(u32::MAX), "10 0 0 0 -");
    m.put(ask(), "0 0 0 1000000000 -");
}

#[test]
fn p4_the_length_of_an_item() {
    let mut m = Bench::fresh();
    m.put(append("Q", &[7; 64]), "0 0 0 1 -");
    m.put(append("Q", &[7; 65]), "4 0 0 0 -");
    m.put(append("Q", b""), "4 0 0 0 -");
    m.put(append("Q", b"x"), "0 0 0 2 -");
}

#[test]
fn p5_places_outside_the_queue() {
    let mut m = Bench::fresh();
    m.fill("Q", 2);
    for place in [0, 3, 65535] {
        m.put(read_at("Q", place, 64), "3 0 0 0 -");
        m.put(rewrite("Q", place, b"x"), "3 0 0 0 -");
    }
    m.put(read_at("Q", 2, 64), "0 0 0 1 02");
}

#[test]
fn p6_read_next_to_the_end_and_after_a_read_at() {
    let mut m = Bench::fresh();
    m.fill("Q", 2);
    m.put(read_next("Q", 64), "0 0 0 1 01");
    m.put(read_next("Q", 64), "0 0 0 1 02");
    m.put(read_next("Q", 64), "3 0 0 0 -");
    m.put(read_at("Q", 1, 64), "0 0 0 1 01");
    m.put(read_next("Q", 64), "0 0 0 1 02");
}

#[test]
fn p7_no_room_for_an_item() {
    let mut m = Bench::fresh();
    m.fill("Q", 1);
    m.put(read_next("Q", 0), "4 0 0 1 -");
    m.put(read_next("Q", 0), "3 0 0 0 -"); // the pointer has moved
}

#[test]
fn p8_starts_due_at_the_same_tick() {
    let mut m = Bench::fresh();
    m.put(define_program("P1"), OK);
    m.put(define_program("P2"), OK);
    m.put(start("Z FIRST", "P1", "", 10, b""), OK);
    m.put(advance(4), OK);
    m.put(start("A SECOND", "P2", "", 6, b""), OK);
    m.put(advance(6), "0 0 0 2 -");
    m.dispatches(0, "Z FIRST", "P1", "");
    m.dispatches(0, "A SECOND", "P2", "");
}

#[test]
fn p9_general_ignore_with_nothing_set_for_3() {
    let mut m = Bench::with_task();
    m.fill("Q", 1);
    m.put(ignore(0).by("T"), OK);
    m.put(read_at("Q", 2, 64).by("T"), "3 0 0 0 -");
    m.put(ask().by("T"), OK);
}

#[test]
fn p10_all_unset() {
    let mut m = Bench::with_task();
    m.put(read_next("Q", 64).by("T"), "2 2 0 0 -");
    m.put(ask().by("T"), "34 0 0 0 -");
}

#[test]
fn r_129th_item() {
    let mut m = Bench::fresh();
    m.fill("Q1", 100);
    m.fill("Q2", 28);
    m.put(append("Q1", b"x"), "1 0 0 0 -");
    m.put(append("Q2", b"x"), "1 0 0 0 -");
    m.put(read_at("Q2", 28, 64), "0 0 0 1 1c");
    m.put(read_at("Q2", 29, 64), "3 0 0 0 -");
}

#[test]
fn r_17th_queue() {
    let mut m = Bench::fresh();
    for number in 1..=16 {
        m.put(append(format!("Q{number}").as_str(), b"x"), "0 0 0 1 -");
    }
    m.put(append("Q17", b"x"), "1 0 0 0 -");
    m.put(read_next("Q17", 64), "2 0 0 0 -"); // no queue was made
    m.put(append("Q16", b"x"), "0 0 0 2 -");
}

#[test]
fn r_33rd_request_counting_every_phase() {
    let mut m = Bench::with_task(); // one active
    for number in 2..=32 {
        let interval = number % 2; // one half expired, one half waiting
        m.put(start(format!("R{number}").as_str(), "P", "", interval, b""), OK);
    }
    m.put(start("R33", "P", "", 0, b""), "1 0 0 0 -");
    m.put(finish().by("T"), OK);
    m.put(start("R33", "P", "", 0, b""), OK);
    m.put(start("R34", "P", "", 0, b""), "1 0 0 0 -");
}

#[test]
fn r_left_expired_through_five_advances() {
    let mut m = Bench::starting_at(0xffff_fff0);
    m.put(define_program("P"), OK);
    m.put(define_program("P2"), OK);
    m.put(start("LEFT", "P", "", 3, b"data"), OK);
    m.put(advance(3), "0 0 0 1 -");
    for _ in 0..5 {
        m.put(advance(1_000_000_000), OK); // not newly expired again
    }
    m.put(start("LATER", "P2", "", 1, b""), OK);
    m.put(advance(1), "0 0 0 1 -");
    m.dispatches(0, "LEFT", "P", "");
    m.dispatches(0, "LATER", "P2", "");
    m.put(retrieve(64).by("LEFT"), "0 0 0 4 64617461");
    m.put(ask(), &format!("0 0 0 {} -", (0xffff_fff0_u64 + 4 + 5_000_000_000) % (1 << 32)));
}
