//! Document 01, "Queue rules".

mod common;

use common::*;

#[test]
fn append_gives_the_new_items_place() {
    let mut m = Bench::fresh();
    m.put(append("Q1", b"a"), "0 0 0 1 -");
    m.put(append("Q2", b"b"), "0 0 0 1 -");
    m.put(append("Q1", b"c"), "0 0 0 2 -");
}

#[test]
fn read_next_leaves_the_item_stored() {
    let mut m = Bench::fresh();
    m.fill("Q", 2);
    m.put(read_next("Q", 64), "0 0 0 1 01");
    m.put(read_at("Q", 1, 64), "0 0 0 1 01");
    m.put(delete("Q"), "0 0 0 2 -");
}

#[test]
fn append_keeps_the_pointer() {
    let mut m = Bench::fresh();
    m.fill("Q", 1);
    m.put(read_next("Q", 64), "0 0 0 1 01");
    m.put(read_next("Q", 64), "3 0 0 0 -");
    m.put(append("Q", b"new"), "0 0 0 2 -");
    m.put(read_next("Q", 64), "0 0 0 3 6e6577");
}

#[test]
fn rewrite_keeps_the_pointer() {
    let mut m = Bench::fresh();
    m.fill("Q", 3);
    m.put(read_next("Q", 64), "0 0 0 1 01");
    m.put(rewrite("Q", 3, b"third"), OK);
    m.put(read_next("Q", 64), "0 0 0 1 02");
    m.put(rewrite("Q", 1, b"first"), OK);
    m.put(read_next("Q", 64), "0 0 0 5 7468697264");
    m.put(read_at("Q", 1, 64), "0 0 0 5 6669727374");
}

#[test]
fn a_failed_read_keeps_the_pointer() {
    let mut m = Bench::fresh();
    m.fill("Q", 2);
    m.put(read_next("Q", 64), "0 0 0 1 01");
    m.put(read_at("Q", 0, 64), "3 0 0 0 -");
    m.put(read_at("Q", 3, 64), "3 0 0 0 -");
    m.put(read_next("Q", 64), "0 0 0 1 02");
}

#[test]
fn a_cut_read_is_a_read() {
    let mut m = Bench::fresh();
    m.put(append("Q", b"first"), "0 0 0 1 -");
    m.put(append("Q", b"second"), "0 0 0 2 -");
    m.put(append("Q", b"third"), "0 0 0 3 -");
    m.put(read_next("Q", 2), "4 0 0 5 6669");
    m.put(read_next("Q", 6), "0 0 0 6 7365636f6e64");
    m.put(read_at("Q", 1, 4), "4 0 0 5 66697273");
    m.put(read_next("Q", 5), "4 0 0 6 7365636f6e");
    m.put(read_next("Q", 255), "0 0 0 5 7468697264");
}

#[test]
fn a_room_of_64_never_cuts() {
    let mut m = Bench::fresh();
    m.put(append("Q", &[0xab; 64]), "0 0 0 1 -");
    let whole = "ab".repeat(64);
    m.put(read_at("Q", 1, 64), &format!("0 0 0 64 {whole}"));
    m.put(read_at("Q", 1, 255), &format!("0 0 0 64 {whole}"));
    m.put(read_at("Q", 1, 63), &format!("4 0 0 64 {}", "ab".repeat(63)));
}

#[test]
fn rewrite_with_another_length() {
    let mut m = Bench::fresh();
    m.put(append("Q", &[1; 64]), "0 0 0 1 -");
    m.put(rewrite("Q", 1, b"s"), OK);
    m.put(read_at("Q", 1, 64), "0 0 0 1 73");
    m.put(rewrite("Q", 1, b"longer"), OK);
    m.put(read_at("Q", 1, 64), "0 0 0 6 6c6f6e676572");
}

#[test]
fn delete_gives_the_items_freed_and_forgets_the_queue() {
    let mut m = Bench::fresh();
    m.fill("Q", 5);
    m.put(read_at("Q", 4, 64), "0 0 0 1 04");
    m.put(delete("Q"), "0 0 0 5 -");
    m.put(delete("Q"), "2 0 0 0 -");
    m.put(read_next("Q", 64), "2 0 0 0 -");
    m.put(append("Q", b"n"), "0 0 0 1 -"); // places from 1, pointer at 0 again
    m.put(read_next("Q", 64), "0 0 0 1 6e");
}

#[test]
fn a_refused_append_at_128_items_makes_an_empty_queue() {
    let mut m = Bench::fresh();
    m.fill("Q", 128);
    m.put(append("NEW", b"x"), "1 0 0 0 -");
    m.put(read_next("NEW", 64), "3 0 0 0 -"); // known, and without items
    m.put(delete("NEW"), OK); // nothing freed
    m.put(delete("NEW"), "2 0 0 0 -");
}

#[test]
fn empty_queues_count_among_the_16() {
    let mut m = Bench::fresh();
    m.fill("Q", 128);
    for number in 2..=16 {
        m.put(append(format!("E{number}").as_str(), b"x"), "1 0 0 0 -");
    }
    m.put(append("E17", b"x"), "1 0 0 0 -");
    m.put(read_next("E16", 64), "3 0 0 0 -");
    m.put(read_next("E17", 64), "2 0 0 0 -");
}

#[test]
fn where_both_reasons_hold_the_first_decides() {
    let mut m = Bench::fresh();
    for number in 1..=16 {
        m.fill(format!("Q{number}").as_str(), 8);
    }
    m.put(append("NEW", b"x"), "1 0 0 0 -");
    m.put(read_next("NEW", 64), "2 0 0 0 -"); // no queue was made
}

#[test]
fn room_is_not_counted_by_items_ever_written() {
    let mut m = Bench::fresh();
    for _ in 0..5 {
        m.fill("Q1", 100);
        m.fill("Q2", 28);
        m.put(append("Q1", b"x"), "1 0 0 0 -");
        m.put(delete("Q1"), "0 0 0 100 -");
        m.put(delete("Q2"), "0 0 0 28 -");
    }
    assert_eq!(m.monitor().queues().items_used(), 0);
}

#[test]
fn freed_slots_serve_again_and_spare_the_others() {
    let mut m = Bench::fresh();
    m.put(append("KEEP", b"k1"), "0 0 0 1 -");
    m.fill("GONE", 100);
    m.put(append("KEEP", b"k2"), "0 0 0 2 -");
    m.put(delete("GONE"), "0 0 0 100 -");
    m.fill("NEW", 126);
    m.put(append("NEW", b"x"), "1 0 0 0 -");
    m.put(read_next("KEEP", 64), "0 0 0 2 6b31");
    m.put(read_next("KEEP", 64), "0 0 0 2 6b32");
    m.put(read_at("NEW", 126, 64), "0 0 0 1 7e");
}

#[test]
fn a_deleted_queue_makes_place_for_another() {
    let mut m = Bench::fresh();
    for number in 1..=16 {
        m.put(append(format!("Q{number}").as_str(), &[number]), "0 0 0 1 -");
    }
    m.put(delete("Q3"), "0 0 0 1 -");
    m.put(append("Q17", &[17]), "0 0 0 1 -");
    m.put(append("Q3", &[3]), "1 0 0 0 -");
    m.put(read_next("Q16", 64), "0 0 0 1 10");
    m.put(read_next("Q17", 64), "0 0 0 1 11");
}

#[test]
fn names_are_compared_as_they_stand() {
    let mut m = Bench::fresh();
    m.put(append("queue", b"lower"), "0 0 0 1 -");
    m.put(append("QUEUE", b"upper"), "0 0 0 1 -");
    m.put(append(" QUEUE", b"behind a space"), "0 0 0 1 -");
    m.put(append("QUEUE\0\0\0", b"zeros"), "0 0 0 1 -");
    m.put(append("\0\0\0\0\0\0\0\0", b"zeros are not blank"), "0 0 0 1 -");
    m.put(read_next("QUEUE", 64), "0 0 0 5 7570706572");
}

#[test]
fn queues_are_open_to_tasks_and_shared() {
    let mut m = Bench::with_task();
    m.put(append("Q", b"s"), "0 0 0 1 -");
    m.put(append("Q", b"t").by("T"), "0 0 0 2 -");
    m.put(read_next("Q", 64).by("T"), "0 0 0 1 73");
    m.put(read_next("Q", 64), "0 0 0 1 74"); // one pointer for all
    m.put(rewrite("Q", 1, b"u").by("T"), OK);
    m.put(read_at("Q", 1, 64).by("T"), "0 0 0 1 75");
    m.put(delete("Q").by("T"), "0 0 0 2 -");
}
