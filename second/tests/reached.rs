//! What the generator reaches, and what must hold for every list.

mod common;

use common::hex;
use second::coverage::events::Event;
use second::coverage::table::{reachable, Reach};
use second::coverage::Coverage;
use second::generator::{kind, list, Kind};
use second::list::{frame, run, run_into, Misframed};
use std::collections::BTreeSet;

/// Enough lists for every kind to come twenty times and more.
const SEED: u64 = 1;
const COUNT: u64 = 840;

fn covered() -> Coverage {
    let mut coverage = Coverage::default();
    for index in 0..COUNT {
        coverage.watch(kind(index), &list(SEED, index));
    }
    coverage
}

#[test]
fn every_reachable_answer_and_no_other_is_reached() {
    let coverage = covered();
    println!("{coverage}");
    let table: BTreeSet<Reach> = reachable().collect();
    let reached: BTreeSet<Reach> = coverage.reached.keys().copied().collect();
    let missing: Vec<_> = table.difference(&reached).collect();
    let outside: Vec<_> = reached.difference(&table).collect();
    assert!(missing.is_empty(), "never reached: {missing:?}");
    assert!(outside.is_empty(), "outside the table: {outside:?}");
}

#[test]
fn every_event_comes_about() {
    let coverage = covered();
    let missing: Vec<_> = Event::all().filter(|e| !coverage.events.contains_key(e)).collect();
    assert!(missing.is_empty(), "never came about: {missing:?}");
    assert!(coverage.kinds[&Kind::Noise] >= 20);
}

#[test]
fn the_table_has_the_size_that_document_01_gives_it() {
    let table: Vec<_> = reachable().collect();
    let triples: BTreeSet<_> = table.iter().map(Reach::triple).collect();
    // By row: 6 6 4 1 5 19 7 8 2 10 13 13 13 7 4 4 4; then 18 of 33, 17 of 34.
    assert_eq!(triples.len(), 126 + 18 + 17);
    // Split by issuer: 50 of the system, 115 of a task.
    assert_eq!(table.len(), 50 + 115 + 18 + 17);
}

#[test]
fn other_seeds_stay_inside_the_table() {
    let table: BTreeSet<Reach> = reachable().collect();
    let mut coverage = Coverage::default();
    for seed in 2..30 {
        for index in 0..21 {
            coverage.watch(kind(index), &list(seed, index));
        }
    }
    assert!(coverage.reached.keys().all(|reach| table.contains(reach)));
}

#[test]
fn lists_are_at_most_4096_bytes_unless_that_is_their_damage() {
    for index in 0..COUNT {
        let list = list(SEED, index);
        if frame(&list).err() == Some(Misframed::TotalTooLong) {
            assert!(matches!(kind(index), Kind::Damaged | Kind::Noise));
        } else {
            assert!(list.len() <= 4096);
        }
    }
}

#[test]
fn planned_lists_frame_and_damaged_ones_do_not() {
    for index in 0..COUNT {
        let framed = frame(&list(SEED, index)).is_ok();
        match kind(index) {
            Kind::Damaged => assert!(!framed),
            Kind::Changed | Kind::Noise => {}
            _ => assert!(framed),
        }
    }
}

#[test]
fn a_list_is_a_function_of_seed_and_index() {
    for index in 0..42 {
        assert_eq!(list(SEED, index), list(SEED, index));
        assert_ne!(list(SEED, index), list(SEED + 1, index), "{}", kind(index) as u8);
    }
}

#[test]
fn both_entries_give_the_same_answers() {
    for index in 0..210 {
        let list = list(SEED, index);
        let mut buffer = vec![0; 74 * 400];
        let answers = run(&list, buffer.len());
        let written = run_into(&list, &mut buffer);
        assert_eq!(written.err(), answers.as_ref().err().copied());
        let mut left = &buffer[..written.unwrap_or(0)];
        for answer in answers.unwrap_or_default() {
            let length = 2 + usize::from(u16::from_be_bytes([left[0], left[1]]));
            let [condition, action] = [left[2], left[3]];
            assert_eq!(condition, answer.condition.number());
            assert_eq!(action, answer.action.number());
            assert_eq!(u16::from_be_bytes([left[4], left[5]]), answer.action.label());
            assert_eq!(left[6..10], answer.number.to_be_bytes());
            assert_eq!(hex(&left[10..length]), hex(answer.bytes.bytes()));
            left = &left[length..];
        }
        assert!(left.is_empty());
    }
}
