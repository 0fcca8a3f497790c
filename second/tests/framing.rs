//! Document 01, "The list and the answers": every refusal at its boundaries.

mod common;

use common::*;
use second::list::{run, run_into, Misframed, Refusal};

const ROOM: usize = 74 * 400;

#[track_caller]
fn refused(list: &[u8], reason: Misframed) {
    assert_eq!(run(list, ROOM), Err(Refusal::List(reason)));
    assert_eq!(Refusal::List(reason).number(), 35);
    assert_eq!(printed(list), "0 35 0 0 0 -\n");
    let mut buffer = [0xee; ROOM];
    assert_eq!(run_into(list, &mut buffer), Err(Refusal::List(reason)));
    assert!(buffer.iter().all(|&byte| byte == 0xee), "a refused list writes nothing");
}

/// A list of exactly `total` bytes: asks, then one malformed ask that fills up.
fn list_of_length(total: usize) -> Vec<u8> {
    let mut list = List::starting_at(0);
    while total - list.length() >= 22 {
        list.add(&ask());
    }
    let left = total - list.length();
    if left > 0 {
        list.add(&Record::raw(4, &vec![0; left - 11]));
    }
    list.finished()
}

fn mend_length(list: &mut [u8]) {
    let length = (list.len() as u32 - 4).to_be_bytes();
    list[..4].copy_from_slice(&length);
}

#[test]
fn the_least_total() {
    let list = list_of(5, &[]);
    assert_eq!(list.len(), 9);
    assert_eq!(run(&list, 0), Ok(vec![]));
    assert_eq!(printed(&list), "", "a list of no records prints nothing");
    for total in 0..9 {
        refused(&list[..total], Misframed::TotalTooShort);
    }
    let mut eight = list[..8].to_vec();
    mend_length(&mut eight);
    refused(&eight, Misframed::TotalTooShort);
}

#[test]
fn the_greatest_total() {
    let list = list_of_length(4096);
    assert_eq!(list.len(), 4096);
    assert_eq!(run(&list, ROOM).map(|answers| answers.len()), Ok(371));
    let list = list_of_length(4097);
    assert_eq!(list.len(), 4097);
    refused(&list, Misframed::TotalTooLong);
}

#[test]
fn length_field_off_by_one() {
    let list = list_of(0, &[ask()]);
    for wrong in [list.len() - 5, list.len() - 3, list.len(), 0] {
        let mut list = list.clone();
        list[..4].copy_from_slice(&(wrong as u32).to_be_bytes());
        refused(&list, Misframed::LengthField);
    }
    let mut little_endian = list;
    little_endian[..4].reverse();
    refused(&little_endian, Misframed::LengthField);
}

#[test]
fn version_not_1() {
    for version in [0, 2, 255] {
        let mut list = list_of(0, &[ask()]);
        list[4] = version;
        refused(&list, Misframed::Version);
    }
}

#[test]
fn record_length_below_9() {
    for short in 0..9 {
        let mut list = list_of(0, &[ask(), ask()]);
        list.truncate(9 + 11 + 2 + short);
        list[9 + 11 + 1] = short as u8;
        mend_length(&mut list);
        refused(&list, Misframed::RecordTooShort);
    }
}

#[test]
fn record_past_the_end() {
    let good = list_of(0, &[ask(), advance(1)]);
    let mut one_more = good.clone();
    one_more[9 + 11 + 1] += 1;
    refused(&one_more, Misframed::RecordPastEnd);
    let mut far_more = good.clone();
    far_more[9 + 11] = 0xff;
    refused(&far_more, Misframed::RecordPastEnd);
    let mut byte_missing = good.clone();
    byte_missing.pop();
    mend_length(&mut byte_missing);
    refused(&byte_missing, Misframed::RecordPastEnd);
}

#[test]
fn a_record_must_not_end_before_the_list() {
    let mut lone_byte = list_of(0, &[ask()]);
    lone_byte.push(0);
    mend_length(&mut lone_byte);
    refused(&lone_byte, Misframed::RecordPastEnd);
    let mut length_field_only = list_of(0, &[ask()]);
    length_field_only.extend([0, 9]);
    mend_length(&mut length_field_only);
    refused(&length_field_only, Misframed::RecordPastEnd);
    let mut shorter_record = list_of(0, &[ask(), advance(1)]);
    shorter_record[9 + 11 + 1] -= 1;
    refused(&shorter_record, Misframed::RecordPastEnd);
}

#[test]
fn a_list_is_framed_whole_before_anything_runs() {
    // Good records before the bad one leave no answers.
    let mut list = list_of(0, &[define_program("P"), ask(), ask()]);
    let last = list.len() - 11;
    list[last + 1] = 8;
    refused(&list, Misframed::RecordTooShort);
}

#[test]
fn room_of_74_bytes_for_each_record() {
    for count in 1..=4 {
        let list = list_of(0, &vec![ask(); count]);
        assert_eq!(run(&list, 74 * count - 1), Err(Refusal::Room));
        assert_eq!(run(&list, 74 * count).map(|answers| answers.len()), Ok(count));
        let mut buffer = vec![0xee; 74 * count - 1];
        assert_eq!(run_into(&list, &mut buffer), Err(Refusal::Room));
        assert!(buffer.iter().all(|&byte| byte == 0xee));
    }
    assert_eq!(Refusal::Room.number(), 36);
}

#[test]
fn a_bad_list_is_35_even_without_room() {
    let mut list = list_of(0, &[ask()]);
    list[4] = 2;
    assert_eq!(run(&list, 0), Err(Refusal::List(Misframed::Version)));
}

#[test]
fn answers_stand_one_behind_the_other() {
    let list = list_of(7, &[append("Q", b"ab"), read_next("Q", 1), ask()]);
    let mut buffer = [0xee; 74 * 3];
    assert_eq!(run_into(&list, &mut buffer), Ok(31));
    let answers = "0008 00 00 0000 00000001  0009 04 00 0000 00000002 61  0008 00 00 0000 00000007";
    assert_eq!(hex(&buffer[..31]), answers.replace(' ', ""));
    assert!(buffer[31..].iter().all(|&byte| byte == 0xee), "bytes past the last answer stay");
}

#[test]
fn the_longest_answer_has_74_bytes() {
    let list = list_of(0, &[append("Q", &[9; 64]), read_next("Q", 64)]);
    let mut buffer = [0; 74 * 2];
    assert_eq!(run_into(&list, &mut buffer), Ok(10 + 74));
}

#[test]
fn a_record_without_9_bytes_is_malformed_on_its_own() {
    let mut monitor = second::Monitor::fresh(0);
    for length in 0..9 {
        let answer = monitor.record(&[0x20; 9][..length]);
        assert_eq!(answer.condition.number(), 33);
    }
}
