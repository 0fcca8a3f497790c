//! Document 01, "The program and its printed form".

use crate::answer::Answer;
use crate::bounds::ANSWER;
use crate::hex;
use crate::list;
use std::io::Write;

/// "A refused list prints the single line".
pub const REFUSED: &[u8] = b"0 35 0 0 0 -\n";

/// Runs a list and prints its lines behind `out`.
pub fn print_list(out: &mut Vec<u8>, list: &[u8]) {
    // Room for as many answers as the list has bytes: with that, only 35 can
    // refuse it.
    match list::run(list, ANSWER * list.len()) {
        Ok(answers) => print_answers(out, &answers),
        Err(_) => out.extend_from_slice(REFUSED),
    }
}

fn print_answers(out: &mut Vec<u8>, answers: &[Answer]) {
    for (before, answer) in answers.iter().enumerate() {
        print_answer(out, before + 1, answer);
    }
}

/// "place (from 1), condition, action, label and number in decimal, then the
/// bytes in lower-case hex or "-" if there are none, one space between"
pub fn print_answer(out: &mut Vec<u8>, place: usize, answer: &Answer) {
    let (condition, action) = (answer.condition.number(), answer.action.number());
    let (label, number) = (answer.action.label(), answer.number);
    // Writing behind a vector cannot fail.
    let _ = write!(out, "{place} {condition} {action} {label} {number} ");
    if answer.bytes.is_empty() {
        out.push(b'-');
    } else {
        hex::write(out, answer.bytes.bytes());
    }
    out.push(b'\n');
}
