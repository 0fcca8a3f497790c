//! The harness of `bench/run`: both programs, on the same lists, in one
//! process. The answer buffer is made once and never cleared.

mod clock;
mod lists;
mod programs;
mod stack;

use lists::{Kind, Made, ALONE, KINDS};
use programs::{Program, PROGRAMS};
use second::bounds::{ANSWER, LIST};
use std::hint::black_box;

/// The lengths of the lists, in records; the last means as many as fit.
const LENGTHS: [usize; 3] = [10, 100, usize::MAX];

/// Enough for the answers of every list.
const ENOUGH: usize = (*LIST.end() - 9) / 11 * ANSWER;

const KNOWN: &str = "a name that the harness knows";

const USAGE: &str = "usage: bench kinds                         what the lists hold
       bench lists                         each list: kind, records, bytes; both programs must agree on it
       bench alone                         the same of the lists of one command
       bench holds KIND                    what the lists of a kind hold
       bench times                         CPU time a run, in nanoseconds: kind, records, proved, second
       bench stack                         bytes of stack: kind, records, proved, second
       bench call PROGRAM KIND MOST TIMES  so many runs in the function `measured`";

fn main() {
    let arguments: Vec<String> = std::env::args().skip(1).collect();
    let arguments: Vec<&str> = arguments.iter().map(String::as_str).collect();
    match arguments[..] {
        ["kinds"] => KINDS.iter().for_each(|kind| println!("{}: {}", kind.name, kind.holds)),
        ["lists"] => each_list(agree),
        ["alone"] => {
            ALONE.iter().for_each(|kind| agree(kind, &kind.make(usize::MAX), &mut vec![0; ENOUGH]))
        }
        ["holds", name] => println!("{}", kind_of(name).holds),
        ["times"] => each_list(times),
        ["stack"] => each_list(depths),
        ["call", program, kind, most, times] => call(program, kind, most, times),
        _ => {
            eprintln!("{USAGE}");
            std::process::exit(2);
        }
    }
}

/// Does something with each list and a buffer; one list is of no records.
fn each_list(each: fn(&Kind, &Made, &mut [u8])) {
    let mut out = vec![0; ENOUGH];
    each(&KINDS[0], &KINDS[0].make(0), &mut out);
    for kind in &KINDS {
        for most in LENGTHS {
            each(kind, &kind.make(most), &mut out);
        }
    }
}

/// Both programs give the same code and the same bytes, and the list runs.
fn agree(kind: &Kind, list: &Made, out: &mut [u8]) {
    let mut other = out.to_vec();
    let proved = programs::proved(&list.bytes, out);
    let second = programs::second(&list.bytes, &mut other);
    assert_eq!(proved, second, "{}: what is returned", kind.name);
    assert_eq!(proved.0, 0, "{}: the list is refused", kind.name);
    assert!(out == other, "{}: the answers differ", kind.name);
    println!("{} {} {} {}", kind.name, list.records, list.bytes.len(), proved.1);
}

fn times(kind: &Kind, list: &Made, out: &mut [u8]) {
    let programs = PROGRAMS.map(|(_, program)| program);
    let [proved, second] = clock::least_times(programs, &list.bytes, out);
    println!("{} {} {proved:.1} {second:.1}", kind.name, list.records);
}

fn depths(kind: &Kind, list: &Made, out: &mut [u8]) {
    let [proved, second] = PROGRAMS.map(|(_, program)| stack::depth(program, &list.bytes, out));
    println!("{} {} {proved} {second}", kind.name, list.records);
}

/// One run outside `measured`, so that what is set up once is not counted,
/// then the others in it.
fn call(program: &str, kind: &str, most: &str, times: &str) {
    let (_, program) = *find(&PROGRAMS, |(name, _)| *name == program);
    let list = kind_of(kind).make(number(most));
    let mut out = vec![0; ENOUGH];
    program(&list.bytes, &mut out);
    measured(program, &list.bytes, &mut out, number(times));
}

/// callgrind counts what happens in this function alone.
#[no_mangle]
#[inline(never)]
fn measured(program: Program, list: &[u8], out: &mut [u8], times: usize) {
    for _ in 0..times {
        black_box(program(black_box(list), out));
    }
}

fn kind_of(name: &str) -> &'static Kind {
    let known = |kind: &&Kind| kind.name == name;
    KINDS.iter().chain(&ALONE).find(known).expect(KNOWN)
}

fn find<T>(all: &[T], wanted: impl Fn(&T) -> bool) -> &T {
    all.iter().find(|one| wanted(one)).expect(KNOWN)
}

fn number(text: &str) -> usize {
    text.parse().expect("a number")
}
