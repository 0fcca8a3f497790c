//! The programs as they are run.

mod common;

use common::*;
use std::io::Write;
use std::process::{Command, Output, Stdio};

const SECOND: &str = env!("CARGO_BIN_EXE_second");
const GENERATE: &str = env!("CARGO_BIN_EXE_generate");
const REFUSED: &str = "0 35 0 0 0 -\n";

fn run_with(program: &str, arguments: &[&str], input: &[u8]) -> Output {
    let mut child = Command::new(program)
        .args(arguments)
        .stdin(Stdio::piped())
        .stdout(Stdio::piped())
        .stderr(Stdio::piped())
        .spawn()
        .expect("the program starts");
    let mut stdin = child.stdin.take().expect("standard input is a pipe");
    // A program that has seen enough may close its input before the end.
    let _ = stdin.write_all(input);
    drop(stdin);
    child.wait_with_output().expect("the program ends")
}

#[track_caller]
fn prints(arguments: &[&str], input: &[u8], expected: &str) {
    let output = run_with(SECOND, arguments, input);
    assert_eq!(String::from_utf8_lossy(&output.stdout), expected);
    assert!(output.stderr.is_empty());
    assert!(output.status.success());
}

#[test]
fn one_list() {
    let list = list_of(3, &[ask(), append("Q", b"x"), read_next("Q", 9), read_next("Q", 9)]);
    prints(&[], &list, "1 0 0 0 3 -\n2 0 0 0 1 -\n3 0 0 0 1 78\n4 3 0 0 0 -\n");
}

#[test]
fn a_list_of_no_records_prints_nothing() {
    prints(&[], &list_of(0, &[]), "");
}

#[test]
fn refused_input() {
    prints(&[], b"", REFUSED);
    prints(&[], b"\n", REFUSED);
    prints(&[], &[0; 4097], REFUSED);
    prints(&[], &[0xff; 100_000], REFUSED);
    let mut list = list_of(0, &[ask()]);
    list.push(b'\n');
    prints(&[], &list, REFUSED);
}

#[test]
fn unreadable_input() {
    // A directory can be opened but not read.
    let directory = std::fs::File::open(env!("CARGO_MANIFEST_DIR")).expect("it is there");
    let output = Command::new(SECOND).stdin(directory).output().expect("the program runs");
    assert_eq!(String::from_utf8_lossy(&output.stdout), REFUSED);
    assert!(output.stderr.is_empty());
}

#[test]
fn many_lists() {
    let ask = hex(&list_of(3, &[ask()]));
    let empty = hex(&list_of(0, &[]));
    let lines = format!("{ask}\n{empty}\nno hex\n\n{}\r\n{ask}0\n{ask}", ask.to_uppercase());
    let answer = "1 0 0 0 3 -\n.\n";
    let refused = format!("{REFUSED}.\n");
    let expected = format!("{answer}.\n{refused}{refused}{answer}{refused}{answer}");
    prints(&["--many"], lines.as_bytes(), &expected);
    prints(&["--many"], b"", "");
}

#[test]
fn many_lists_and_one_list_print_the_same() {
    for index in 0..21 {
        let list = second::generator::list(11, index);
        let one = run_with(SECOND, &[], &list).stdout;
        let many = run_with(SECOND, &["--many"], hex(&list).as_bytes()).stdout;
        assert_eq!(many, [&one[..], b".\n"].concat());
        assert_eq!(one, printed(&list).as_bytes());
    }
}

#[test]
fn a_closed_output_ends_quietly() {
    let lines: String = (0..42).map(|i| hex(&second::generator::list(5, i)) + "\n").collect();
    let mut child = Command::new(SECOND)
        .arg("--many")
        .stdin(Stdio::piped())
        .stdout(Stdio::piped())
        .stderr(Stdio::piped())
        .spawn()
        .expect("the program starts");
    drop(child.stdout.take());
    let mut stdin = child.stdin.take().expect("standard input is a pipe");
    let _ = stdin.write_all(lines.as_bytes());
    drop(stdin);
    let output = child.wait_with_output().expect("the program ends");
    assert!(output.stderr.is_empty());
    assert_eq!(output.status.code(), Some(1));
}

#[test]
fn wrong_arguments_get_the_usage() {
    let wrong: [(&str, &[&str]); 8] = [
        (SECOND, &["--few"]),
        (SECOND, &["--many", "more"]),
        (GENERATE, &[]),
        (GENERATE, &["1"]),
        (GENERATE, &["1", "x"]),
        (GENERATE, &["-1", "1"]),
        (GENERATE, &["--counts", "1"]),
        (GENERATE, &["--other", "1", "1"]),
    ];
    for (program, arguments) in wrong {
        let output = run_with(program, arguments, b"");
        assert_eq!(output.status.code(), Some(2), "{arguments:?}");
        assert!(output.stdout.is_empty());
        assert!(output.stderr.starts_with(b"usage: "));
    }
}

#[test]
fn generate_prints_the_lists_of_a_seed() {
    let output = run_with(GENERATE, &["7", "25"], b"");
    let expected: String = (0..25).map(|i| hex(&second::generator::list(7, i)) + "\n").collect();
    assert_eq!(String::from_utf8_lossy(&output.stdout), expected);
    assert!(output.status.success());
}

#[test]
fn generate_prints_counts() {
    let output = run_with(GENERATE, &["--counts", "7", "21"], b"");
    let text = String::from_utf8_lossy(&output.stdout);
    assert!(text.contains("\n4 system 0 0 "));
    assert!(text.contains(" all five tables full at once\n"));
    assert!(!text.contains("outside the table"));
}
