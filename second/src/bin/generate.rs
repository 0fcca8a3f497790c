//! Prints lists by seed, or counts of what they reach: see the README.

use second::coverage::Coverage;
use second::{generator, hex};
use std::ffi::OsString;
use std::io::{self, BufWriter, Write};
use std::process::ExitCode;

const USAGE: &str = "usage: generate SEED COUNT            COUNT lists in hex, one a line
       generate --counts SEED COUNT   what these lists reach, and how often";

fn main() -> ExitCode {
    let arguments: Vec<_> = std::env::args_os().skip(1).collect();
    let written = match arguments.as_slice() {
        [seed, count] => number(seed).zip(number(count)).map(print_lists),
        [mode, seed, count] if mode == "--counts" => {
            number(seed).zip(number(count)).map(print_counts)
        }
        _ => None,
    };
    match written {
        Some(Ok(())) => ExitCode::SUCCESS,
        Some(Err(_)) => ExitCode::FAILURE, // standard output is closed: end quietly
        None => {
            // Nothing is left to do if even this cannot be written.
            let _ = writeln!(io::stderr(), "{USAGE}");
            ExitCode::from(2)
        }
    }
}

fn number(argument: &OsString) -> Option<u64> {
    argument.to_str()?.parse().ok()
}

fn print_lists((seed, count): (u64, u64)) -> io::Result<()> {
    let mut stdout = BufWriter::new(io::stdout().lock());
    let mut line = Vec::new();
    for index in 0..count {
        hex::write(&mut line, &generator::list(seed, index));
        line.push(b'\n');
        stdout.write_all(&line)?;
        line.clear();
    }
    stdout.flush()
}

fn print_counts((seed, count): (u64, u64)) -> io::Result<()> {
    let mut coverage = Coverage::default();
    for index in 0..count {
        coverage.watch(generator::kind(index), &generator::list(seed, index));
    }
    let mut stdout = io::stdout().lock();
    write!(stdout, "{coverage}")?;
    stdout.flush()
}
