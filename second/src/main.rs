//! The list program: see the package's README.

use second::bounds::LIST;
use second::{hex, print};
use std::io::{self, BufRead, BufWriter, Read, Write};
use std::process::ExitCode;

const USAGE: &str = "usage: second          one list on standard input, as bytes
       second --many   lists on standard input, one a line, in hex";

fn main() -> ExitCode {
    let arguments: Vec<_> = std::env::args_os().skip(1).collect();
    let written = match arguments.as_slice() {
        [] => one_list(),
        [mode] if mode == "--many" => many_lists(),
        _ => {
            // Nothing is left to do if even this cannot be written.
            let _ = writeln!(io::stderr(), "{USAGE}");
            return ExitCode::from(2);
        }
    };
    match written {
        Ok(()) => ExitCode::SUCCESS,
        Err(_) => ExitCode::FAILURE, // standard output is closed: end quietly
    }
}

/// Reads one list and prints its lines.
fn one_list() -> io::Result<()> {
    let mut out = Vec::new();
    print::print_list(&mut out, &read_list());
    let mut stdout = io::stdout().lock();
    stdout.write_all(&out)?;
    stdout.flush()
}

/// The bytes on standard input, though no more than are needed to see that
/// the list is too long. What cannot be read is no list: no bytes.
fn read_list() -> Vec<u8> {
    let mut list = Vec::with_capacity(*LIST.end() + 1);
    let most = *LIST.end() as u64 + 1;
    match io::stdin().lock().take(most).read_to_end(&mut list) {
        Ok(_) => list,
        Err(_) => Vec::new(),
    }
}

/// Reads lists in hex and prints the lines of each, and a line `.` behind.
fn many_lists() -> io::Result<()> {
    let mut stdin = io::stdin().lock();
    let mut stdout = BufWriter::with_capacity(1 << 16, io::stdout().lock());
    let mut line = Vec::new();
    let mut out = Vec::new();
    while stdin.read_until(b'\n', &mut line)? > 0 {
        // A line that is not hex holds no list, and is refused like no bytes.
        let list = hex::read(line.trim_ascii()).unwrap_or_default();
        print::print_list(&mut out, &list);
        out.extend_from_slice(b".\n");
        stdout.write_all(&out)?;
        line.clear();
        out.clear();
    }
    stdout.flush()
}
