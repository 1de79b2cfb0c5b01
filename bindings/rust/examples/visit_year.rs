//! visit_year FILE: from a year of chains in one file to the pairs of lines that may cross.
//!
//! FILE holds one MultiLineString in well-known binary. Consecutive points of a member make lines, numbered from 0, member after member. Printed are how
//! many members, points and lines there are, the grid that is picked for the lines, how long its tables are, how many tests a whole visit makes and how
//! many of them found two lines whose boxes overlap; and whether the members, written again, give the bytes of FILE. They do where FILE is little-endian
//! throughout.
//! The exit status is 0; 1 where the library refuses, which is printed with its number and value; 2 where FILE can't be read or standard output can't be
//! written.
//!
//! `cargo run --offline --example visit_year FILE` runs it, in bindings/rust, once `tools/build_library` has built the library. `tools/run_examples`
//! does both, and runs it beside examples/c/visit_year.c, which prints the same.

use morelturret::{Members, Refusal, Tables};
use std::io::{self, Write};
use std::process::ExitCode;

const BATCH: usize = 4096;

fn main() -> ExitCode {
    let words: Vec<_> = std::env::args_os().skip(1).collect();
    let [path] = &words[..] else {
        eprintln!("visit_year: one FILE is needed, a MultiLineString in well-known binary");
        return ExitCode::from(2);
    };
    let Ok(bytes) = std::fs::read(path) else {
        eprintln!("visit_year: {} can't be read", path.to_string_lossy());
        return ExitCode::from(2);
    };
    let (text, status) = match visit(&bytes) {
        Ok(text) => (text, 0),
        Err(Refusal { number, value }) => (format!("refused {number}, value {value}\n"), 1),
    };
    let mut out = io::stdout();
    if out.write_all(text.as_bytes()).and_then(|()| out.flush()).is_err() {
        eprintln!("visit_year: standard output can't be written");
        return ExitCode::from(2);
    }
    ExitCode::from(status)
}

/// What is printed.
fn visit(bytes: &[u8]) -> Result<String, Refusal> {
    // Bytes to points with member lengths, and points to lines: none joins two members.
    let year = Members::read(bytes)?;
    let owned = year.lines()?;
    let lines = owned.lines();
    let mut text = format!("members {}\npoints {}\nlines {}\n", year.lengths.len(), year.x.len(), lines.len());

    // Lines to tables, with as much room as they need, and a whole visit of their tests.
    let tables = Tables::of(lines)?;
    text += &format!("grid {} columns, {} rows\n", tables.grid().cols, tables.grid().rows);
    text += &format!("items {}\nglobals {}\n", tables.items().len(), tables.globals().len());
    let mut pairs = tables.pairs(lines, BATCH)?;
    let overlaps = pairs.by_ref().count();
    text += &format!("tests {}\noverlaps {overlaps}\n", pairs.bookmark());

    // The members written again, in the little order throughout.
    let again = year.write()?;
    text += &format!("written {} bytes, {}as they came\n", again.len(), if again == bytes { "" } else { "not " });
    Ok(text)
}
