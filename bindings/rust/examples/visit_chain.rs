//! visit_chain [--sizing square|axes] [--walk rust|sided|covering] FILE: from a chain of points to the pairs of lines that may cross.
//!
//! FILE holds one LineString in well-known binary. Consecutive points make lines, numbered from 0. Printed are the grid that is picked for them, how
//! long its tables are, how many tests a whole visit makes, how many of them found two lines whose boxes overlap, and the first such pairs. The grid's
//! cells are square, or, by `--sizing axes`, as wide and as high as each axis by itself asks for. On a boundary the walk adds the cells that the Rust
//! adds, or, by `--walk sided`, those across it; `--walk covering` misses no two with a common point.
//! The exit status is 0; 1 where the library refuses, which is printed with its number and value; 2 where FILE can't be read or standard
//! output can't be written.
//!
//! `cargo run --offline --example visit_chain FILE` runs it, in bindings/rust, once `tools/build_library` has built the library. `tools/run_examples`
//! does both, and runs it beside examples/c/visit_chain.c, which prints the same.

use morelturret::{read_points, Lines, Mode, Plan, Refusal, Sizing, Tables};
use std::ffi::OsString;
use std::io::{self, Write};
use std::process::ExitCode;

/// How many pairs one batch hands out, and how many are printed.
const BATCH: usize = 256;
const SHOWN: usize = 5;

fn main() -> ExitCode {
    let words: Vec<OsString> = std::env::args_os().skip(1).collect();
    let Some((plan, path)) = asked(&words) else {
        eprintln!("visit_chain: [--sizing square|axes], [--walk rust|sided|covering] and one FILE are needed, a LineString in well-known binary");
        return ExitCode::from(2);
    };
    let Ok(bytes) = std::fs::read(&path) else {
        eprintln!("visit_chain: {} can't be read", path.to_string_lossy());
        return ExitCode::from(2);
    };
    let (text, status) = match visit(&bytes, plan) {
        Ok(text) => (text, 0),
        Err(Refusal { number, value }) => (format!("refused {number}, value {value}\n"), 1),
    };
    // `print!` panics where a write fails, as on a full disk. (Only a closed standard output goes unnoticed: Rust's library takes it for /dev/null.)
    let mut out = io::stdout();
    if out.write_all(text.as_bytes()).and_then(|()| out.flush()).is_err() {
        eprintln!("visit_chain: standard output can't be written");
        return ExitCode::from(2);
    }
    ExitCode::from(status)
}

/// The plan and the file that the words ask for: options stand before the file.
fn asked(words: &[OsString]) -> Option<(Plan, &OsString)> {
    let (path, options) = words.split_last()?;
    let mut plan = Plan::default();
    for option in options.chunks(2) {
        match option.iter().map(|word| word.to_str()).collect::<Option<Vec<&str>>>()?[..] {
            ["--sizing", "square"] => plan.sizing = Sizing::Square,
            ["--sizing", "axes"] => plan.sizing = Sizing::Axes,
            ["--walk", "rust"] => plan.mode = Mode::Rust,
            ["--walk", "sided"] => plan.mode = Mode::Sided,
            ["--walk", "covering"] => plan.mode = Mode::Covering,
            _ => return None,
        }
    }
    Some((plan, path))
}

/// What is printed.
fn visit(bytes: &[u8], plan: Plan) -> Result<String, Refusal> {
    // Bytes to points, and points to lines: line i goes from point i to point i + 1. Nothing is copied.
    let (x, y) = read_points(bytes)?;
    let lines = Lines::chain(&x, &y);

    // A grid, and the tables on it. `Tables::planned` makes its buffers as large as these lines need; `Tables::of` does so by the default plan.
    let tables = Tables::planned(lines, plan)?;
    let grid = tables.grid();
    let (width, height) = (grid.cell_width, grid.cell_height);
    let mut text = format!("lines {}\n", tables.line_count());
    text += &format!("grid {} columns, {} rows, cells {width:.9} by {height:.9} ", grid.cols, grid.rows);
    text += &format!("(bits {:016x} {:016x})\n", width.to_bits(), height.to_bits());
    text += &format!("items {}\n", tables.items().len());
    text += &format!("globals {}\n", tables.globals().len());

    // The visit. The pairs come from batches behind the iterator. A program would work on its pairs here; the first few are kept, to be printed.
    let mut pairs = tables.pairs(lines, BATCH)?;
    let shown: Vec<(u32, u32)> = pairs.by_ref().take(SHOWN).collect();
    let overlaps = shown.len() + pairs.by_ref().count();
    text += &format!("tests {}\n", pairs.bookmark());
    text += &format!("overlaps {overlaps}\n");
    for (first, second) in shown {
        text += &format!("pair {first} {second}\n");
    }
    Ok(text)
}
