//! grow_chain FILE DAY: a chain of points built to one day, then grown line by line.
//!
//! FILE holds one LineString in well-known binary. Consecutive points make lines, numbered from 0. The first DAY lines are built, by the covering walk; each
//! further line is added to the standing tables. Where a line leaves the grid, which is refused by 14, the lines up to it are built anew. Printed are the tables
//! after each build and at the end, with the tests of a full visit, and each line that left the grid.
//! The exit status is 0; 1 where the library refuses otherwise, which is printed with its number and value; 2 where the words are not as above, FILE can't be
//! read or standard output can't be written.
//!
//! `tools/run_examples` runs it beside examples/c/grow_chain.c, which prints the same.

use morelturret::{read_points, Lines, Mode, Refusal, Tables};
use std::io::{self, Write};
use std::process::ExitCode;

fn main() -> ExitCode {
    let words: Vec<String> = std::env::args().skip(1).collect();
    let [file, day] = &words[..] else { return needed() };
    let Ok(day) = day.parse() else { return needed() };
    let Ok(bytes) = std::fs::read(file) else {
        eprintln!("grow_chain: {file} can't be read");
        return ExitCode::from(2);
    };
    let mut text = String::new();
    let status = match grow(&bytes, day, &mut text) {
        Ok(()) => 0,
        Err(Refusal { number, value }) => {
            text += &format!("refused {number}, value {value}\n");
            1
        }
    };
    let mut out = io::stdout();
    if out.write_all(text.as_bytes()).and_then(|()| out.flush()).is_err() {
        eprintln!("grow_chain: standard output can't be written");
        return ExitCode::from(2);
    }
    ExitCode::from(status)
}

fn needed() -> ExitCode {
    eprintln!("grow_chain: a FILE, which is a LineString in well-known binary, and a number of lines are needed: DAY");
    ExitCode::from(2)
}

/// What is printed.
fn grow(bytes: &[u8], day: usize, text: &mut String) -> Result<(), Refusal> {
    let (x, y) = read_points(bytes)?;
    let all = x.len() - 1;
    let built = |lines: usize| Tables::planned(Lines::chain(&x[..lines + 1], &y[..lines + 1]), Mode::Covering);
    let mut tables = built(day.min(all))?;
    *text += &shown("built", &tables)?;
    for i in tables.line_count()..all {
        match tables.push((x[i], y[i]), (x[i + 1], y[i + 1]), Mode::Covering) {
            Ok(_) => {}
            // the tables of no lines have no cells, and those of some may end before this line does
            Err(Refusal { number: Refusal::OUTSIDE_GRID | Refusal::UNFIT_GRID, .. }) => {
                *text += &format!("line {i} is outside\n");
                tables = built(i + 1)?;
                *text += &shown("built", &tables)?;
            }
            Err(refusal) => return Err(refusal),
        }
    }
    *text += &shown("grown", &tables)?;
    Ok(())
}

fn shown(what: &str, t: &Tables) -> Result<String, Refusal> {
    let (grid, tests) = (t.grid(), t.standing().cost()?.tests);
    Ok(format!(
        "{what} {} lines, {} by {} cells, {} items, {} globals, {tests} tests\n",
        t.line_count(), grid.cols, grid.rows, t.items().len(), t.globals().len()
    ))
}
