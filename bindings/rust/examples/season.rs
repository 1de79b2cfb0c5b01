//! season FILE LOW_X LOW_Y HIGH_X HIGH_Y: the lines of one eclipse season, which is a window on a chain of points.
//!
//! FILE holds one LineString in well-known binary. Consecutive points make lines, numbered from 0. The tables are built once, by the covering walk;
//! then they are asked for the lines that may enter the window. Printed are how many lines there are, how many of them were found, and each of those.
//! The exit status is 0; 1 where the library refuses, which is printed with its number and value; 2 where the words are not as above, FILE can't be read
//! or standard output can't be written.
//!
//! `tools/run_examples` runs it beside examples/c/season.c, which prints the same.

use morelturret::{read_points, Lines, Mode, Refusal, Tables, Window};
use std::io::{self, Write};
use std::process::ExitCode;

fn main() -> ExitCode {
    let words: Vec<String> = std::env::args().skip(1).collect();
    let corners: Vec<f64> = words.iter().skip(1).filter_map(|word| word.parse().ok()).collect();
    let (5, &[low_x, low_y, high_x, high_y]) = (words.len(), &corners[..]) else {
        eprintln!("season: a FILE, which is a LineString in well-known binary, and four numbers are needed: LOW_X LOW_Y HIGH_X HIGH_Y");
        return ExitCode::from(2);
    };
    let Ok(bytes) = std::fs::read(&words[0]) else {
        eprintln!("season: {} can't be read", words[0]);
        return ExitCode::from(2);
    };
    let (text, status) = match season(&bytes, Window { low_x, low_y, high_x, high_y }) {
        Ok(text) => (text, 0),
        Err(Refusal { number, value }) => (format!("refused {number}, value {value}\n"), 1),
    };
    let mut out = io::stdout();
    if out.write_all(text.as_bytes()).and_then(|()| out.flush()).is_err() {
        eprintln!("season: standard output can't be written");
        return ExitCode::from(2);
    }
    ExitCode::from(status)
}

/// What is printed.
fn season(bytes: &[u8], window: Window) -> Result<String, Refusal> {
    let (x, y) = read_points(bytes)?;
    let lines = Lines::chain(&x, &y);
    let tables = Tables::planned(lines, Mode::Covering)?;
    let found = tables.window(lines, window)?;
    let mut text = format!("lines {}\nseason {}\n", tables.line_count(), found.len());
    for line in found {
        text += &format!("line {line}\n");
    }
    Ok(text)
}
