//! From a file to lines, and from an answer to a status, for the examples that take chains of any length: parts.rs and crossings.rs.
//!
//! A file whose name ends in .wkb holds one LineString or one MultiLineString in well-known binary; consecutive points of a member make lines, none joins
//! two members, and the library refuses more than 65,536. Any other file holds little-endian doubles, x and y in turn, of one chain of any length.

use morelturret::{read_points, LineVec, Lines, Members, Refusal};
use std::io::{self, Write};
use std::process::ExitCode;

/// The lines of a file, by its name.
pub fn lines_of(name: &str, bytes: &[u8]) -> Result<LineVec, Refusal> {
    if !name.ends_with(".wkb") {
        let numbers: Vec<f64> = bytes.chunks_exact(8).filter_map(|b| Some(f64::from_le_bytes(b.try_into().ok()?))).collect();
        // what follows the last whole point is no point
        let (x, y): (Vec<f64>, Vec<f64>) = numbers.chunks_exact(2).map(|point| (point[0], point[1])).unzip();
        return Ok(owned(Lines::chain(&x, &y)));
    }
    let line_string = match bytes {
        [0, _, _, _, kind, ..] | [_, kind, ..] => *kind == 2,
        _ => false,
    };
    if line_string {
        let (x, y) = read_points(bytes)?;
        return Ok(owned(Lines::chain(&x, &y)));
    }
    Members::read(bytes)?.lines()
}

fn owned(lines: Lines) -> LineVec {
    (0..lines.len()).filter_map(|i| lines.get(i)).collect()
}

/// Prints what an example answers for a file, and gives the status to end with.
pub fn answered(program: &str, path: &str, answer: impl FnOnce(&[u8]) -> Result<String, Refusal>) -> ExitCode {
    let Ok(bytes) = std::fs::read(path) else {
        eprintln!("{program}: {path} can't be read");
        return ExitCode::from(2);
    };
    let (text, status) = match answer(&bytes) {
        Ok(text) => (text, 0),
        Err(Refusal { number, value }) => (format!("refused {number}, value {value}\n"), 1),
    };
    let mut out = io::stdout();
    if out.write_all(text.as_bytes()).and_then(|()| out.flush()).is_err() {
        eprintln!("{program}: standard output can't be written");
        return ExitCode::from(2);
    }
    ExitCode::from(status)
}
