//! parts FILE [MOST]: the pairs of any number of lines, in parts of at most MOST lines, every two of them together.
//!
//! FILE is well-known binary where its name ends in .wkb, else little-endian doubles, x and y in turn, of any number. MOST is 32,768 where nothing else
//! is said, and never more. `Parts` builds every two parts together, by the covering walk, and hands out every two lines that share a point, none twice.
//! Printed are how many lines and builds there are, how many pairs were taken from each build, and how many in all.
//! The exit status is 0; 1 where the library refuses, which is printed with its number and value; 2 where FILE can't be read or standard output can't be
//! written.
//!
//! `cargo run --offline --example parts FILE` runs it, in bindings/rust, once `tools/build_library` has built the library. `tools/run_examples` does
//! both, and runs it beside examples/c/parts.c, which prints the same.

mod chain;

use morelturret::{Parts, Refusal, MAX_LINES};
use std::process::ExitCode;

fn main() -> ExitCode {
    let words: Vec<String> = std::env::args().skip(1).collect();
    let asked = match &words[..] {
        [path] => Some((path, MAX_LINES / 2)),
        [path, most] => most.parse().ok().filter(|most| (1..=MAX_LINES / 2).contains(most)).map(|most| (path, most)),
        _ => None,
    };
    let Some((path, most)) = asked else {
        eprintln!("parts: a FILE is needed, well-known binary (.wkb) or little-endian doubles, and perhaps a number from 1 to 32768");
        return ExitCode::from(2);
    };
    chain::answered("parts", path, |bytes| parts(path, bytes, most))
}

/// What is printed.
fn parts(path: &str, bytes: &[u8], most: usize) -> Result<String, Refusal> {
    let owned = chain::lines_of(path, bytes)?;
    let parts = Parts::of(owned.lines())?.of_at_most(most);
    let mut text = format!("lines {}\nbuilds {}\n", owned.lines().len(), parts.builds());
    let mut all = 0;
    for (build, pairs) in parts.pairs().enumerate() {
        let pairs = pairs?;
        text += &format!("build {build}: pairs {}\n", pairs.len());
        all += pairs.len();
    }
    Ok(text + &format!("pairs {all}\n"))
}
