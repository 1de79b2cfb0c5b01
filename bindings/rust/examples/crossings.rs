//! crossings FILE: from a chain to its crossings.
//!
//! FILE is well-known binary where its name ends in .wkb, else little-endian doubles, x and y in turn. The tables are built by the covering walk, with as
//! much room as they need; each pair of lines whose boxes overlap is handed out once, and it is proved that every two lines that share a point are among
//! them. Whether two lines do share one is decided below, by a test that is this example's own: it is no part of the library, and nothing of it is
//! proved. A leg and the next, which share their joint and no other point, are no crossing.
//! Printed are how many lines, pairs and crossings there are; and, on standard error, the time from the lines to the crossings.
//! The exit status is 0; 1 where the library refuses, which is printed with its number and value (2 above 65,536 lines: `Parts` takes any number); 2 where
//! FILE can't be read or standard output can't be written.
//!
//! `cargo run --release --offline --example crossings FILE` runs it, in bindings/rust, once `tools/build_library` has built the library.
//! `tools/run_examples` does both, and runs it beside examples/c/crossings.c, which prints the same.

mod chain;

use morelturret::{Lines, Mode, Refusal, Tables};
use std::process::ExitCode;
use std::time::Instant;

fn main() -> ExitCode {
    let words: Vec<String> = std::env::args().skip(1).collect();
    let [path] = &words[..] else {
        eprintln!("crossings: one FILE is needed, well-known binary (.wkb) or little-endian doubles, x and y in turn");
        return ExitCode::from(2);
    };
    chain::answered("crossings", path, |bytes| crossings(path, bytes))
}

/// What is printed.
fn crossings(path: &str, bytes: &[u8]) -> Result<String, Refusal> {
    let owned = chain::lines_of(path, bytes)?;
    let lines = owned.lines();
    let begun = Instant::now();
    let pairs = Tables::planned(lines, Mode::Covering)?.pairs_once(lines)?;
    let found = pairs.iter().filter(|&&(first, second)| crosses(lines, first as usize, second as usize)).count();
    eprintln!("crossings: {:.1} ms", begun.elapsed().as_secs_f64() * 1e3);
    Ok(format!("lines {}\npairs {}\ncrossings {found}\n", lines.len(), pairs.len()))
}

/// How two lines meet.
#[derive(PartialEq, PartialOrd)]
enum Meeting {
    Apart,
    OnePoint,
    More,
}

/// Whether two lines are a crossing: they share a point, and are not a leg and the next that share just their joint.
fn crosses(lines: Lines, i: usize, j: usize) -> bool {
    let (Some(low), Some(high)) = (lines.get(i.min(j)), lines.get(i.max(j))) else { return false };
    let joined = i.abs_diff(j) == 1 && low[2..] == high[..2];
    meeting(low, high) >= if joined { Meeting::More } else { Meeting::OnePoint }
}

/// How two lines meet whose boxes overlap.
fn meeting(l: [f64; 4], m: [f64; 4]) -> Meeting {
    let sides = |line: [f64; 4], other: [f64; 4]| (turn(line, other[0], other[1]), turn(line, other[2], other[3]));
    let (start, end) = sides(l, m);
    if start * end > 0 {
        return Meeting::Apart;
    }
    let along = (start, end) == (0, 0);
    let (start, end) = sides(m, l);
    if start * end > 0 {
        return Meeting::Apart;
    }
    // on one straight line: more than a point, if the boxes share more than a point
    let share_more = |k: usize| l[k].max(l[k + 2]).min(m[k].max(m[k + 2])) > l[k].min(l[k + 2]).max(m[k].min(m[k + 2]));
    if along && (start, end) == (0, 0) && (share_more(0) || share_more(1)) {
        Meeting::More
    } else {
        Meeting::OnePoint
    }
}

/// On which side of a line a point lies: 1 left, -1 right, 0 on it. From doubles where their error bound shows that the sign is right, and else from a
/// sum of products in which nothing is rounded (Shewchuk 1997). It is exact where each coordinate is 0 or at least 1e-140 in magnitude.
fn turn([ax, ay, bx, by]: [f64; 4], cx: f64, cy: f64) -> i32 {
    let (one, other) = ((ax - cx) * (by - cy), (ay - cy) * (bx - cx));
    let sure = 3.4e-16 * (one.abs() + other.abs()) + 1e-300;
    if (one - other).abs() > sure {
        return if one > other { 1 } else { -1 };
    }
    let factors = [(ax, by), (-ax, cy), (-cx, by), (-ay, bx), (ay, cx), (cy, bx)];
    sign_of_sum(factors.into_iter().flat_map(|(p, q)| [p.mul_add(q, -(p * q)), p * q]))
}

/// The sign of a sum. What has been summed so far stands in parts that do not overlap, the greatest last.
fn sign_of_sum(terms: impl Iterator<Item = f64>) -> i32 {
    let mut parts: Vec<f64> = Vec::new();
    for mut sum in terms {
        for part in &mut parts {
            let next = sum + *part;
            let share = next - sum;
            *part = (sum - (next - share)) + (*part - share);
            sum = next;
        }
        parts.push(sum);
    }
    parts.iter().rev().find(|&&part| part != 0.0).map_or(0, |part| if *part > 0.0 { 1 } else { -1 })
}
