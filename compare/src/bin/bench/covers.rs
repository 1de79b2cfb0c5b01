//! The covering walk beside the Rust's walk, on the lines of a year in few and in many legs an orbit, on the grid that a build chooses for them.

use super::clock::Clock;
use super::legs::LEGS;
use compare::model::SCRATCH;
use compare::oracle::{self, Lines};
use compare::random::Random;
use compare::{cases, inner, port};
use std::hint::black_box;

const BAR: Option<f64> = Some(0.25);

/// How many cells of the first list the second does not have: both increase.
fn beyond(first: &[u32], second: &[u32]) -> usize {
    first.iter().filter(|c| second.binary_search(c).is_err()).count()
}

pub fn times(clock: &Clock, r: &mut Random) {
    clock.head("The covering walk (mt_inner_cover) beside the Rust's, on 65,536 lines. In brackets the cells of a line on average, and how many more and less.");
    let mut scratch = vec![0u32; SCRATCH];
    let mut out = [0u64; 8];
    for legs in LEGS {
        let lines = cases::orbits(r, 65536, legs);
        let rust_lines = Lines::new(&lines);
        let grid = &black_box(oracle::build(&rust_lines).grid());
        let (sizes, cols, rows) = (black_box(port::sizes(grid)), grid.cols, grid.rows);
        let (mut cells, mut more, mut less) = (0, 0, 0);
        for (i, &[x0, y0, x1, y1]) in lines.iter().enumerate() {
            assert_eq!(inner::inner_cover(&sizes, cols, rows, x0, y0, x1, y1, &mut scratch, &mut out), 0);
            let covered = &scratch[..out[0] as usize];
            let walked: Vec<u32> = rust_lines.cells(i, grid).iter().map(|&c| c as u32).collect();
            cells += covered.len();
            more += beyond(covered, &walked);
            less += beyond(&walked, covered);
        }
        let name = format!("{legs} legs an orbit ({:.1}; {more}, {less})", cells as f64 / lines.len() as f64);
        clock.both(
            &name,
            "line",
            lines.len(),
            BAR,
            &mut || {
                for &[x0, y0, x1, y1] in &lines {
                    black_box(inner::inner_cover(&sizes, cols, rows, x0, y0, x1, y1, &mut scratch, &mut out));
                    black_box(&scratch);
                }
            },
            &mut || {
                for i in 0..lines.len() {
                    black_box(&*rust_lines.cells(i, grid));
                }
            },
        );
    }
}
