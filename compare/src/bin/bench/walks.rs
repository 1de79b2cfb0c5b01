//! Walks of about so many cells in each of the four directions.

use super::clock::Clock;
use compare::model::SCRATCH;
use compare::oracle::Lines;
use compare::random::Random;
use compare::{inner, port, Grid, Line, Mode};
use morelturret::sys;
use std::hint::black_box;

const BAR: Option<f64> = Some(1.0);

/// A grid like a build's largest.
const GRID: Grid = Grid { min_x: 271.03, min_y: 29.7, cell_width: 0.0237, cell_height: 0.0237, cols: 1001, rows: 1001 };

/// The directions, and whether x and y fall.
const DIRECTIONS: [(&str, bool, bool); 4] = [("up right", false, false), ("down right", false, true), ("up left", true, false), ("down left", true, true)];

/// The lengths: how many columns and rows a line spans, and how many lines are walked.
const LENGTHS: [(&str, f64, f64, usize); 3] =
    [("short, 1 to 8 cells", 0.0, 3.5, 4000), ("middling, 30 to 100 cells", 18.0, 48.0, 1000), ("long, about 2,000 cells", 990.0, 1000.0, 100)];

/// Lines inside the grid that span `least` to `most` columns and rows.
fn lines(r: &mut Random, least: f64, most: f64, n: usize, left: bool, down: bool) -> Vec<Line> {
    let mut axis = |low: f64, size: f64, falls: bool| {
        let span = r.between(least, most);
        let from = r.between(0.0, 1001.0 - span);
        let (a, b) = if falls { (from + span, from) } else { (from, from + span) };
        (low + a * size, low + b * size)
    };
    (0..n)
        .map(|_| {
            let (x0, x1) = axis(GRID.min_x, GRID.cell_width, left);
            let (y0, y1) = axis(GRID.min_y, GRID.cell_height, down);
            [x0, y0, x1, y1]
        })
        .collect()
}

/// A grid as the entry for one segment takes it, and as the inner walks do.
struct Said {
    words: [u64; 6],
    sizes: [f64; 4],
    cols: u32,
    rows: u32,
}

/// A walk on a grid.
type Walk = fn(&Said, f64, f64, f64, f64, &mut [u32], &mut [u64]) -> u32;

/// One walk of the port against the Rust's, each length in each direction. The bar speaks of the slowest direction. The cells are the Rust's, or cover them.
fn compared(clock: &Clock, r: &mut Random, walk: Walk, covers: bool, bar: Option<f64>) {
    let mut scratch = vec![0u32; SCRATCH];
    // neither side knows the grid beforehand
    let grid = &black_box(GRID);
    let said = black_box(Said { words: grid.words(), sizes: port::sizes(grid), cols: grid.cols, rows: grid.rows });
    for (name, least, most, n) in LENGTHS {
        let (mut cells, mut port, mut rust, mut ratios) = (0, 0.0, 0.0, Vec::new());
        for (direction, left, down) in DIRECTIONS {
            let lines = lines(r, least, most, n, left, down);
            let rust_lines = Lines::new(&lines);
            let mut out = [0u64; 8];
            for (i, line) in lines.iter().enumerate() {
                let [x0, y0, x1, y1] = *line;
                assert_eq!(walk(&said, x0, y0, x1, y1, &mut scratch, &mut out), 0);
                let walked = &scratch[..out[0] as usize];
                let rust: Vec<u32> = rust_lines.cells(i, grid).iter().map(|&c| c as u32).collect();
                let right = if covers { rust.iter().all(|c| walked.binary_search(c).is_ok()) } else { rust == walked };
                assert!(right, "the walk of {line:?}");
                cells += walked.len();
            }
            let times = clock.turns(&mut [
                &mut || {
                    for &[x0, y0, x1, y1] in &lines {
                        black_box(walk(&said, x0, y0, x1, y1, &mut scratch, &mut out));
                        black_box(&scratch);
                    }
                },
                &mut || {
                    for i in 0..lines.len() {
                        black_box(&*rust_lines.cells(i, grid));
                    }
                },
            ]);
            port += times.of(0);
            rust += times.of(1);
            ratios.push((times.ratio(0, 1), direction));
        }
        let all = DIRECTIONS.len() * n;
        let ns = |seconds: f64| seconds * 1e9 / all as f64;
        let each: Vec<String> = ratios.iter().map(|(ratio, direction)| format!("{direction} {ratio:.3}")).collect();
        let worst = ratios.iter().max_by(|a, b| a.0.total_cmp(&b.0)).unwrap();
        let name = format!("{name} ({:.1})", cells as f64 / all as f64);
        let (port, rust, each, held) = (ns(port), ns(rust), each.join(", "), clock.held(worst.0, bar));
        println!("  {name:<44} port {port:>9.2}  Rust {rust:>9.2} ns a line   port/Rust {each}; worst {}{held}", worst.1);
    }
}

pub fn times(clock: &Clock, r: &mut Random) {
    clock.head(
        "Walk, by the function that a build calls (mt_inner_walk): the port also checks the counts of the grid and the scratch, and neither side clears anything. In \
         brackets the cells of a line on average.",
    );
    compared(clock, r, |g, x0, y0, x1, y1, scratch, out| inner::inner_walk(&g.sizes, g.cols, g.rows, x0, y0, x1, y1, scratch, out), false, BAR);
    clock.head("Walk of one segment (mt_segment_cells): the port also clears 16,384 entries of scratch.");
    compared(clock, r, |g, x0, y0, x1, y1, scratch, out| sys::segment_cells(&g.words, x0, y0, x1, y1, Mode::Rust as u32, scratch, out), false, None);
    clock.head("The covering walk (mt_inner_cover), beside the Rust's walk.");
    compared(clock, r, |g, x0, y0, x1, y1, scratch, out| inner::inner_cover(&g.sizes, g.cols, g.rows, x0, y0, x1, y1, scratch, out), true, Some(0.4));
}
