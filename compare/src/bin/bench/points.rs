//! Ownership and snapping of points.

use super::clock::Clock;
use compare::oracle::Owners;
use compare::random::Random;
use compare::{plain, port, Grid};
use morelturret::sys;
use std::hint::black_box;

const BAR: Option<f64> = Some(1.5);

const POINTS: usize = 100_000;

/// A coordinate on an axis of so many cells: one in sixteen on an edge, one in sixteen up to a tenth beyond the ends.
fn coordinate(r: &mut Random, low: f64, size: f64, count: u32) -> f64 {
    let n = count as f64;
    low + size
        * match r.below(16) {
            0 => r.between(0.0, n).floor(),
            1 => r.between(-0.1 * n, 1.1 * n),
            _ => r.between(0.0, n),
        }
}

pub fn owners(clock: &Clock, r: &mut Random) {
    clock.head(
        "Owner of a point: against a plain binary search in Rust with the same float steps. The port also checks the point and the grid, and both \
         are called.",
    );
    for (cols, rows) in [(1001, 1001), (4004, 250)] {
        let grid = Grid { min_x: 271.03, min_y: 29.7, cell_width: 0.0237, cell_height: 0.0237, cols, rows };
        let points: Vec<(f64, f64)> =
            (0..POINTS).map(|_| (coordinate(r, grid.min_x, grid.cell_width, cols), coordinate(r, grid.min_y, grid.cell_height, rows))).collect();
        // a caller hands a grid's words on as they are
        let words = grid.words();
        let mut out = [0u64; 3];
        let mut test = Owners::new(&grid);
        for &(x, y) in &points {
            assert_eq!(sys::owner(&words, x, y, &mut out), 0);
            let found = (out[0] == 1).then_some((out[1] as u32, out[2] as u32));
            assert_eq!(found, plain::owner(&grid, x, y), "the owner of {x}, {y}");
            assert!(found.map_or(true, |(row, col)| test.point(row, col, x, y)), "the Rust's ownership test of {x}, {y}");
        }
        clock.both(
            &format!("{cols} by {rows} cells, {POINTS} points"), "point", POINTS, BAR,
            &mut || points.iter().for_each(|&(x, y)| { black_box(sys::owner(&words, x, y, &mut out)); black_box(&out); }),
            &mut || points.iter().for_each(|&(x, y)| { black_box(plain::owner(&grid, x, y)); }),
        );
    }
    let grid = Grid { min_x: 271.03, min_y: 29.7, cell_width: 0.0237, cell_height: 0.0237, cols: 1001, rows: 1001 };
    let along = |r: &mut Random, low: f64| -> Vec<f64> { (0..POINTS).map(|_| coordinate(r, low, 0.0237, 1001)).collect() };
    let (x, y) = (along(r, grid.min_x), along(r, grid.min_y));
    many(clock, &grid, &x, &y);
    clock.head("Ownership by one cell: against the Rust's process_cell_candidate, whose intersection is laid down.");
    let grid = Grid { min_x: 271.03, min_y: 29.7, cell_width: 0.237, cell_height: 0.237, cols: 64, rows: 64 };
    let points: Vec<(u32, u32, f64, f64)> = (0..4096)
        .map(|_| {
            let (x, y) = (r.between(0.0, 64.0), r.between(0.0, 64.0));
            (y as u32, x as u32, grid.min_x + x * grid.cell_width, grid.min_y + y * grid.cell_height)
        })
        .collect();
    let words = grid.words();
    let mut out = [0u64; 1];
    let mut test = Owners::new(&grid);
    clock.both(
        "a point, 64 by 64 cells", "call", points.len(), None,
        &mut || points.iter().for_each(|&(row, col, x, y)| { black_box(sys::point_owned(&words, row, col, x, y, &mut out)); }),
        &mut || points.iter().for_each(|&(row, col, x, y)| { black_box(test.point(row, col, x, y)); }),
    );
}

/// One call for all points, against a plain binary search in Rust, and against as many single calls.
fn many(clock: &Clock, grid: &Grid, x: &[f64], y: &[f64]) {
    clock.head("Owners of many points in one call: against a plain binary search in Rust over the same slices, and against single calls of the port.");
    let words = grid.words();
    let (mut of_port, mut of_rust, mut out) = (vec![0; POINTS], vec![0; POINTS], [0u64; 3]);
    assert_eq!(sys::owners(&words, x, y, &mut of_port, &mut out), 0);
    plain::owners(grid, x, y, &mut of_rust);
    // the plain search has one answer for a seam and for outside
    assert!(of_port.iter().zip(&of_rust).all(|(a, b)| a == b || (*a == u32::MAX - 1 && *b == u32::MAX)));
    let mut one = [0u64; 3];
    let times = clock.turns(&mut [
        &mut || { black_box(sys::owners(&words, x, y, &mut of_port, &mut out)); black_box(&of_port); },
        &mut || { plain::owners(grid, x, y, &mut of_rust); black_box(&of_rust); },
        &mut || x.iter().zip(y).for_each(|(&x, &y)| { black_box(sys::owner(&words, x, y, &mut one)); black_box(&one); }),
    ]);
    clock.show(&format!("{} by {} cells, {POINTS} points", grid.cols, grid.rows), "point", POINTS, Some(1.0), &times, &["single calls"]);
    let ratio = times.ratio(0, 2);
    println!("  {:<44} {ratio:.3}{}", "by as many single calls", clock.held(ratio, Some(0.7)));
}

pub fn snaps(clock: &Clock, r: &mut Random) {
    clock.head(
        "Snap: against SnapNoder::snap, both called, both with an out slice. The port also checks the point, the size and the strategy.\n  \
         In brackets: against a Rust that hands the point back in registers.",
    );
    let points: Vec<(f64, f64)> = (0..POINTS).map(|_| (r.between(-1000.0, 1000.0), r.between(-1000.0, 1000.0))).collect();
    let (mut of_port, mut of_rust) = ([0u64; 2], [0u64; 2]);
    for &(x, y) in &points {
        assert_eq!((port::snap(x, y, 0.01, 0, &mut of_port), plain::snap(x, y, 0.01, &mut of_rust)), (0, 0));
        assert_eq!(of_port, of_rust, "{x}, {y}");
    }
    let times = clock.turns(&mut [
        &mut || points.iter().for_each(|&(x, y)| { black_box(port::snap(x, y, 0.01, 0, &mut of_port)); black_box(&of_port); }),
        &mut || points.iter().for_each(|&(x, y)| { black_box(plain::snap(x, y, 0.01, &mut of_rust)); black_box(&of_rust); }),
        &mut || points.iter().for_each(|&(x, y)| { black_box(plain::snap_point(x, y, 0.01)); }),
    ]);
    clock.show("Grid", "point", POINTS, BAR, &times, &["point in registers"]);
}
