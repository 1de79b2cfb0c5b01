//! Lines parallel to an axis: the walk of one segment, and besides that document 02's sentence of change 14. None may meet refusal 7, and the cells
//! must be those that the sentence names.

use super::walk::{self, Case, Walk};
use super::{rounder, slices, Kind};
use crate::cases;
use crate::model::{self, SCRATCH};
use crate::random::{nudged, Random};
use crate::{Grid, Line};

pub struct Straight;

impl Kind for Straight {
    type Case = Case;
    const NAME: &'static str = "straight";
    const SIDES: &'static str = "port, Rust, model and the sentence";

    fn draw(r: &mut Random) -> (&'static str, Case) {
        let grid = grid(r);
        let (x, y) = axes(&grid);
        let upright = r.once_in(2);
        let (held, run) = if upright { (x, y) } else { (y, x) };
        let at = kept(r, held);
        // -0 equals 0
        let twin = if at == 0.0 && r.once_in(2) { -at } else { at };
        let (shape, start, end) = ends(r, run);
        let line = if upright { [at, start, twin, end] } else { [start, at, end, twin] };
        (shape, Case { grid, line, mode: 0, scratch: SCRATCH })
    }

    fn check(case: &Case) -> Result<&'static str, String> {
        let answer = Walk::<false>::check(case)?;
        let mut scratch = vec![0; case.scratch];
        let mut out = [u64::MAX; 8];
        let number = crate::port::segment_cells(&case.grid, &case.line, case.mode, &mut scratch, &mut out);
        if number != 0 {
            return Err(format!("refused {number}"));
        }
        slices("the sentence", &sentence(&case.grid, &case.line), &scratch[..out[0] as usize])?;
        let [x0, y0, x1, y1] = case.line;
        Ok(match (x0 == x1, y0 == y1) {
            (true, true) => "point",
            (true, false) => "vertical",
            (false, true) => "horizontal",
            _ => answer,
        })
    }

    fn smaller(case: &Case) -> Vec<Case> {
        let mut all = Walk::<false>::smaller(case);
        // the coordinate that the line keeps to: at both ends at once
        for k in [0, 1] {
            for v in rounder(case.line[k]) {
                let mut c = case.clone();
                (c.line[k], c.line[k + 2]) = (v, v);
                all.push(c);
            }
        }
        // of a line that is no longer parallel to an axis, or a grid that is no longer fit, nothing is said
        all.retain(|c| parallel(&c.line) && model::grid_fits(&c.grid));
        all
    }

    fn show(case: &Case) -> String {
        Walk::<false>::show(case) + &format!("the sentence's cells: {:?}\n", sentence(&case.grid, &case.line))
    }
}

fn parallel(line: &Line) -> bool {
    line[0] == line[2] || line[1] == line[3]
}

// ---- the sentence

/// An axis: its minimum, the size of a cell, and how many there are.
#[derive(Clone, Copy)]
struct Axis {
    low: f64,
    size: f64,
    count: u32,
}

fn axes(g: &Grid) -> (Axis, Axis) {
    (Axis { low: g.min_x, size: g.cell_width, count: g.cols }, Axis { low: g.min_y, size: g.cell_height, count: g.rows })
}

impl Axis {
    fn index(&self, v: f64) -> i64 {
        (((v - self.low) / self.size).floor() as i64).clamp(0, self.count as i64 - 1)
    }

    fn on_boundary(&self, v: f64) -> bool {
        let scaled = (v - self.low) / self.size;
        (scaled - scaled.round()).abs() <= 1e-12
    }

    /// i is one below the index of v, and v is on a boundary.
    fn below(&self, v: f64, i: i64) -> bool {
        self.on_boundary(v) && i + 1 == self.index(v)
    }
}

/// The cells that exist among those of the sentence, in the order of their numbers. A horizontal line has rows for columns.
fn sentence(g: &Grid, line: &Line) -> Vec<u32> {
    if g.cols == 0 {
        return vec![];
    }
    let (x, y) = axes(g);
    let [x0, y0, x1, y1] = *line;
    let upright = x0 == x1;
    let (held, v, run, start, end) = if upright { (x, x0, y, y0, y1) } else { (y, y0, x, x0, x1) };
    let (from, to) = (run.index(start).min(run.index(end)), run.index(start).max(run.index(end)));
    let named = |i: i64, j: i64| {
        let (own, lower) = (i == held.index(v), held.below(v, i));
        let between = from <= j && j <= to;
        (own && between) || (lower && between) || ((run.below(start, j) || run.below(end, j)) && (own || lower))
    };
    // no named cell lies beyond these, and those that there are lie inside the grid
    let around = |a: Axis, p: f64, q: f64| {
        let (low, high) = (a.index(p).min(a.index(q)) - 1, a.index(p).max(a.index(q)) + 1);
        low.max(0)..=high.min(a.count as i64 - 1)
    };
    let mut cells = Vec::new();
    for row in around(y, y0, y1) {
        for col in around(x, x0, x1) {
            if if upright { named(col, row) } else { named(row, col) } {
                cells.push((row * g.cols as i64 + col) as u32);
            }
        }
    }
    cells
}

// ---- the edges

/// A fit grid of square cells: any, the finest cells, as many rows or columns as there may be, or none.
fn grid(r: &mut Random) -> Grid {
    let mut g = cases::grid(r);
    match r.below(12) {
        0 => {
            let min = r.pick(&[0.0, 1e9, -1e9, 1.0, -1e-3]);
            (g.min_x, g.min_y, g.cell_width, g.cell_height) = (min, r.pick(&[min, 0.0]), 0.25e-6, 0.25e-6);
        }
        1 if r.once_in(8) => (g.cols, g.rows) = r.pick(&[(1, 4004), (4004, 1), (250, 4004), (4004, 250)]),
        2 if r.once_in(20) => (g.cols, g.rows) = (0, 0),
        _ => {}
    }
    g
}

fn keep(v: f64) -> f64 {
    v.clamp(-1e9, 1e9)
}

/// A boundary, to the last bit or a few beside it; the first and the last as often as all others.
fn boundary(r: &mut Random, a: Axis) -> f64 {
    let i = match r.below(4) {
        0 => 0,
        1 => a.count as u64,
        _ => r.below(a.count as u64 + 1),
    };
    let v = a.low + i as f64 * a.size;
    keep(if r.once_in(2) { v } else { nudged(v, r.below(7) as i64 - 3) })
}

/// The coordinate that the line keeps to.
fn kept(r: &mut Random, a: Axis) -> f64 {
    match r.below(4) {
        0..=1 => boundary(r, a),
        2 => cases::coordinate(r, a.low, a.size, a.count),
        _ => r.pick(&[0.0, -0.0, 1e9, -1e9, a.low]),
    }
}

/// The two ends, with the name of their shape.
fn ends(r: &mut Random, a: Axis) -> (&'static str, f64, f64) {
    let any = |r: &mut Random| cases::coordinate(r, a.low, a.size, a.count);
    match r.below(12) {
        0..=2 => ("free", any(r), any(r)),
        3..=5 => ("boundaries", boundary(r, a), boundary(r, a)),
        6 => {
            let v = any(r);
            ("equal ends", v, v)
        }
        7 => {
            let far = |r: &mut Random| r.pick(&[1e9, -1e9]);
            ("far", far(r), if r.once_in(2) { far(r) } else { boundary(r, a) })
        }
        8 => {
            let (first, last) = (keep(a.low), keep(a.low + a.count as f64 * a.size));
            if r.once_in(2) {
                ("whole length", first, last)
            } else {
                ("whole length", last, first)
            }
        }
        9 => {
            let v = if r.once_in(2) { boundary(r, a) } else { any(r) };
            ("hair", v, keep(nudged(v, r.below(9) as i64 - 4)))
        }
        10 => {
            // about the point halfway between min and the next value: there a difference from min is rounded up or down
            let half = r.sign() * (nudged(a.low, 1) - a.low) * 0.5 * r.pick(&[1.0, 0.5, 3.0]);
            let v = if r.once_in(4) { half } else { r.below(3) as f64 * a.size + half };
            ("rounded away", keep(v), keep(nudged(v, r.below(5) as i64 - 2)))
        }
        _ => ("smallest", 5e-324 * r.below(4) as f64 * r.sign(), 5e-324 * r.below(4) as f64 * r.sign()),
    }
}

/// The longest lines that there are, on the finest cells and through the most rows and columns; differences that are rounded away; and those of the
/// walk's fixed cases that are parallel to an axis.
pub fn fixed() -> Vec<(&'static str, Case)> {
    let fine = Grid { min_x: 1e9, min_y: -1e9, cell_width: 0.25e-6, cell_height: 0.25e-6, cols: 1, rows: 4004 };
    let tall = Grid { min_x: 0.0, min_y: 0.0, cell_width: 1.0, cell_height: 1.0, cols: 1, rows: 4004 };
    // the difference from min is rounded up for one end and down for the other: d is 2^-105
    let apart = Grid { min_x: -1.0, min_y: 0.0, cell_width: nudged(1.0, 1), cell_height: nudged(1.0, 1), cols: 4, rows: 4 };
    let half = 2f64.powi(-53);
    let all = [
        (fine, [1e9, 1e9, 1e9, -1e9]),
        (Grid { cols: 4004, rows: 1, ..fine }, [-1e9, -1e9, 1e9, -1e9]),
        (tall, [0.0, 0.0, -0.0, 4004.0]),
        (tall, [1.0, 4004.0, 1.0, 0.0]),
        (Grid { cols: 4004, rows: 1, ..tall }, [4004.0, 0.0, 0.0, -0.0]),
        (apart, [half, 0.5, nudged(half, 1), 0.5]),
        (apart, [nudged(half, 1), 0.5, half, 0.5]),
    ];
    let mut cases: Vec<_> = all.map(|(grid, line)| ("measured points", Case { grid, line, mode: 0, scratch: SCRATCH })).into();
    cases.extend(walk::fixed().into_iter().filter(|(_, c)| parallel(&c.line)));
    cases
}
