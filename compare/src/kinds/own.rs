//! Ownership of points and overlaps by one cell, and the owner of a point against a plain scan of all cells.

use super::{answers, float, rounder, show_grid, sizes, word, Kind, WHERE_SQUARED};
use crate::cases;
use crate::model;
use crate::oracle::{self, Owners, Squared};
use crate::port;
use crate::random::{decimals, Random};
use crate::Grid;

#[derive(Clone)]
pub struct Case {
    pub grid: Grid,
    pub row: u32,
    pub col: u32,
    pub x: f64,
    pub y: f64,
    pub size: f64,
    pub strategy: u32,
}

struct Entries {
    who: &'static str,
    point: fn(&Grid, u32, u32, f64, f64, &mut [u64]) -> u32,
    overlap: fn(&Grid, u32, u32, f64, f64, f64, u32, &mut [u64]) -> u32,
    owner: fn(&Grid, f64, f64, &mut [u64]) -> u32,
}

fn entries() -> Vec<Entries> {
    vec![
        Entries { who: "model", point: model::point_owned, overlap: model::overlap_owned, owner: model::owner },
        Entries { who: "port", point: port::point_owned, overlap: port::overlap_owned, owner: port::owner },
    ]
}

/// A snap size, fit but for one time in a hundred.
pub fn snap_size(r: &mut Random) -> f64 {
    if r.once_in(100) {
        return r.pick(&[-0.0, 9.999999999999999e-7, 1000000.0000000001, -1.0, f64::NAN, f64::INFINITY, -1e-6, 5e-324]);
    }
    match r.below(6) {
        0 => 0.0,
        1 => 1.0,
        2 => r.pick(&[1e-6, 1e6, 0.1, 0.01, 0.5, 0.25, 1e-3]),
        3 => 2f64.powi(r.below(38) as i32 - 19),
        _ => r.size(1e-6, 1e6),
    }
}

/// A snap size, and a strategy that there is but for one time in fifty.
pub fn snapping(r: &mut Random) -> (f64, u32) {
    let strategy = |n| match n {
        0..=2 => 1,
        3 => 2,
        4 => u32::MAX,
        _ => 0,
    };
    (snap_size(r), strategy(r.below(250)))
}

pub struct Own<const AXES: bool>;

impl<const AXES: bool> Kind for Own<AXES> {
    type Case = Case;
    const NAME: &'static str = if AXES { "axes-own" } else { "own" };
    const SIDES: &'static str = if AXES { WHERE_SQUARED } else { "port, Rust and model" };

    fn draw(r: &mut Random) -> (&'static str, Case) {
        let mut grid = if AXES { cases::oblong(r) } else { cases::grid(r) };
        let (row, col) = (r.below(grid.rows as u64) as u32, r.below(grid.cols as u64) as u32);
        // near the cell that is asked about, or anywhere
        let mut near = |low: f64, size: f64, index: u32, count: u32| {
            if r.once_in(3) {
                return cases::coordinate(r, low, size, count);
            }
            let edge = low + index as f64 * size;
            let v = match r.below(5) {
                0 => edge,
                1 => edge + size,
                2 => low + (index + 1) as f64 * size,
                3 => decimals(edge + r.unit() * size, 2),
                _ => edge + r.unit() * size,
            };
            crate::random::nudged(v, if r.once_in(2) { 0 } else { r.below(5) as i64 - 2 }).clamp(-1e9, 1e9)
        };
        let mut x = near(grid.min_x, grid.cell_width, col, grid.cols);
        let y = near(grid.min_y, grid.cell_height, row, grid.rows);
        let (size, strategy) = snapping(r);
        let mut cell = (row, col);
        let mut shape = "in the domain";
        if r.once_in(50) {
            shape = "edge of the domain";
            match r.below(4) {
                0 => x = cases::bad(r),
                1 => cell = r.pick(&[(grid.rows, col), (row, grid.cols), (u32::MAX, u32::MAX), (grid.rows, grid.cols)]),
                2 => cases::resize::<AXES>(r, &mut grid),
                _ => (grid.cols, grid.rows) = r.pick(&[(0, 0), (0, 3), (4005, 1)]),
            }
        }
        (shape, Case { grid, row: cell.0, col: cell.1, x, y, size, strategy })
    }

    fn check(c: &Case) -> Result<&'static str, String> {
        let g = &c.grid;
        let (mut point, mut overlap, mut owner) = (None, None, None);
        for e in entries() {
            let mut out = [u64::MAX; 8];
            let number = (e.point)(g, c.row, c.col, c.x, c.y, &mut out);
            let wanted = *point.get_or_insert_with(|| match number {
                0 => (0, by_rust(g).map_or(out[0], |mut rust| rust.point(c.row, c.col, c.x, c.y) as u64)),
                n => (n, out[0]),
            });
            answers(&format!("{}: point owned", e.who), (wanted.0, &[wanted.1]), (number, &out[..1]))?;

            let mut out = [u64::MAX; 8];
            let number = (e.overlap)(g, c.row, c.col, c.x, c.y, c.size, c.strategy, &mut out);
            let wanted = *overlap.get_or_insert_with(|| match number {
                0 => (0, by_rust(g).map_or(out[0], |mut rust| rust.overlap(c.row, c.col, c.x, c.y, c.size) as u64)),
                n => (n, out[0]),
            });
            answers(&format!("{}: overlap owned", e.who), (wanted.0, &[wanted.1]), (number, &out[..1]))?;

            let mut out = [u64::MAX; 8];
            let number = (e.owner)(g, c.x, c.y, &mut out);
            let wanted = *owner.get_or_insert_with(|| match number {
                0 => (0, scan(g, c.x, c.y)),
                n => (n, [out[0], 0, 0]),
            });
            let got = if number == 0 { [out[0], out[1], out[2]] } else { [out[0], 0, 0] };
            answers(&format!("{}: owner", e.who), (wanted.0, &wanted.1), (number, &got))?;
        }
        let twice = AXES && Squared::of(g).is_some();
        Ok(match (point.unwrap(), owner.unwrap()) {
            ((0, 1), _) if twice => "owned, by the Rust too",
            ((0, _), (0, [1, ..])) if twice => "owned by another, by the Rust too",
            ((0, _), (0, [2, ..])) if twice => "in a seam, by the Rust too",
            ((0, _), (0, _)) if twice => "outside, by the Rust too",
            ((0, 1), _) => "owned",
            ((0, _), (0, [1, ..])) => "owned by another",
            ((0, _), (0, [2, ..])) => "in a seam",
            ((0, _), (0, _)) => "outside",
            ((n, _), _) => word(n),
        })
    }

    fn smaller(case: &Case) -> Vec<Case> {
        let mut all = Vec::new();
        let mut put = |change: &dyn Fn(&mut Case)| {
            let mut c = case.clone();
            change(&mut c);
            all.push(c);
        };
        for v in rounder(case.grid.min_x) {
            put(&|c| c.grid.min_x = v);
        }
        for v in rounder(case.grid.min_y) {
            put(&|c| c.grid.min_y = v);
        }
        for (width, height) in sizes(&case.grid, AXES) {
            put(&|c| (c.grid.cell_width, c.grid.cell_height) = (width, height));
        }
        for v in rounder(case.x) {
            put(&|c| c.x = v);
        }
        for v in rounder(case.y) {
            put(&|c| c.y = v);
        }
        for v in rounder(case.size) {
            put(&|c| c.size = v);
        }
        if case.grid.cols > 1 {
            put(&|c| c.grid.cols /= 2);
        }
        if case.grid.rows > 1 {
            put(&|c| c.grid.rows /= 2);
        }
        if case.col > 0 {
            put(&|c| c.col /= 2);
        }
        if case.row > 0 {
            put(&|c| c.row /= 2);
        }
        all
    }

    fn show(c: &Case) -> String {
        let point = format!("point {}, {}, snap size {} strategy {}", float(c.x), float(c.y), float(c.size), c.strategy);
        format!("{}cell row {} column {}, {point}\n", show_grid(&c.grid), c.row, c.col)
    }
}

/// The Rust's ownership tests for a fit grid: of its own cells where they are square, else of those that are a power of two away.
pub struct ByRust {
    squared: Squared,
    owners: Owners,
}

/// None where the Rust cannot be asked, and where the grid is not fit.
pub fn by_rust(g: &Grid) -> Option<ByRust> {
    if !model::grid_fits(g) {
        return None;
    }
    let squared = Squared::of(g)?;
    let owners = Owners::new(squared.grid());
    Some(ByRust { squared, owners })
}

impl ByRust {
    pub fn point(&mut self, row: u32, col: u32, x: f64, y: f64) -> bool {
        let (x, y) = self.squared.point(x, y);
        self.owners.point(row, col, x, y)
    }

    /// A snap size is one for both axes, so where these are kept apart the point is snapped first, and owned as it is then.
    pub fn overlap(&mut self, row: u32, col: u32, x: f64, y: f64, size: f64) -> bool {
        if self.squared.is_itself() {
            return self.owners.overlap(row, col, x, y, size);
        }
        let (x, y) = oracle::snap(x, y, size);
        let (x, y) = self.squared.point(x, y);
        self.owners.overlap(row, col, x, y, 0.0)
    }
}

/// The first cell in row order that owns the point: by the Rust, or by the model where the Rust cannot be asked. Every cell is asked where there are
/// at most 400; else the cells of the rows and columns near the point's own, which rounding cannot leave. Where none owns it, a seam or outside.
pub fn scan(g: &Grid, x: f64, y: f64) -> [u64; 3] {
    scan_by(g, x, y, 400)
}

/// The same, every cell asked.
pub fn scan_all(g: &Grid, x: f64, y: f64) -> [u64; 3] {
    scan_by(g, x, y, u32::MAX)
}

fn scan_by(g: &Grid, x: f64, y: f64, few: u32) -> [u64; 3] {
    let mut rust = by_rust(g);
    let mut owns = |row: u32, col: u32| match &mut rust {
        Some(rust) => rust.point(row, col, x, y),
        None => {
            let mut out = [0];
            model::point_owned(g, row, col, x, y, &mut out) == 0 && out[0] == 1
        }
    };
    let near = |low: f64, size: f64, p: f64, count: u32| {
        if g.cols * g.rows <= few {
            return (0, count);
        }
        let at = ((p - low) / size).floor().clamp(0.0, count as f64) as u32;
        (at.saturating_sub(3), (at + 3).min(count))
    };
    let (from_row, to_row) = near(g.min_y, g.cell_height, y, g.rows);
    let (from_col, to_col) = near(g.min_x, g.cell_width, x, g.cols);
    for row in from_row..to_row {
        for col in from_col..to_col {
            if owns(row, col) {
                return [1, row as u64, col as u64];
            }
        }
    }
    let ends = |low: f64, size: f64, p: f64, count: u32| count > 0 && (low..=low + (count - 1) as f64 * size + size).contains(&p);
    if ends(g.min_x, g.cell_width, x, g.cols) && ends(g.min_y, g.cell_height, y, g.rows) {
        return [2, 0, 0];
    }
    [0, 0, 0]
}
