//! Points that rounding leaves to nobody: between the high edge of a column or row and the low edge of the next. They are sought between every two
//! neighbours of grids with two sizes, and their owner is asked, with that of the points beside them.

use super::{answers, float, rounder, show_grid, sizes, word, Kind, WHERE_SQUARED};
use crate::kinds::own;
use crate::model;
use crate::oracle::Squared;
use crate::port;
use crate::random::{decimals, nudged, Random};
use crate::Grid;

#[derive(Clone)]
pub struct Case {
    pub grid: Grid,
    pub x: f64,
    pub y: f64,
}

/// Where the grids begin, with the name of the place.
const PLACES: [(&str, f64); 4] = [("near 281", 281.0), ("near 1e3", 1e3), ("near 1e6", 1e6), ("near 1e9", 1e9)];

/// A fit grid of two sizes near a place, all of it within 1e9. In half of them the sizes are a power of two apart: there the Rust can be asked.
fn grid_near(r: &mut Random, place: f64) -> Grid {
    let cols = 2 + r.below(1000) as u32;
    let rows = 2 + r.below(7) as u32;
    // so much of the place's last digits that neighbours are still apart
    let least = (place * 2f64.powi(-46)).max(2.5e-7);
    let size = |r: &mut Random| match r.below(3) {
        0 => decimals(r.size(0.01, 10.0), 2).max(0.01),
        _ => r.size(least.max(1e-6), 30.0),
    };
    let cell_width = size(r);
    let cell_height = if r.once_in(2) { cell_width * r.pick(&[0.25, 0.5, 2.0, 4.0, 8.0]) } else { size(r) };
    let mut low = |size: f64, count: u32| {
        let v = place + if r.once_in(2) { decimals(r.between(-20.0, 20.0), 2) } else { r.between(-20.0, 20.0) };
        v.min(1e9 - size * (count + 1) as f64)
    };
    let (min_x, min_y) = (low(cell_width, cols), low(cell_height, rows));
    Grid { min_x, min_y, cell_width: cell_width.max(2.5e-7), cell_height: cell_height.max(2.5e-7), cols, rows }
}

/// The first and the last float between index i and the next, where there is one.
fn seam(low: f64, size: f64, i: u32) -> Option<[f64; 2]> {
    let from = (low + i as f64 * size) + size;
    let to = low + (i + 1) as f64 * size;
    (from < to).then(|| [from, nudged(to, -1)])
}

/// A coordinate for the other axis: inside, on either end, beyond either end, or in a seam where there is one.
fn other(r: &mut Random, low: f64, size: f64, count: u32) -> f64 {
    let high = (low + (count - 1) as f64 * size) + size;
    match r.below(8) {
        0 => low,
        1 => high,
        2 => nudged(low, -1),
        3 => nudged(high, 1).min(1e9),
        4 => (0..count - 1).find_map(|i| seam(low, size, i)).map_or(low, |s| s[0]),
        _ => r.between(low, high),
    }
}

/// The points of a seam between two columns, or two rows, of the grid, with those beside it; and how many neighbours are parted by one.
fn points(r: &mut Random, g: &Grid) -> (u64, Vec<Case>) {
    let (mut seams, mut all) = (0, Vec::new());
    for i in 0..g.cols - 1 {
        if let Some([from, to]) = seam(g.min_x, g.cell_width, i) {
            seams += 1;
            for x in [from, to, nudged(from, -1), nudged(to, 1)] {
                all.push(Case { grid: *g, x, y: other(r, g.min_y, g.cell_height, g.rows) });
            }
        }
    }
    for i in 0..g.rows - 1 {
        if let Some([from, to]) = seam(g.min_y, g.cell_height, i) {
            seams += 1;
            for y in [from, to, nudged(from, -1), nudged(to, 1)] {
                all.push(Case { grid: *g, x: other(r, g.min_x, g.cell_width, g.cols), y });
            }
        }
    }
    (seams, all)
}

/// The points of every seam of so many grids at each place; says how many neighbours were looked at, and how many seams there are.
pub fn found(seed: u64, grids: u64) -> Vec<(&'static str, Case)> {
    let mut all = Vec::new();
    for (at, (name, place)) in PLACES.into_iter().enumerate() {
        let (mut neighbours, mut seams) = (0, 0);
        for i in 0..grids {
            let r = &mut Random::new(seed.wrapping_add((i * 4 + at as u64).wrapping_mul(0x9e3779b97f4a7c15)));
            let g = grid_near(r, place);
            let (n, points) = points(r, &g);
            neighbours += (g.cols + g.rows - 2) as u64;
            seams += n;
            all.extend(points.into_iter().map(|c| (name, c)));
        }
        println!("seams: {name}: {grids} grids, {neighbours} neighbouring columns and rows, {seams} parted by a seam");
    }
    all
}

pub struct Seams;

impl Kind for Seams {
    type Case = Case;
    const NAME: &'static str = "seams";
    const SIDES: &'static str = WHERE_SQUARED;

    /// A point of a seam, or beside one.
    fn draw(r: &mut Random) -> (&'static str, Case) {
        loop {
            let (name, place) = r.pick(&PLACES);
            let g = grid_near(r, place);
            let (_, points) = points(r, &g);
            if !points.is_empty() {
                let i = r.below(points.len() as u64) as usize;
                return (name, points[i].clone());
            }
        }
    }

    fn check(c: &Case) -> Result<&'static str, String> {
        let (mut of_model, mut of_port) = ([u64::MAX; 3], [u64::MAX; 3]);
        let number = model::owner(&c.grid, c.x, c.y, &mut of_model);
        let got = port::owner(&c.grid, c.x, c.y, &mut of_port);
        answers("port: owner", (number, &of_model), (got, &of_port))?;
        if number != 0 {
            return Ok(word(number));
        }
        answers("port: owner", (0, &own::scan_all(&c.grid, c.x, c.y)), (got, &of_port))?;
        Ok(match (of_port[0], Squared::of(&c.grid).is_some()) {
            (2, true) => "in a seam, by the Rust too",
            (2, false) => "in a seam",
            (1, true) => "owned, by the Rust too",
            (1, false) => "owned",
            (_, true) => "outside, by the Rust too",
            (_, false) => "outside",
        })
    }

    fn smaller(case: &Case) -> Vec<Case> {
        let mut all = Vec::new();
        let mut put = |change: &dyn Fn(&mut Case)| {
            let mut c = case.clone();
            change(&mut c);
            all.push(c);
        };
        for v in rounder(case.grid.min_x) {
            put(&|c| c.grid.min_x = v);
        }
        for v in rounder(case.grid.min_y) {
            put(&|c| c.grid.min_y = v);
        }
        for (width, height) in sizes(&case.grid, true) {
            put(&|c| (c.grid.cell_width, c.grid.cell_height) = (width, height));
        }
        for v in rounder(case.x) {
            put(&|c| c.x = v);
        }
        for v in rounder(case.y) {
            put(&|c| c.y = v);
        }
        if case.grid.cols > 1 {
            put(&|c| c.grid.cols /= 2);
        }
        if case.grid.rows > 1 {
            put(&|c| c.grid.rows /= 2);
        }
        all
    }

    fn show(c: &Case) -> String {
        format!("{}point {}, {}\n", show_grid(&c.grid), float(c.x), float(c.y))
    }
}
