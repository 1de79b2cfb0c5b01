//! The Rust's answers.

use crate::noding::grid::{reach, UniformGrid};
use crate::noding::snap::SnapNoder;
use crate::options::SnapStrategy;
use crate::stand_in::diagnostics::ExecutionWorkTracker;
use crate::stand_in::geo::algorithm::line_intersection::LineIntersection;
use crate::stand_in::geo;
use crate::types::{Coord3D, Line3D};
use crate::utils::soa::SoALines;
use crate::{Grid, Line};

/// Lines as the Rust takes them.
pub struct Lines(Vec<Line3D>);

fn line_of(l: &Line) -> Line3D {
    Line3D { start: Coord3D::new(l[0], l[1], 0.0), end: Coord3D::new(l[2], l[3], 0.0), line_id: 0 }
}

impl Lines {
    pub fn new(lines: &[Line]) -> Self {
        Lines(lines.iter().map(line_of).collect())
    }

    /// The cells of one line.
    #[inline]
    pub fn cells(&self, line: usize, grid: &Grid) -> impl std::ops::Deref<Target = [usize]> {
        reach::cells(&self.0[line], grid)
    }

    pub fn bytes(&self) -> usize {
        self.0.len() * std::mem::size_of::<Line3D>()
    }
}

/// The cells of a segment on a grid of square cells.
pub fn segment_cells(grid: &Grid, line: &Line) -> Vec<u32> {
    assert_eq!(grid.cell_width, grid.cell_height, "the Rust has one cell size");
    reach::cells(&line_of(line), grid).iter().map(|&c| c as u32).collect()
}

/// The square cells that a fit grid has once x and y are multiplied by two factors, where these are powers of two. Multiplied by them, from 1 on,
/// no float is rounded; and every step of the walk and of the ownership tests is one of an axis by itself, or compares what is the same on both
/// grids. So the Rust, which has one cell size, answers for a grid of two sizes as well.
pub struct Squared {
    grid: Grid,
    factors: [f64; 2],
}

impl Squared {
    /// None where the ratio of the sizes is no power of two.
    pub fn of(g: &Grid) -> Option<Squared> {
        // equal digits: only the exponents may differ
        if (g.cell_width.to_bits() ^ g.cell_height.to_bits()) << 12 != 0 {
            return None;
        }
        let size = g.cell_width.max(g.cell_height);
        let factors = [size / g.cell_width, size / g.cell_height];
        let grid = Grid { min_x: g.min_x * factors[0], min_y: g.min_y * factors[1], cell_width: size, cell_height: size, ..*g };
        Some(Squared { grid, factors })
    }

    pub fn grid(&self) -> &Grid {
        &self.grid
    }

    /// Whether the cells were square already.
    pub fn is_itself(&self) -> bool {
        self.factors == [1.0, 1.0]
    }

    pub fn point(&self, x: f64, y: f64) -> (f64, f64) {
        (x * self.factors[0], y * self.factors[1])
    }

    pub fn line(&self, line: &Line) -> Line {
        let ((a, b), (c, d)) = (self.point(line[0], line[1]), self.point(line[2], line[3]));
        [a, b, c, d]
    }
}

/// A grid that the Rust built.
pub struct Built(UniformGrid);

pub fn build(lines: &Lines) -> Built {
    Built(UniformGrid::new(&lines.0))
}

impl Built {
    /// Tables that stand on a grid of any two sizes, for the Rust to visit.
    pub fn standing(grid: &Grid, offsets: &[u32], items: &[u32], globals: &[u32]) -> Built {
        Built(reach::standing(grid, offsets, items, globals))
    }

    pub fn grid(&self) -> Grid {
        reach::record(&self.0)
    }
    pub fn offsets(&self) -> Vec<u32> {
        reach::offsets(&self.0).iter().map(|&o| o as u32).collect()
    }
    pub fn items(&self) -> &[u32] {
        reach::items(&self.0)
    }
    pub fn globals(&self) -> Vec<u32> {
        reach::globals(&self.0).iter().map(|&g| g as u32).collect()
    }

    /// The bytes of the tables.
    pub fn bytes(&self) -> usize {
        let word = std::mem::size_of::<usize>();
        reach::offsets(&self.0).len() * word + reach::items(&self.0).len() * 4 + reach::globals(&self.0).len() * word
    }

    /// The number of tests of a whole visit, and the pairs that it hands out.
    pub fn visit(&self, lines: &Lines) -> (u64, Vec<(u32, u32)>) {
        let soa = SoALines::new(&lines.0);
        let mut tracker = ExecutionWorkTracker::default();
        let mut pairs = Vec::new();
        reach::visit_all(&self.0, &lines.0, &soa, Some(&mut tracker), |a, b| pairs.push((a as u32, b as u32)));
        assert_eq!(tracker.overlaps, pairs.len() as u64);
        (tracker.tests, pairs)
    }

    /// The callbacks of the visit of each of these cells, in order.
    pub fn cell_callbacks(&self, lines: &Lines, cells: &[usize]) -> Vec<Vec<(usize, usize)>> {
        let soa = SoALines::new(&lines.0);
        cells.iter().map(|&cell| reach::cell_callbacks(&self.0, cell, &soa)).collect()
    }

    /// The callbacks of the visit of each of these lines as a global one, in order.
    pub fn global_callbacks(&self, lines: &Lines, globals: &[usize]) -> Vec<Vec<(usize, usize)>> {
        let soa = SoALines::new(&lines.0);
        globals.iter().map(|&line| reach::global_callbacks(&self.0, line, &lines.0, &soa)).collect()
    }

    /// A whole visit as `find_splits` makes it, boxes included: each pair is handed to `visit`, and nothing is counted.
    #[inline]
    pub fn visit_each(&self, lines: &Lines, visit: impl FnMut(usize, usize)) {
        let soa = SoALines::new(&lines.0);
        reach::visit_all(&self.0, &lines.0, &soa, None, visit);
    }
}

/// The Rust's ownership tests on one grid of square cells.
pub struct Owners {
    grid: UniformGrid,
    lines: [Line3D; 2],
    events: Vec<(usize, Coord3D)>,
}

impl Owners {
    pub fn new(grid: &Grid) -> Self {
        assert_eq!(grid.cell_width, grid.cell_height, "the Rust has one cell size");
        let line = line_of(&[0.0; 4]);
        Owners { grid: reach::bare(grid), lines: [line, line], events: Vec::with_capacity(4) }
    }

    /// Whether the cell owns a crossing at (x, y).
    #[inline]
    pub fn point(&mut self, row: u32, col: u32, x: f64, y: f64) -> bool {
        let at = LineIntersection::SinglePoint { intersection: geo::Coord { x, y }, is_proper: true };
        self.ask(row, col, at, &SnapNoder { grid_size: 0.0, snap_strategy: SnapStrategy::Grid })
    }

    /// Whether the cell owns a collinear overlap whose first end is (x, y), snapped.
    #[inline]
    pub fn overlap(&mut self, row: u32, col: u32, x: f64, y: f64, size: f64) -> bool {
        let p = geo::Coord { x, y };
        let at = LineIntersection::Collinear { intersection: geo::Line { start: p, end: p } };
        self.ask(row, col, at, &SnapNoder { grid_size: size, snap_strategy: SnapStrategy::Grid })
    }

    #[inline]
    fn ask(&mut self, row: u32, col: u32, at: LineIntersection<f64>, noder: &SnapNoder) -> bool {
        reach::owned(&self.grid, row as usize, col as usize, at, noder, &self.lines, &mut self.events)
    }
}

/// A snapped point.
#[inline]
pub fn snap(x: f64, y: f64, size: f64) -> (f64, f64) {
    snap_by(SnapStrategy::Grid, x, y, size)
}

/// A point snapped by the strategy that the port has retired.
pub fn snap_by_geos(x: f64, y: f64, size: f64) -> (f64, f64) {
    snap_by(SnapStrategy::GeosCompat, x, y, size)
}

#[inline]
fn snap_by(snap_strategy: SnapStrategy, x: f64, y: f64, size: f64) -> (f64, f64) {
    let p = SnapNoder { grid_size: size, snap_strategy }.snap(Coord3D::new(x, y, 0.0));
    (p.x, p.y)
}
