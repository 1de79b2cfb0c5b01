//! The grid of geo-polygonize under its own names, over the proved library: [`UniformGrid::new`] and its fields, the two visits with their callbacks,
//! [`CandidatePair`] and [`SoALines`]. What stands around `noding/grid.rs` there, such as the exact predicate, splits, heights and traces, can stay as
//! it is.
//!
//! What changes for a caller:
//!
//! - A line is whatever implements [`Segment`], which takes one function; `Line3D` does by handing out x and y of both ends.
//! - [`UniformGrid::new`] panics with the refusal's sentence where the library refuses, which the Rust never does: more than 65,536 lines, a
//!   coordinate that is not finite or above 1e9, or a walk too long. [`UniformGrid::try_new`] hands the refusal back.
//! - A tracker is whatever implements [`Tracker`]. With `None` the visits are the Rust's, callback by callback.
//!
//! ```
//! use morelturret::drop_in::{CandidatePair, Segment, SoALines, UniformGrid};
//!
//! struct Line3D { start: [f64; 3], end: [f64; 3] }
//! impl Segment for Line3D {
//!     fn ends(&self) -> [f64; 4] {
//!         [self.start[0], self.start[1], self.end[0], self.end[1]]
//!     }
//! }
//!
//! let lines = [Line3D { start: [0.0, 0.0, 7.0], end: [2.0, 2.0, 8.0] }, Line3D { start: [0.0, 2.0, 7.0], end: [2.0, 0.0, 9.0] }];
//! let grid = UniformGrid::new(&lines);
//! let soa = SoALines::new(&lines);
//! let mut found = Vec::new();
//! for cell in 0..grid.rows * grid.cols {
//!     let list = &grid.cell_items[grid.cell_offsets[cell]..grid.cell_offsets[cell + 1]];
//!     grid.visit_cell_candidates(list, &soa, None, |pair| {
//!         found.push(pair);
//!         Ok::<(), ()>(())
//!     })?;
//! }
//! assert_eq!(found[0], CandidatePair { first: 0, second: 1 });
//! # Ok::<(), ()>(())
//! ```

use crate::{Grid, LineVec, Lines, Pairs, Refusal, Standing, Tables};

/// A line, by the x and y of its ends.
pub trait Segment {
    /// Start x, start y, end x, end y.
    fn ends(&self) -> [f64; 4];
}

impl Segment for [f64; 4] {
    fn ends(&self) -> [f64; 4] {
        *self
    }
}

/// Told of every test of a visit, in order; what it answers as an error ends the visit.
pub trait Tracker<E> {
    /// A test, and whether the boxes of its two lines overlap.
    fn candidate(&mut self, overlaps: bool) -> Result<(), E>;
    /// Asked once the tests of a global line are made.
    fn check_cancelled(&mut self) -> Result<(), E> {
        Ok(())
    }
}

/// Two lines whose boxes overlap, by number.
#[derive(Clone, Copy, Debug, Eq, PartialEq)]
pub struct CandidatePair {
    /// The line that is visited first.
    pub first: usize,
    /// The other.
    pub second: usize,
}

/// A point of the plane.
#[derive(Clone, Copy, Debug, PartialEq)]
pub struct Coord {
    /// x.
    pub x: f64,
    /// y.
    pub y: f64,
}

/// The lines of a visit, coordinate by coordinate. It is made once, from the lines that the grid was made of.
pub struct SoALines {
    lines: LineVec,
}

impl SoALines {
    /// The lines, copied.
    pub fn new<L: Segment>(lines: &[L]) -> SoALines {
        SoALines { lines: lines.iter().map(Segment::ends).collect() }
    }

    /// How many there are.
    pub fn len(&self) -> usize {
        self.lines.lines().len()
    }

    /// Whether there are none.
    pub fn is_empty(&self) -> bool {
        self.len() == 0
    }
}

/// A grid and its tables, with the Rust's fields: square cells, by the Rust's walk.
#[derive(Clone, Debug)]
pub struct UniformGrid {
    /// `cell_offsets[i]..cell_offsets[i + 1]` is the range of cell i in `cell_items`.
    pub cell_offsets: Vec<usize>,
    /// The lines of each cell, one list after the other.
    pub cell_items: Vec<u32>,
    /// The lines that visit more than 2,048 cells, and stand in no list.
    pub global_lines: Vec<usize>,
    /// Width and height of a cell.
    pub cell_size: f64,
    /// The number of columns.
    pub cols: usize,
    /// The number of rows.
    pub rows: usize,
    /// The lower corner.
    pub bounds_min: Coord,
}

/// A grid of one cell, which lists that are gathered are visited on.
const ONE_CELL: Grid = Grid { cols: 1, rows: 1, ..Grid::EMPTY };

/// How many pairs a batch has room for.
const ROOM: usize = 1_024;

impl UniformGrid {
    /// The grid of these lines.
    ///
    /// # Panics
    ///
    /// With the refusal's sentence where the library refuses the lines. [`UniformGrid::try_new`] answers it instead.
    pub fn new<L: Segment>(lines: &[L]) -> UniformGrid {
        UniformGrid::try_new(lines).unwrap_or_else(|refusal| panic!("{refusal}"))
    }

    /// The grid of these lines. Refuses by 2 (too many lines), 1 (a coordinate), 7 (a walk too long).
    ///
    /// ```
    /// use morelturret::drop_in::UniformGrid;
    ///
    /// let refusal = UniformGrid::try_new(&[[0.0, 0.0, 1e10, 0.0]]).unwrap_err();
    /// assert_eq!(refusal.number, 1);
    /// ```
    pub fn try_new<L: Segment>(lines: &[L]) -> Result<UniformGrid, Refusal> {
        let owned: LineVec = lines.iter().map(Segment::ends).collect();
        let tables = Tables::of(owned.lines())?;
        let grid = tables.grid();
        let (cols, rows) = (grid.cols as usize, grid.rows as usize);
        let offsets = &tables.standing().offsets[..cols * rows + 1];
        Ok(UniformGrid {
            cell_offsets: offsets.iter().map(|&offset| offset as usize).collect(),
            cell_items: tables.items().to_vec(),
            global_lines: tables.globals().iter().map(|&line| line as usize).collect(),
            cell_size: grid.cell_width,
            cols,
            rows,
            bounds_min: Coord { x: grid.min_x, y: grid.min_y },
        })
    }

    /// The pairs of a cell's list whose boxes overlap: each entry with each later one, in order. An error that `visit` or the tracker answers ends it.
    ///
    /// # Panics
    ///
    /// Where the list names a line that `soa` does not have; and with the refusal's sentence where a line's coordinate is not finite or above 1e9,
    /// which no grid was made of.
    pub fn visit_cell_candidates<E, F>(
        &self,
        cell_indices: &[u32],
        soa: &SoALines,
        mut tracker: Option<&mut dyn Tracker<E>>,
        mut visit: F,
    ) -> Result<(), E>
    where
        F: FnMut(CandidatePair) -> Result<(), E>,
    {
        let count = cell_indices.len();
        if count < 2 {
            return Ok(());
        }
        // The lines of the list alone, numbered by their places in it: what the library checks of them takes no longer than the list is long.
        let all = soa.lines.lines();
        let gathered: LineVec = cell_indices.iter().map(|&line| all.get(line as usize).expect("a line of the list is in soa")).collect();
        let places: Vec<u32> = (0..count as u32).collect();
        let offsets = [0, count as u32];
        let standing = Standing { grid: ONE_CELL, line_count: count, offsets: &offsets, items: &places, globals: &[], global_count: 0 };
        let mut overlapping = overlapping(standing, gathered.lines(), ROOM.min(count * (count - 1) / 2));
        let line = |place: u32| cell_indices[place as usize] as usize;
        match tracker.as_deref_mut() {
            None => overlapping.try_for_each(|(i, j)| visit(CandidatePair { first: line(i), second: line(j) })),
            Some(tracker) => {
                let mut next = overlapping.next();
                for i in 0..count as u32 {
                    for j in i + 1..count as u32 {
                        let overlaps = next == Some((i, j));
                        tracker.candidate(overlaps)?;
                        if overlaps {
                            visit(CandidatePair { first: line(i), second: line(j) })?;
                            next = overlapping.next();
                        }
                    }
                }
                Ok(())
            }
        }
    }

    /// The pairs of one line with every other line whose box overlaps its own, in order, but with no global line of a lower number. An error that
    /// `visit` or the tracker answers ends it.
    ///
    /// # Panics
    ///
    /// Where there is no line of this number; and with the refusal's sentence where the library refuses the lines, as no grid was made of them then.
    pub fn visit_global_candidates_for_line<L: Segment, E, F>(
        &self,
        g_idx: usize,
        lines: &[L],
        soa: &SoALines,
        mut tracker: Option<&mut dyn Tracker<E>>,
        mut visit: F,
    ) -> Result<(), E>
    where
        F: FnMut(CandidatePair) -> Result<(), E>,
    {
        assert!(g_idx < lines.len(), "there is no line {g_idx}");
        // As the only global line, it is tested with every other.
        let global = [g_idx as u32];
        let standing = Standing { grid: ONE_CELL, line_count: soa.len(), offsets: &[0, 0], items: &[], globals: &global, global_count: 1 };
        let mut overlapping = overlapping(standing, soa.lines.lines(), ROOM.min(soa.len()));
        let lower = |target: usize| target < g_idx && self.global_lines.binary_search(&target).is_ok();
        match tracker.as_deref_mut() {
            None => overlapping
                .map(|(_, target)| target as usize)
                .filter(|&target| !lower(target))
                .try_for_each(|second| visit(CandidatePair { first: g_idx, second })),
            Some(tracker) => {
                let mut next = overlapping.next();
                for target in (0..lines.len()).filter(|&target| target != g_idx) {
                    let overlaps = next.is_some_and(|(_, second)| second as usize == target);
                    if overlaps {
                        next = overlapping.next();
                    }
                    if lower(target) {
                        continue;
                    }
                    tracker.candidate(overlaps)?;
                    if overlaps {
                        visit(CandidatePair { first: g_idx, second: target })?;
                    }
                }
                tracker.check_cancelled()
            }
        }
    }
}

/// The pairs of a visit.
fn overlapping<'a>(standing: Standing<'a>, lines: Lines<'a>, room: usize) -> Pairs<'a> {
    standing.pairs(lines, room).unwrap_or_else(|refusal| panic!("{refusal}"))
}
