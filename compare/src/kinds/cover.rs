//! The covering walk: the cells of a line, with the scratch that is left; and of two lines that share an exact point, that they share a cell.

use super::walk::{self, Walk};
use super::{answers, float, show_grid, slices, word, Kind, JUNK};
use crate::cases;
use crate::cover;
use crate::model::{self, SCRATCH};
use crate::random::{nudged, Random};
use crate::{Grid, Line, Mode};

#[derive(Clone)]
pub struct Case {
    pub walk: walk::Case,
    /// A line that shares an exact point with the first.
    pub other: Line,
}

/// Of one axis: two ways away from a point at a whole number of `unit`s, each exact.
fn through(r: &mut Random, low: f64, size: f64, count: u32) -> Option<[[f64; 2]; 2]> {
    let unit = 2f64.powi(size.log2().floor() as i32 - r.below(12) as i32);
    let middle = ((low + r.unit() * count as f64 * size) / unit).round() * unit;
    let mut way = || {
        let step = (r.below(4001) as f64 - 2000.0) * unit;
        let ends = [middle - step, middle + step];
        ((middle - ends[0] == step) && (ends[1] - middle == step) && ends.iter().all(|v| v.abs() <= 1e9)).then_some(ends)
    };
    Some([way()?, way()?])
}

/// A line that shares an exact point with another: an end, or the middle of both.
fn touching(r: &mut Random, g: &Grid, line: &Line) -> (Line, Line) {
    if r.once_in(2) {
        if let (Some(x), Some(y)) = (through(r, g.min_x, g.cell_width, g.cols), through(r, g.min_y, g.cell_height, g.rows)) {
            return ([x[0][0], y[0][0], x[0][1], y[0][1]], [x[1][0], y[1][0], x[1][1], y[1][1]]);
        }
    }
    let mut other = cases::segment(r, g).1;
    let k = 2 * r.below(2) as usize;
    (other[0], other[1]) = (line[k], line[k + 1]);
    (*line, if r.once_in(2) { other } else { [other[2], other[3], other[0], other[1]] })
}

pub struct Cover;

impl Kind for Cover {
    type Case = Case;
    const NAME: &'static str = "cover";
    const SIDES: &'static str = "port and model";

    fn draw(r: &mut Random) -> (&'static str, Case) {
        let (mut shape, mut walk) = Walk::<true>::draw(r);
        if r.once_in(8) {
            // at the guard: 4,095 cells from the low side, or at it
            let g = &walk.grid;
            let (k, low, size) = r.pick(&[(0, g.min_x, g.cell_width), (1, g.min_y, g.cell_height), (2, g.min_x, g.cell_width), (3, g.min_y, g.cell_height)]);
            let edge = low + r.pick(&[0.0, 4095.0, 4095.0, 4096.0]) * size;
            walk.line[k] = nudged(edge, r.below(5) as i64 - 2).clamp(-1e9, 1e9);
            shape = "at the guard";
        }
        let (line, other) = touching(r, &walk.grid, &walk.line);
        (shape, Case { walk: walk::Case { line, ..walk }, other })
    }

    fn check(case: &Case) -> Result<&'static str, String> {
        let (g, line) = (&case.walk.grid, &case.walk.line);
        let asked = |line: &Line, entry: fn(&Grid, &Line, &mut [u32], &mut [u64]) -> u32| {
            let mut scratch = vec![JUNK; case.walk.scratch];
            let mut out = [u64::MAX; 8];
            (entry(g, line, &mut scratch, &mut out), out, scratch)
        };
        let (number, out, wanted) = asked(line, cover::segment_cells);
        let (found, said, scratch) = asked(line, crate::port::inner_cover);
        answers("covering walk", (number, &out), (found, &said))?;
        // what is beyond the cells is open; every other answer leaves all as it was
        let settled = if number == 0 { out[0] as usize } else { case.walk.scratch };
        slices("scratch", &wanted[..settled], &scratch[..settled])?;
        let (second, more, beside) = asked(&case.other, crate::port::inner_cover);
        // on a fit grid, of lines that obey the rule
        let fits = model::grid_fits(g) && [line, &case.other].iter().all(|l| l.iter().all(|&v| model::coordinate_fits(v)));
        if (number, second) == (0, 0) && g.cols > 0 && fits {
            let beside = &beside[..more[0] as usize];
            if !scratch[..settled].iter().any(|c| beside.binary_search(c).is_ok()) {
                return Err(format!("no cell is shared with {}", case.other.map(float).join(", ")));
            }
        }
        Ok(word(number))
    }

    fn smaller(case: &Case) -> Vec<Case> {
        // the two lines have to keep their common point, so only the grid gets simpler
        Walk::<true>::smaller(&case.walk).into_iter().filter(|w| w.line == case.walk.line).map(|walk| Case { walk, other: case.other }).collect()
    }

    fn show(case: &Case) -> String {
        let mut text = show_grid(&case.walk.grid);
        for line in [case.walk.line, case.other] {
            text += &format!("segment {}\n", line.map(float).join(", "));
        }
        text + &format!("scratch {}\n", case.walk.scratch)
    }
}

/// Lines that do not pass, on grids of 0 by 0, of 2,048 and of 2,049 cells, and one along the far edge of the last row.
pub fn fixed() -> Vec<(&'static str, Case)> {
    let four = Grid { min_x: 0.0, min_y: 0.0, cell_width: 1.0, cell_height: 1.0, cols: 4, rows: 4 };
    let off = [-1.0, 0.5, 2.5, 0.5];
    let mut all = Vec::new();
    for (cols, rows) in [(0, 0), (1, 1), (4, 4), (64, 32), (683, 3), (4004, 250)] {
        for line in [off, [0.5, 0.5, 2.5, 0.5], [0.0, 4.0, 4.0, 4.0], [4094.9, 0.5, 0.5, 4095.0], [0.5, 3.0, 4.0, 17.5]] {
            let walk = walk::Case { grid: Grid { cols, rows, ..four }, line, mode: Mode::Covering as u32, scratch: SCRATCH };
            all.push(("off the grid", Case { walk, other: [line[0], line[1], 0.5, 0.5] }));
        }
    }
    all
}
