//! The covering walk once more, by its rule in words and on wide signed numbers. A cell is 2^20 fine units. Floats bring the ends into fine units, and all
//! else is whole numbers.

use crate::model::{counts_fit, SCRATCH};
use crate::{Grid, Line};

const CELL: i128 = 1 << 20;

/// A fine coordinate, or none where the guard does not let it pass: below the low side, or 4,095 cells away.
fn fine(low: f64, size: f64, v: f64) -> Option<i128> {
    let units = (v - low) / (size / CELL as f64);
    (v >= low && units < 4095.0 * CELL as f64).then_some(units.max(0.0) as i128)
}

/// The cells of a line that passes: none where it does not.
fn by_rule(g: &Grid, line: &Line) -> Option<Vec<u32>> {
    let end = |x, y| Some((fine(g.min_x, g.cell_width, x)?, fine(g.min_y, g.cell_height, y)?));
    let (one, other) = (end(line[0], line[1])?, end(line[2], line[3])?);
    let (low, high) = if other.1 < one.1 { (other, one) } else { (one, other) };
    let (cols, rows) = (g.cols as i128, g.rows as i128);
    let cell = |n: i128, v: i128| (v / CELL).min(n - 1);
    let (first, last) = (cell(rows, low.1), cell(rows, high.1));
    let sides = (low.0.min(high.0), low.0.max(high.0));
    let mut cells = Vec::new();
    for row in first..=last {
        let (mut left, mut right) = sides;
        if first < last {
            // how far along the line is at a height, in the direction it goes
            let (across, up) = (high.0 - low.0, high.1 - low.1);
            let slope = (across.abs() << 32) / up;
            let at = |y: i128| ((y - low.1) * slope) >> 32;
            let near = at((row * CELL - 3).max(low.1));
            let far = at(if row == last { high.1 } else { ((row + 1) * CELL + 3).min(high.1) });
            // widened by 3 behind, and by 5 ahead
            let (behind, ahead) = (near - 3, far + 5);
            let places = if across >= 0 { (low.0 + behind, low.0 + ahead) } else { (low.0 - ahead, low.0 - behind) };
            (left, right) = (left.max(places.0), right.min(places.1));
        }
        for col in cell(cols, left)..=cell(cols, right) {
            cells.push((row * cols + col) as u32);
        }
    }
    Some(cells)
}

/// A line does not pass, on a grid that has cells.
pub fn off(g: &Grid, line: &Line) -> bool {
    g.cols > 0 && by_rule(g, line).is_none()
}

/// A line does not pass, and the grid has more than 2,048 cells.
pub fn everywhere(g: &Grid, line: &Line) -> bool {
    by_rule(g, line).is_none() && g.rows * g.cols > 2048
}

/// The cells of a line on a grid that has some: those of the rule, or all.
pub fn cells(g: &Grid, line: &Line) -> Vec<u32> {
    by_rule(g, line).unwrap_or_else(|| (0..g.rows * g.cols).collect())
}

/// The covering walk inside a build, on a grid and of a line as they are: 3, and 8 by the counts; 16 where a line does not pass on a grid of more than 2,048
/// cells; else its cells at the start of the scratch.
pub fn segment_cells(g: &Grid, line: &Line, scratch: &mut [u32], out: &mut [u64]) -> u32 {
    out[0] = 0;
    if scratch.len() < SCRATCH {
        return 3;
    }
    if !counts_fit(g) {
        return 8;
    }
    let count = g.rows * g.cols;
    if count != 0 && everywhere(g, line) {
        return 16;
    }
    let cells = if count == 0 { vec![] } else { cells(g, line) };
    assert!(cells.windows(2).all(|c| c[0] < c[1]) && cells.iter().all(|&c| c < count), "the rule's cells increase, in the grid");
    scratch[..cells.len()].copy_from_slice(&cells);
    out[0] = cells.len() as u64;
    0
}
