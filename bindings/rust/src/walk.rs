//! The cells of one segment.

use crate::refusal::{answer, Refusal};
use crate::{sys, Grid, Mode};

/// The cells that the segment from `start` to `end` visits in a mode of walk, by number, increasing, none twice. They are the start of the scratch, which has at
/// least [`SCRATCH`](crate::SCRATCH) entries; beyond them it is zeroed.
///
/// Refuses by 3 (a short scratch), 1 (a coordinate), 8 (the grid), 7 (a walk too long, which leaves the scratch zeroed).
///
/// ```
/// use morelturret::{segment_cells, Grid, Mode, SCRATCH};
///
/// let grid = Grid { min_x: 0.0, min_y: 0.0, cell_width: 1.0, cell_height: 1.0, cols: 4, rows: 4 };
/// let mut scratch = vec![0; SCRATCH];
/// assert_eq!(segment_cells(grid, (0.5, 0.5), (2.5, 0.5), Mode::Rust, &mut scratch)?, [0, 1, 2]);
/// # Ok::<(), morelturret::Refusal>(())
/// ```
pub fn segment_cells(grid: Grid, start: (f64, f64), end: (f64, f64), mode: Mode, scratch: &mut [u32]) -> Result<&[u32], Refusal> {
    let [count] = answer(|out| sys::segment_cells(&grid.words(), start.0, start.1, end.0, end.1, mode as u32, scratch, out))?;
    Ok(&scratch[..count as usize])
}
