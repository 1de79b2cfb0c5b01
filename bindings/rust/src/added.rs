//! One more line on standing tables, without a rebuild.

use crate::refusal::{answer, Refusal};
use crate::{sys, Grid, Mode};

/// What adding a line answers beside the tables that it grew.
#[derive(Clone, Copy, PartialEq, Eq, Hash, Debug)]
pub struct Added {
    /// The number of items now.
    pub items: usize,
    /// The number of global lines now.
    pub globals: usize,
    /// How many cells list the line: none where it is global.
    pub cells: usize,
}

/// Adds a line to lent tables of `line_count` lines at their grid, in a mode of walk: [`Tables::push`](crate::Tables::push) does the same with slices of its own. The
/// line's number is `line_count`. It goes to the end of the list of each cell that it visits, or of the globals if those are more than 2,048; all other lists keep
/// their entries. Beyond the tables all three slices are zeroed, and so is the scratch, which has at least [`SCRATCH`](crate::SCRATCH) entries. A line needs room
/// for at most [`MAX_CELLS_OF_LINE`](crate::MAX_CELLS_OF_LINE) items more, or one global.
///
/// Refuses by 3 (scratch), 2 (65,536 lines stand), 1 (a coordinate), 8 (the grid, 0 by 0 too), 10 (the tables), 14 (an end outside the grid), 7 (a walk too long),
/// 5 (items), 6 (globals). No refusal changes the tables; 5, 6 and 7 leave the scratch zero.
///
/// ```
/// use morelturret::{add_line, build, Lines, Mode, Sizing, SCRATCH};
///
/// let lines = Lines { start_x: &[0.0], start_y: &[0.0], end_x: &[2.0], end_y: &[2.0] };
/// let (mut offsets, mut items, mut globals, mut scratch) = ([0; 5], [0; 8], [0; 4], [0; SCRATCH]);
/// let built = build(lines, Sizing::Square, &mut offsets, &mut items, &mut globals, &mut scratch)?;
/// // the lower two of the four cells list the line 1 too
/// let added = add_line(built.grid, Mode::Rust, (0.5, 0.5), (2.5, 0.5), 1, &mut offsets, &mut items, &mut globals, 0, &mut scratch)?;
/// assert_eq!((added.items, added.cells), (6, 2));
/// assert_eq!((offsets, items), ([0, 2, 4, 5, 6], [0, 1, 0, 1, 0, 0, 0, 0]));
/// # Ok::<(), morelturret::Refusal>(())
/// ```
#[allow(clippy::too_many_arguments)]
pub fn add_line(
    grid: Grid,
    mode: Mode,
    start: (f64, f64),
    end: (f64, f64),
    line_count: usize,
    offsets: &mut [u32],
    items: &mut [u32],
    globals: &mut [u32],
    global_count: usize,
    scratch: &mut [u32],
) -> Result<Added, Refusal> {
    let [items, globals, cells] = answer(|out| {
        sys::add_line(
            &grid.words(), mode as u32, start.0, start.1, end.0, end.1, line_count, offsets, items, globals, global_count as u64, scratch, out,
        )
    })?;
    Ok(Added { items: items as usize, globals: globals as usize, cells: cells as usize })
}
