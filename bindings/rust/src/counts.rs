//! Counting on several benches: one agreed grid, a count table for each share of the lines, and their sum.

use crate::refusal::{answer, Refusal};
use crate::{sys, Built, Grid, Lines, Mode, Sizing, SCRATCH};

/// The grid that benches agree on: the first that a build of so many lines within these bounds would try. The bounds go in by two opposite corners, in
/// either order. Any number of lines may be named: from about 1,000,000 on the cells get no smaller. No lines have [`Grid::EMPTY`].
///
/// Refuses by 1 (a coordinate of a corner). The grid is fit.
///
/// ```
/// use morelturret::{agreed_grid, Sizing};
///
/// let grid = agreed_grid((0.0, 0.0), (2.0, 2.0), 4, Sizing::Square)?;
/// assert_eq!((grid.cols, grid.rows, grid.cell_width), (3, 3, 1.0)); // as a build of the square's four lines has it
/// # Ok::<(), morelturret::Refusal>(())
/// ```
pub fn agreed_grid(corner: (f64, f64), opposite: (f64, f64), lines: usize, sizing: Sizing) -> Result<Grid, Refusal> {
    let words = answer(|out| sys::agreed_grid(corner.0, corner.1, opposite.0, opposite.1, lines, sizing as u32, out))?;
    Ok(Grid::from_words(words))
}

/// What a count answers beside the counts that it wrote.
#[derive(Clone, Copy, PartialEq, Eq, Hash, Debug, Default)]
pub struct Counted {
    /// The sum of all counts.
    pub listed: u64,
    /// How many lines are global: they are counted in no cell.
    pub globals: u64,
}

/// Counts the lines of each cell of a grid into a lent slice: `counts[c]` is how many lines visit cell c, and zero from the number of cells on.
/// [`Counts`] does the same with a table of its own. The scratch has at least [`SCRATCH`] entries, and is zeroed.
///
/// Refuses by 3 (lengths, scratch), 2 (too many lines), 1 (a coordinate), 8 (the grid), 4 (fewer than cells + 1 counts), 7 (a walk too long). Refusals 4
/// and 7 leave zeros in both slices, the others change nothing.
pub fn count(lines: Lines, grid: Grid, mode: Mode, counts: &mut [u32], scratch: &mut [u32]) -> Result<Counted, Refusal> {
    let Lines { start_x, start_y, end_x, end_y } = lines;
    let [listed, globals] = answer(|out| sys::count(start_x, start_y, end_x, end_y, &grid.words(), mode as u32, counts, scratch, out))?;
    Ok(Counted { listed, globals })
}

/// Adds a count table into another of the same length.
///
/// Refuses by 3 (unequal lengths), 13 (the first entry whose sum is above 65,536). Both change nothing.
///
/// ```
/// use morelturret::{add, Refusal};
///
/// let mut table = [1, 65536, 2];
/// add(&mut table, &[1, 0, 0])?;
/// assert_eq!(table, [2, 65536, 2]);
/// assert_eq!(add(&mut table, &[0, 1, 0]).unwrap_err(), Refusal { number: Refusal::SUM_TOO_LARGE, value: 1 });
/// # Ok::<(), morelturret::Refusal>(())
/// ```
pub fn add(into: &mut [u32], from: &[u32]) -> Result<(), Refusal> {
    answer::<1>(|out| sys::add(into, from, out)).map(|_| ())
}

/// Writes the tables of the lines on a grid that was agreed on into lent slices, as [`build`](crate::build()) leaves them on a grid that it picks. The
/// grid stays, however many lines a cell lists. [`Tables::on`](crate::Tables::on) does the same with slices of its own.
///
/// Refuses by 3 (lengths, scratch), 2 (too many lines), 1 (a coordinate), 8 (the grid), 4 (offsets), 7 (a walk too long), 5 (items), 6 (globals). Refusals
/// 4 to 7 leave zeros in the four slices, the others change nothing.
pub fn tables_on(
    lines: Lines,
    grid: Grid,
    mode: Mode,
    offsets: &mut [u32],
    items: &mut [u32],
    globals: &mut [u32],
    scratch: &mut [u32],
) -> Result<Built, Refusal> {
    let Lines { start_x, start_y, end_x, end_y } = lines;
    let [items, globals] =
        answer(|out| sys::tables_on(start_x, start_y, end_x, end_y, &grid.words(), mode as u32, offsets, items, globals, scratch, out))?;
    Ok(Built { grid, items: items as usize, globals: globals as usize })
}

/// The count table of the lines of one bench, or of several: on one grid, in one mode of walk.
///
/// Where each of at most 65,536 lines is counted on exactly one bench, adding gives the table of a single count and is never refused, however the lines are
/// shared and in whichever order the tables are added.
///
/// ```
/// use morelturret::{agreed_grid, Counts, Lines, Mode, Sizing};
///
/// let (x, y) = ([0.0, 2.0, 2.0, 0.0, 0.0], [0.0, 0.0, 2.0, 2.0, 0.0]);
/// let grid = agreed_grid((0.0, 0.0), (2.0, 2.0), 4, Sizing::Square)?;
/// // one bench has the first three lines, another the last
/// let mut sum = Counts::of(Lines::chain(&x[..4], &y[..4]), grid, Mode::Rust)?;
/// sum.add(&Counts::of(Lines::chain(&x[3..], &y[3..]), grid, Mode::Rust)?)?;
/// assert_eq!(sum, Counts::of(Lines::chain(&x, &y), grid, Mode::Rust)?);
/// assert_eq!((sum.cell(0, 0), sum.counted().listed, sum.counted().globals), (2, 18, 0));
/// # Ok::<(), morelturret::Refusal>(())
/// ```
#[derive(Clone, PartialEq, Debug)]
pub struct Counts {
    grid: Grid,
    mode: Mode,
    counts: Vec<u32>,
    counted: Counted,
}

impl Counts {
    /// The count of no lines.
    ///
    /// Refuses by 8 (the grid).
    pub fn none(grid: Grid, mode: Mode) -> Result<Counts, Refusal> {
        Counts::of(Lines::default(), grid, mode)
    }

    /// The count of these lines on a grid, in a mode of walk.
    ///
    /// Refuses by 3 (lengths), 2 (too many lines), 1 (a coordinate), 8 (the grid), 7 (a walk too long).
    pub fn of(lines: Lines, grid: Grid, mode: Mode) -> Result<Counts, Refusal> {
        // of a grid that is not fit no table is made: the count refuses it
        let cells = if grid.cols <= 4004 && grid.rows <= 4004 { grid.cols as usize * grid.rows as usize } else { 0 };
        let mut counts = vec![0; cells + 1];
        let counted = count(lines, grid, mode, &mut counts, &mut vec![0; SCRATCH])?;
        Ok(Counts { grid, mode, counts, counted })
    }

    /// Adds the count of another bench.
    ///
    /// Refuses by 3 (another grid or another mode of walk), 13 (the first cell whose sum is above 65,536). Both change nothing.
    pub fn add(&mut self, other: &Counts) -> Result<(), Refusal> {
        if self.grid.words() != other.grid.words() || self.mode != other.mode {
            return Err(Refusal { number: Refusal::BAD_LENGTHS, value: 0 });
        }
        add(&mut self.counts, &other.counts)?;
        self.counted.listed += other.counted.listed;
        self.counted.globals += other.counted.globals;
        Ok(())
    }

    /// The grid.
    pub fn grid(&self) -> Grid {
        self.grid
    }

    /// The mode of walk.
    pub fn mode(&self) -> Mode {
        self.mode
    }

    /// How many lines visit each cell, in row order, and one zero beyond.
    pub fn counts(&self) -> &[u32] {
        &self.counts
    }

    /// How many lines visit the cell (row, col); none beyond the grid's end.
    pub fn cell(&self, row: u32, col: u32) -> u32 {
        let Grid { cols, rows, .. } = self.grid;
        if row >= rows || col >= cols {
            return 0;
        }
        self.counts[row as usize * cols as usize + col as usize]
    }

    /// The sum of all counts, and the number of global lines.
    pub fn counted(&self) -> Counted {
        self.counted
    }
}
