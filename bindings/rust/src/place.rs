//! The grid record, snapping, and which cell owns a point.

use crate::refusal::{answer, Refusal};
use crate::sys;

/// A grid: its lower corner, the width and the height of its cells, and how many columns and rows it has. A cell's number is row * cols + column.
///
/// It is fit if both minima are finite and at most 1e9 in magnitude, `cell_width` and `cell_height` are each from a quarter of 1e-6 to 2e9, and
/// `cols` and `rows` are both 0, or each 1 to 4,004 with product at most 1,002,001. An unfit grid is refused by 8. Every grid that a build answers
/// is fit.
#[derive(Clone, Copy, PartialEq, Debug)]
pub struct Grid {
    /// x of the lower corner.
    pub min_x: f64,
    /// y of the lower corner.
    pub min_y: f64,
    /// Width of a cell, in the unit of x.
    pub cell_width: f64,
    /// Height of a cell, in the unit of y.
    pub cell_height: f64,
    /// The number of columns.
    pub cols: u32,
    /// The number of rows.
    pub rows: u32,
}

impl Grid {
    /// The grid of no lines: minima 0, cells of 1 by 1, 0 columns and 0 rows.
    pub const EMPTY: Grid = Grid { min_x: 0.0, min_y: 0.0, cell_width: 1.0, cell_height: 1.0, cols: 0, rows: 0 };

    /// The words by which the library takes a grid, the first that it writes for a build: the bits of `min_x`, `min_y`, `cell_width` and
    /// `cell_height`, then `cols`, `rows`.
    ///
    /// ```
    /// use morelturret::Grid;
    ///
    /// let grid = Grid { min_x: 0.0, min_y: -0.0, cell_width: 1.0, cell_height: 2.0, cols: 4, rows: 3 };
    /// assert_eq!(grid.words(), [0, 1 << 63, 0x3ff0000000000000, 0x4000000000000000, 4, 3]);
    /// assert_eq!(Grid::from_words(grid.words()), grid);
    /// ```
    pub fn words(self) -> [u64; 6] {
        let [min_x, min_y, width, height] = [self.min_x, self.min_y, self.cell_width, self.cell_height].map(f64::to_bits);
        [min_x, min_y, width, height, self.cols as u64, self.rows as u64]
    }

    /// The grid that these words say. A count above `u32::MAX`, which no fit grid has, becomes `u32::MAX`.
    pub fn from_words([min_x, min_y, cell_width, cell_height, cols, rows]: [u64; 6]) -> Grid {
        let count = |word: u64| word.min(u32::MAX as u64) as u32;
        let [min_x, min_y, cell_width, cell_height] = [min_x, min_y, cell_width, cell_height].map(f64::from_bits);
        Grid { min_x, min_y, cell_width, cell_height, cols: count(cols), rows: count(rows) }
    }
}

/// How a coordinate is snapped.
#[derive(Clone, Copy, PartialEq, Eq, Hash, Debug)]
#[repr(u32)]
pub enum Strategy {
    /// Round half away of v / size, a zero signed as v / size, times size.
    Grid = 0,
}

/// Snaps a point to multiples of `size`, which is 0 or from 1e-6 to 1e6; size 0 returns the point.
///
/// Refuses by 1 (a coordinate), 12 (the size).
///
/// ```
/// use morelturret::{snap, Strategy};
///
/// assert_eq!(snap(-2.5, 0.49999999999999994, 1.0, Strategy::Grid), Ok((-3.0, 0.0)));
/// assert_eq!(snap(0.5, 0.5, 1e7, Strategy::Grid).unwrap_err().number, 12);
/// ```
pub fn snap(x: f64, y: f64, size: f64, strategy: Strategy) -> Result<(f64, f64), Refusal> {
    let [x, y] = answer(|out| sys::snap(x, y, size, strategy as u32, out))?;
    Ok((f64::from_bits(x), f64::from_bits(y)))
}

/// Whether GeosCompat, the strategy that had the number 1, gave the coordinate `v` the same bits as [`Strategy::Grid`] at this size. It was the floor of
/// (|v / size| + 0.5), with the sign of v / size, times size. The two differ where |v / size| is 0.49999999999999994, and nowhere else: so results
/// that were stored with it can be sorted, coordinate by coordinate. At size 0 both return the coordinate.
///
/// Refuses by 1 (the coordinate), 12 (the size).
///
/// ```
/// use morelturret::strategies_agree;
///
/// assert_eq!(strategies_agree(-2.5, 1.0), Ok(true)); // both gave -3
/// assert_eq!(strategies_agree(0.49999999999999994, 1.0), Ok(false)); // Grid gives 0, GeosCompat gave 1
/// ```
pub fn strategies_agree(v: f64, size: f64) -> Result<bool, Refusal> {
    let [same] = answer(|out| sys::strategies_agree(v, size, out))?;
    Ok(same == 1)
}

/// Whether the cell (row, col) owns the point (x, y): low <= p < high on both axes; in the last column or row p = high counts too.
///
/// Refuses by 1 (a coordinate), 8 (the grid), 9 (the cell).
///
/// ```
/// use morelturret::{point_owned, Grid};
///
/// let grid = Grid { min_x: 0.0, min_y: 0.0, cell_width: 1.0, cell_height: 1.0, cols: 4, rows: 4 };
/// assert_eq!(point_owned(grid, 0, 1, 1.0, 0.5), Ok(true));
/// assert_eq!(point_owned(grid, 0, 0, 1.0, 0.5), Ok(false));
/// ```
pub fn point_owned(grid: Grid, row: u32, col: u32, x: f64, y: f64) -> Result<bool, Refusal> {
    let [owned] = answer(|out| sys::point_owned(&grid.words(), row, col, x, y, out))?;
    Ok(owned == 1)
}

/// Whether the cell (row, col) owns a collinear overlap whose first end is (x, y): that end, snapped, has low <= p < high on both axes, or the
/// cell is (0, 0).
///
/// Refuses by 1 (a coordinate), 8 (the grid), 12 (the snap size), 9 (the cell).
///
/// ```
/// use morelturret::{overlap_owned, Grid, Strategy};
///
/// let grid = Grid { min_x: 0.0, min_y: 0.0, cell_width: 1.0, cell_height: 1.0, cols: 4, rows: 4 };
/// assert_eq!(overlap_owned(grid, 0, 2, 1.75, 0.5, 0.5, Strategy::Grid), Ok(true)); // 1.75 is snapped to 2
/// assert_eq!(overlap_owned(grid, 0, 1, 1.75, 0.5, 0.5, Strategy::Grid), Ok(false));
/// ```
pub fn overlap_owned(grid: Grid, row: u32, col: u32, x: f64, y: f64, size: f64, strategy: Strategy) -> Result<bool, Refusal> {
    let [owned] = answer(|out| sys::overlap_owned(&grid.words(), row, col, x, y, size, strategy as u32, out))?;
    Ok(owned == 1)
}

/// Whose a point is.
#[derive(Clone, Copy, PartialEq, Eq, Hash, Debug)]
pub enum Owner {
    /// The first cell in row order that owns the point.
    Cell {
        /// Its row.
        row: u32,
        /// Its column.
        col: u32,
    },
    /// No cell owns the point, though it lies between the low edge of the first and the high edge of the last column and row, ends included:
    /// rounding parted the high edge of a column or row from the low edge of the next.
    Seam,
    /// No cell owns the point, and it is not between those ends. So it is on a grid with no cells.
    Outside,
}

impl Owner {
    /// The number of a seam among the answers of [`owners`].
    pub const SEAM: u32 = u32::MAX - 1;
    /// The number of "outside" among the answers of [`owners`].
    pub const OUTSIDE: u32 = u32::MAX;

    /// The owner that a number among the answers of [`owners`] stands for, on a grid of so many columns. A number below the two constants is a
    /// cell's; that the grid has such a cell is not asked.
    pub fn by_number(number: u32, cols: u32) -> Owner {
        match number {
            Owner::SEAM => Owner::Seam,
            Owner::OUTSIDE => Owner::Outside,
            _ => Owner::Cell { row: number.checked_div(cols).unwrap_or(0), col: number.checked_rem(cols).unwrap_or(number) },
        }
    }
}

/// Whose the point (x, y) is: the first cell in row order that owns it, or else a seam, or outside.
///
/// Refuses by 1 (a coordinate), 8 (the grid).
///
/// ```
/// use morelturret::{owner, Grid, Owner};
///
/// let grid = Grid { min_x: 0.0, min_y: 0.0, cell_width: 0.1, cell_height: 1.0, cols: 7, rows: 4 };
/// assert_eq!(owner(grid, 0.25, 1.0), Ok(Owner::Cell { row: 1, col: 2 }));
/// assert_eq!(owner(grid, 0.6, 1.0), Ok(Owner::Seam)); // 0.5 + 0.1 is 0.6, and 6 * 0.1 is above it
/// assert_eq!(owner(grid, 0.8, 1.0), Ok(Owner::Outside));
/// ```
pub fn owner(grid: Grid, x: f64, y: f64) -> Result<Owner, Refusal> {
    let [found, row, col] = answer(|out| sys::owner(&grid.words(), x, y, out))?;
    Ok(match found {
        1 => Owner::Cell { row: row as u32, col: col as u32 },
        2 => Owner::Seam,
        _ => Owner::Outside,
    })
}

/// Whose each of many points is, as [`owner`] says it for one: `answers[i]` is the number of the cell that owns (`x[i]`, `y[i]`), which is row *
/// cols + column, or [`Owner::SEAM`], or [`Owner::OUTSIDE`]. The three slices have one length. A refusal changes no answer.
///
/// Refuses by 3 (the lengths), 1 (a coordinate: the first such point), 8 (the grid).
///
/// ```
/// use morelturret::{owners, Grid, Owner};
///
/// let grid = Grid { min_x: 0.0, min_y: 0.0, cell_width: 0.1, cell_height: 1.0, cols: 7, rows: 4 };
/// let mut answers = [0; 3];
/// owners(grid, &[0.25, 0.6, 0.8], &[1.0; 3], &mut answers)?;
/// assert_eq!(answers, [9, Owner::SEAM, Owner::OUTSIDE]);
/// assert_eq!(Owner::by_number(answers[0], grid.cols), Owner::Cell { row: 1, col: 2 });
/// # Ok::<(), morelturret::Refusal>(())
/// ```
pub fn owners(grid: Grid, x: &[f64], y: &[f64], answers: &mut [u32]) -> Result<(), Refusal> {
    let [_] = answer(|out| sys::owners(&grid.words(), x, y, answers, out))?;
    Ok(())
}
