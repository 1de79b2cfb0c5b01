//! Counts per block, for a display that greys out what is empty.

use crate::refusal::{answer, Refusal};
use crate::{sys, Added, Grid, Mode, Standing, Tables};

/// A block of 16 by 16 cells, by its row and its column of blocks. Those at the far edges may be smaller.
#[derive(Clone, Copy, PartialEq, Eq, Hash, Debug)]
pub struct Block {
    /// The row of blocks.
    pub row: u32,
    /// The column of blocks.
    pub col: u32,
}

/// A summary of tables: for each block, in row order, the number of items in it.
///
/// ```
/// use morelturret::{Block, Lines, Tables};
///
/// let lines = Lines::chain(&[0.0, 2.0, 2.0, 0.0, 0.0], &[0.0, 0.0, 2.0, 2.0, 0.0]);
/// let blocks = Tables::of(lines)?.blocks();
/// assert_eq!((blocks.cols(), blocks.rows(), blocks.counts()), (1, 1, &[18][..]));
/// let all = Block { row: 0, col: 0 };
/// assert_eq!(blocks.items_in(all, all)?, 18);
/// # Ok::<(), morelturret::Refusal>(())
/// ```
#[derive(Clone, PartialEq, Debug)]
pub struct Blocks {
    grid: Grid,
    counts: Vec<u32>,
}

/// How many blocks lie along so many cells.
fn along(cells: u32) -> u32 {
    cells.div_ceil(16)
}

impl Blocks {
    /// The summary of standing tables.
    ///
    /// Refuses by 2 (too many lines), 8 (the grid), 10 (the tables).
    pub fn of(tables: &Standing) -> Result<Self, Refusal> {
        let Standing { grid, line_count, offsets, items, globals, global_count } = *tables;
        // a fit grid has at most 4,148 blocks; an unfit one is refused whatever room there is
        let room = along(grid.cols) as usize * along(grid.rows) as usize;
        let mut counts = vec![0; room.min(MOST)];
        if room > MOST {
            tables.check_tables()?;
        }
        answer::<1>(|out| sys::block_counts(&grid.words(), line_count, offsets, items, globals, global_count, &mut counts, out))?;
        Ok(Blocks { grid, counts })
    }

    /// How many columns of blocks there are.
    pub fn cols(&self) -> u32 {
        along(self.grid.cols)
    }

    /// How many rows of blocks there are.
    pub fn rows(&self) -> u32 {
        along(self.grid.rows)
    }

    /// The number of items of each block, in row order. Global lines are in none.
    pub fn counts(&self) -> &[u32] {
        &self.counts
    }

    /// The items of the blocks from a lower corner to an upper, both included: those in the lists of their cells. Corners out of order give 0.
    ///
    /// Refuses by 9 (a block beyond the end, with its row of blocks; the lower corner is asked first).
    pub fn items_in(&self, low: Block, high: Block) -> Result<u64, Refusal> {
        items_in(&self.grid, &self.counts, low, high)
    }
}

/// The most blocks of a fit grid.
const MOST: usize = 4148;

/// The numbers of any summary on a grid, added up over the blocks from a lower corner to an upper, both included. Corners out of order give 0.
///
/// Refuses by 3 (a summary shorter than the blocks), 8 (the grid), 9 (a block beyond the end, with its row of blocks; the lower corner is asked first).
pub fn items_in(grid: &Grid, counts: &[u32], low: Block, high: Block) -> Result<u64, Refusal> {
    let [items] = answer(|out| sys::items_in_blocks(&grid.words(), counts, low.row, low.col, high.row, high.col, out))?;
    Ok(items)
}

/// Adds a line to lent tables of `line_count` lines and to their summary together: to the tables as [`add_line`](crate::add_line) does, and one item more to the
/// block of each cell that lists it. The summary has to be the tables' own; it is then that of the new tables, and zero beyond the blocks.
/// [`Tables::push_with`] does the same with slices of its own.
///
/// Refuses by 3 (scratch; a summary shorter than the blocks), 2, 1, 8, 10 (the tables; a summary that disagrees with the offsets), 14, 7, 5, 6. No refusal
/// changes the tables or the summary; 5, 6 and 7 leave the scratch zero.
#[allow(clippy::too_many_arguments)]
pub fn add_line_blocks(
    grid: Grid,
    mode: Mode,
    start: (f64, f64),
    end: (f64, f64),
    line_count: usize,
    offsets: &mut [u32],
    items: &mut [u32],
    globals: &mut [u32],
    global_count: usize,
    counts: &mut [u32],
    scratch: &mut [u32],
) -> Result<Added, Refusal> {
    let [items, globals, cells] = answer(|out| {
        sys::add_line_blocks(
            &grid.words(), mode as u32, start.0, start.1, end.0, end.1, line_count, offsets, items, globals, global_count as u64, counts, scratch, out,
        )
    })?;
    Ok(Added { items: items as usize, globals: globals as usize, cells: cells as usize })
}

impl Tables {
    /// [`Tables::push`], with the summary of the tables: both grow together.
    ///
    /// Refuses as that does, and by 10 where the summary is not that of these tables.
    ///
    /// ```
    /// use morelturret::{Lines, Mode, Tables};
    ///
    /// let mut tables = Tables::of(Lines::chain(&[0.0, 2.0, 2.0, 0.0], &[0.0, 0.0, 2.0, 2.0]))?;
    /// let mut blocks = tables.blocks();
    /// tables.push_with((0.0, 2.0), (0.0, 0.0), Mode::Rust, &mut blocks)?;
    /// assert_eq!(blocks, tables.blocks());
    /// # Ok::<(), morelturret::Refusal>(())
    /// ```
    pub fn push_with(&mut self, start: (f64, f64), end: (f64, f64), mode: Mode, blocks: &mut Blocks) -> Result<usize, Refusal> {
        if blocks.grid != self.grid() {
            return Err(Refusal { number: 10, value: 0 });
        }
        let counts = &mut blocks.counts;
        self.grow(|grid, line_count, offsets, items, globals, global_count, scratch| {
            add_line_blocks(grid, mode, start, end, line_count, offsets, items, globals, global_count, counts, scratch)
        })
    }

    /// The summary of these tables by blocks.
    pub fn blocks(&self) -> Blocks {
        Blocks::of(&self.standing()).expect("tables of a build fit")
    }
}
