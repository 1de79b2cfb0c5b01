//! The build, its tables, and the visit of their tests.

use crate::refusal::{answer, Refusal};
use crate::{add_line, sys, tables_on, Added, Grid, Lines, Mode, Plan, Sizing, MAX_CELLS_OF_LINE, MAX_LINES, MAX_OFFSETS, SCRATCH};
use std::iter::FusedIterator;

/// What a build answers beside the tables that it wrote.
#[derive(Clone, Copy, PartialEq, Debug)]
pub struct Built {
    /// The grid that was picked. It is fit.
    pub grid: Grid,
    /// The number of items.
    pub items: usize,
    /// The number of global lines.
    pub globals: usize,
}

/// Picks a grid for the lines, by a plan, and writes its tables into lent slices. [`Tables`] does the same with slices of its own. The plan is a
/// [`Plan`], or a [`Sizing`] or a [`Mode`](crate::Mode) alone.
///
/// The list of cell c is `items[offsets[c]..offsets[c + 1]]`: the lines, increasing, that visit it. A line that visits more than 2,048 cells is in
/// no list but in `globals`. Beyond what is written all four slices are zeroed. The scratch has at least [`SCRATCH`] entries; [`Room`] tells what
/// is enough of the others.
///
/// Refuses by 3 (lengths, scratch), 2 (too many lines), 1 (a coordinate); at each grid tried by 4 (offsets), 7 (a walk too long); then by 5 (items),
/// 6 (globals). Refusals 4 to 7 leave zeros in the four slices, the others change nothing.
///
/// ```
/// use morelturret::{build, Lines, Sizing, Standing, SCRATCH};
///
/// let lines = Lines { start_x: &[0.0], start_y: &[0.0], end_x: &[2.0], end_y: &[2.0] };
/// let (mut offsets, mut items, mut globals, mut scratch) = ([0; 16], [0; 16], [0; 4], [0; SCRATCH]);
/// let built = build(lines, Sizing::Square, &mut offsets, &mut items, &mut globals, &mut scratch)?;
/// assert_eq!((built.grid.cell_width, built.grid.cell_height, built.grid.cols, built.grid.rows), (2.0, 2.0, 2, 2));
/// assert_eq!(offsets[..5], [0, 1, 2, 3, 4]); // the line is in each of the four cells
///
/// // The tables can be asked from now on.
/// let standing = Standing { grid: built.grid, line_count: 1, offsets: &offsets, items: &items, globals: &globals, global_count: 0 };
/// assert_eq!(standing.cell_list(1, 1)?, [0]);
/// # Ok::<(), morelturret::Refusal>(())
/// ```
pub fn build(
    lines: Lines,
    plan: impl Into<Plan>,
    offsets: &mut [u32],
    items: &mut [u32],
    globals: &mut [u32],
    scratch: &mut [u32],
) -> Result<Built, Refusal> {
    let Lines { start_x, start_y, end_x, end_y } = lines;
    let Plan { sizing, mode } = plan.into();
    let [min_x, min_y, cell_width, cell_height, cols, rows, items, globals] =
        answer(|out| sys::build(start_x, start_y, end_x, end_y, sizing as u32, mode as u32, offsets, items, globals, scratch, out))?;
    let grid = Grid::from_words([min_x, min_y, cell_width, cell_height, cols, rows]);
    Ok(Built { grid, items: items as usize, globals: globals as usize })
}

/// How many entries [`Tables`] have for a build.
#[derive(Clone, Copy, PartialEq, Eq, Hash, Debug)]
pub struct Room {
    /// Entries for offsets: a grid needs one more than it has cells. Too few are refused by 4.
    pub offsets: usize,
    /// Entries for items: a line needs one for each cell that it visits, unless it is global. Too few are refused by 5.
    pub items: usize,
    /// Entries for global lines. Too few are refused by 6.
    pub globals: usize,
}

impl Room {
    /// Room that is enough for every build of so many lines: 1,002,002 offsets, 2,048 items for each line, and a global for each. That is far more
    /// than most lines need; [`Tables::of`] takes what is needed.
    pub fn enough_for(lines: usize) -> Room {
        let lines = lines.min(MAX_LINES);
        Room { offsets: MAX_OFFSETS, items: lines * MAX_CELLS_OF_LINE, globals: lines }
    }
}

/// The tables of a build, in slices that they own: the grid, the list of each cell, and the global lines.
///
/// ```
/// use morelturret::{Lines, Room, Sizing, Tables};
///
/// let lines = Lines { start_x: &[0.0, 0.0], start_y: &[0.0, 2.0], end_x: &[2.0, 2.0], end_y: &[2.0, 0.0] };
/// let mut tables = Tables::with_room(Room { offsets: 64, items: 64, globals: 4 });
/// tables.build(lines, Sizing::Square)?;
/// assert_eq!(tables.cell(0, 0), [0, 1]);
/// assert!(tables.globals().is_empty());
/// # Ok::<(), morelturret::Refusal>(())
/// ```
#[derive(Clone, Debug)]
pub struct Tables {
    grid: Grid,
    line_count: usize,
    offsets: Vec<u32>,
    items: Vec<u32>,
    item_count: usize,
    globals: Vec<u32>,
    global_count: usize,
    scratch: Vec<u32>,
}

impl Tables {
    /// Tables of no lines, with room for a build. This allocates; no later call on these tables does, save [`Tables::pairs`],
    /// [`Tables::pairs_once`], [`Tables::window`] and [`Tables::push`].
    pub fn with_room(room: Room) -> Tables {
        Tables {
            grid: Grid::EMPTY,
            line_count: 0,
            offsets: vec![0; room.offsets],
            items: vec![0; room.items],
            item_count: 0,
            globals: vec![0; room.globals],
            global_count: 0,
            scratch: vec![0; SCRATCH],
        }
    }

    /// The tables of these lines on square cells, by the Rust's walk, with as much room as they need: [`Tables::planned`] by the default plan.
    ///
    /// Refuses by 3 (lengths), 2 (too many lines), 1 (a coordinate), 7 (a walk too long).
    ///
    /// ```
    /// use morelturret::{Lines, Tables};
    ///
    /// let tables = Tables::of(Lines::chain(&[0.0, 0.0], &[0.0, 0.0]))?;
    /// assert_eq!((tables.grid().cols, tables.grid().rows, tables.items()), (1, 1, &[0][..]));
    /// # Ok::<(), morelturret::Refusal>(())
    /// ```
    pub fn of(lines: Lines) -> Result<Tables, Refusal> {
        Tables::planned(lines, Plan::default())
    }

    /// The tables of these lines on cells sized as asked for, by the Rust's walk: [`Tables::planned`] by this sizing.
    ///
    /// Refuses by 3 (lengths), 2 (too many lines), 1 (a coordinate), 7 (a walk too long).
    ///
    /// ```
    /// use morelturret::{Lines, Sizing, Tables};
    ///
    /// let tables = Tables::sized(Lines::chain(&[0.0, 2.0], &[0.0, 2e-3]), Sizing::Axes)?;
    /// assert_eq!((tables.grid().cell_width, tables.grid().cell_height), (2.0, 2e-3));
    /// # Ok::<(), morelturret::Refusal>(())
    /// ```
    pub fn sized(lines: Lines, sizing: Sizing) -> Result<Tables, Refusal> {
        Tables::planned(lines, sizing)
    }

    /// The tables of these lines by a plan, with as much room as they need: what refusals 4, 5 and 6 ask for is given, and the build made again.
    ///
    /// Refuses by 3 (lengths), 2 (too many lines), 1 (a coordinate), 7 (a walk too long).
    ///
    /// ```
    /// use morelturret::{Lines, Mode, Tables};
    ///
    /// // The last leg ends a hair under the edge between the columns 0 and 1.
    /// let (x, y) = ([0.0, 2.0, 2.0, 0.0, 1.0 - 2f64.powi(-41)], [0.0, 0.0, 2.0, 2.0, 0.5]);
    /// let lines = Lines::chain(&x, &y);
    /// assert_eq!(Tables::of(lines)?.cell(0, 1), [0, 1]);
    /// assert_eq!(Tables::planned(lines, Mode::Sided)?.cell(0, 1), [0, 1, 3]);
    /// # Ok::<(), morelturret::Refusal>(())
    /// ```
    pub fn planned(lines: Lines, plan: impl Into<Plan>) -> Result<Tables, Refusal> {
        let plan = plan.into();
        // most grids have about as many cells as there are lines, and most lines visit few cells
        let n = lines.len().min(MAX_LINES);
        let mut tables = Tables::with_room(Room { offsets: 4 * n + 16, items: 8 * n, globals: 0 });
        tables.fill(lines, plan)?;
        Ok(tables)
    }

    /// [`Tables::build`], with as much more room as refusals 4, 5 and 6 ask for.
    pub(crate) fn fill(&mut self, lines: Lines, plan: Plan) -> Result<(), Refusal> {
        loop {
            let Err(refusal) = self.build(lines, plan) else { return Ok(()) };
            self.make_room(refusal)?;
        }
    }

    /// The tables of these lines on a grid that was agreed on, in a mode of walk, with as much room as they need.
    ///
    /// Refuses by 3 (lengths), 2 (too many lines), 1 (a coordinate), 8 (the grid), 7 (a walk too long).
    ///
    /// ```
    /// use morelturret::{agreed_grid, Counts, Lines, Mode, Sizing, Tables};
    ///
    /// let lines = Lines::chain(&[0.0, 2.0, 2.0, 0.0, 0.0], &[0.0, 0.0, 2.0, 2.0, 0.0]);
    /// let grid = agreed_grid((0.0, 0.0), (2.0, 2.0), 4, Sizing::Square)?;
    /// let (tables, counts) = (Tables::on(lines, grid, Mode::Rust)?, Counts::of(lines, grid, Mode::Rust)?);
    /// assert_eq!(tables.cell(0, 0).len() as u32, counts.cell(0, 0));
    /// assert_eq!(tables.items().len() as u64, counts.counted().listed);
    /// # Ok::<(), morelturret::Refusal>(())
    /// ```
    pub fn on(lines: Lines, grid: Grid, mode: Mode) -> Result<Tables, Refusal> {
        let n = lines.len().min(MAX_LINES);
        let mut tables = Tables::with_room(Room { offsets: 4 * n + 16, items: 8 * n, globals: 0 });
        loop {
            let made = tables_on(lines, grid, mode, &mut tables.offsets, &mut tables.items, &mut tables.globals, &mut tables.scratch);
            let refusal = match made {
                Ok(made) => {
                    (tables.grid, tables.item_count, tables.global_count, tables.line_count) = (grid, made.items, made.globals, lines.len());
                    return Ok(tables);
                }
                Err(refusal) => refusal,
            };
            tables.make_room(refusal)?;
        }
    }

    /// What refusals 4, 5 and 6 ask for; any other stays.
    fn make_room(&mut self, refusal: Refusal) -> Result<(), Refusal> {
        let short = match refusal.number {
            Refusal::SHORT_OFFSETS => &mut self.offsets,
            Refusal::SHORT_ITEMS => &mut self.items,
            Refusal::SHORT_GLOBALS => &mut self.globals,
            _ => return Err(refusal),
        };
        short.resize(refusal.value as usize, 0);
        Ok(())
    }

    /// Builds the tables of these lines, by a plan, in place of those that stood. After refusals 1 to 3 the tables stand as they
    /// were; after 4 to 7 they are those of no lines.
    ///
    /// Refuses by 3 (lengths), 2 (too many lines), 1 (a coordinate); at each grid tried by 4 (offsets), 7 (a walk too long); then by 5 (items),
    /// 6 (globals).
    pub fn build(&mut self, lines: Lines, plan: impl Into<Plan>) -> Result<(), Refusal> {
        let built = build(lines, plan, &mut self.offsets, &mut self.items, &mut self.globals, &mut self.scratch);
        let (now, line_count) = match built {
            Ok(built) => (built, lines.len()),
            Err(refusal) if refusal.number <= Refusal::BAD_LENGTHS => return Err(refusal),
            Err(_) => (Built { grid: Grid::EMPTY, items: 0, globals: 0 }, 0),
        };
        (self.grid, self.item_count, self.global_count, self.line_count) = (now.grid, now.items, now.globals, line_count);
        built.map(|_| ())
    }

    /// The grid.
    pub fn grid(&self) -> Grid {
        self.grid
    }

    /// The number of lines that were built.
    pub fn line_count(&self) -> usize {
        self.line_count
    }

    /// How many entries there are for a build.
    pub fn room(&self) -> Room {
        Room { offsets: self.offsets.len(), items: self.items.len(), globals: self.globals.len() }
    }

    /// All lists, one after the other, in row order.
    pub fn items(&self) -> &[u32] {
        &self.items[..self.item_count]
    }

    /// The lines that visit more than 2,048 cells, increasing.
    pub fn globals(&self) -> &[u32] {
        &self.globals[..self.global_count]
    }

    /// Adds a line to these tables at their grid, in a mode of walk, and answers its number, which is that of the lines so far. It goes to the end of the list of
    /// each cell that it visits, or of the global lines. Where the tables are those of the lines so far in that mode, they are then those of all lines on that
    /// grid. Items and globals get the room that one line may need, so this may allocate. A bookmark of before means another test now.
    ///
    /// Refuses by 2 (65,536 lines stand), 1 (a coordinate), 8 (tables of no lines), 14 (an end outside the grid), 7 (a walk too long); the tables then stand as
    /// they were.
    ///
    /// ```
    /// use morelturret::{Lines, Mode, Refusal, Tables};
    ///
    /// let (x, y) = ([0.0, 2.0, 2.0, 0.0, 0.0], [0.0, 0.0, 2.0, 2.0, 0.0]);
    /// let mut tables = Tables::of(Lines::chain(&x[..4], &y[..4]))?;
    /// assert_eq!(tables.push((0.0, 2.0), (0.0, 0.0), Mode::Rust)?, 3);
    /// assert_eq!(tables.cell(0, 0), [0, 3]);
    /// // all pairs of the four lines, without a build
    /// assert!(tables.pairs(Lines::chain(&x, &y), 256)?.any(|pair| pair == (0, 3)));
    /// assert_eq!(tables.push((0.0, 0.0), (9.0, 0.0), Mode::Rust).unwrap_err().number, Refusal::OUTSIDE_GRID);
    /// # Ok::<(), morelturret::Refusal>(())
    /// ```
    pub fn push(&mut self, start: (f64, f64), end: (f64, f64), mode: Mode) -> Result<usize, Refusal> {
        self.grow(|grid, line_count, offsets, items, globals, global_count, scratch| {
            add_line(grid, mode, start, end, line_count, offsets, items, globals, global_count, scratch)
        })
    }

    /// A line by a call that is lent the tables, with room for what one line may need; answers its number.
    pub(crate) fn grow(
        &mut self,
        add: impl FnOnce(Grid, usize, &mut [u32], &mut [u32], &mut [u32], usize, &mut [u32]) -> Result<Added, Refusal>,
    ) -> Result<usize, Refusal> {
        let (items, globals) = (self.item_count + MAX_CELLS_OF_LINE, self.global_count + 1);
        self.items.resize(self.items.len().max(items), 0);
        self.globals.resize(self.globals.len().max(globals), 0);
        let offsets = (self.grid.cols as usize * self.grid.rows as usize + 1).min(self.offsets.len());
        // beyond the tables there are zeros: no more is lent than the line may need
        let added = add(
            self.grid, self.line_count, &mut self.offsets[..offsets], &mut self.items[..items], &mut self.globals[..globals], self.global_count,
            &mut self.scratch,
        )?;
        let number = self.line_count;
        (self.line_count, self.item_count, self.global_count) = (number + 1, added.items, added.globals);
        Ok(number)
    }

    /// The list of the cell (row, col): the lines that visit it, increasing. A cell beyond the grid's end has the empty list;
    /// [`Standing::cell_list`] refuses it.
    pub fn cell(&self, row: u32, col: u32) -> &[u32] {
        let Grid { cols, rows, .. } = self.grid;
        if row >= rows || col >= cols {
            return &[];
        }
        let cell = row as usize * cols as usize + col as usize;
        &self.items[self.offsets[cell] as usize..self.offsets[cell + 1] as usize]
    }

    /// These tables, lent.
    pub fn standing(&self) -> Standing<'_> {
        Standing {
            grid: self.grid,
            line_count: self.line_count,
            offsets: &self.offsets,
            items: &self.items,
            globals: &self.globals,
            global_count: self.global_count as u64,
        }
    }

    /// One test by its bookmark: [`Standing::test_at`]. The lines are those that were built.
    ///
    /// Refuses by 3 (lengths), 2 (too many lines), 1 (a coordinate), 10 (fewer lines than were built), 9 (the bookmark).
    pub fn test_at(&self, lines: Lines, bookmark: u64) -> Result<Option<Test>, Refusal> {
        self.standing().test_at(lines, bookmark)
    }

    /// The tests from a bookmark on: [`Standing::batch`]. The lines are those that were built.
    ///
    /// Refuses by 3 (lengths), 2 (too many lines), 1 (a coordinate), 10 (fewer lines than were built), 9 (the bookmark).
    pub fn batch(&self, lines: Lines, bookmark: u64, first: &mut [u32], second: &mut [u32]) -> Result<Batch, Refusal> {
        self.standing().batch(lines, bookmark, first, second)
    }

    /// The tests from a bookmark on, with the place of each pair: [`Standing::batch_places`]. The lines are those that were built.
    ///
    /// Refuses by 3 (lengths), 2 (too many lines), 1 (a coordinate), 10 (fewer lines than were built), 9 (the bookmark).
    pub fn batch_places(&self, lines: Lines, bookmark: u64, first: &mut [u32], second: &mut [u32], places: &mut [u32]) -> Result<Batch, Refusal> {
        self.standing().batch_places(lines, bookmark, first, second, places)
    }

    /// A visit that pays for its checks once: [`Standing::start`]. The lines are those that were built.
    ///
    /// Refuses by 3 (lengths), 2 (too many lines), 1 (a coordinate), 10 (fewer lines than were built), 9 (the bookmark).
    pub fn start<'a>(&'a self, lines: Lines<'a>, bookmark: u64) -> Result<Visit<'a>, Refusal> {
        self.standing().start(lines, bookmark)
    }

    /// The lines that may enter a window: [`Standing::window`]. The lines are those that were built.
    ///
    /// Refuses by 3 (lengths), 2 (too many lines), 1 (a coordinate; 0 for the window), 10 (fewer lines than were built).
    pub fn window(&self, lines: Lines, window: Window) -> Result<Vec<u32>, Refusal> {
        self.standing().window(lines, window)
    }

    /// All pairs whose boxes overlap, each once: [`Standing::pairs_once`]. The lines are those that were built.
    ///
    /// Refuses by 3 (lengths), 2 (too many lines), 1 (a coordinate), 10 (fewer lines than were built).
    pub fn pairs_once(&self, lines: Lines) -> Result<Vec<(u32, u32)>, Refusal> {
        self.standing().pairs_once(lines)
    }

    /// All pairs whose boxes overlap: [`Standing::pairs`]. The lines are those that were built.
    ///
    /// Refuses by 3 (lengths), 2 (too many lines), 1 (a coordinate), 10 (fewer lines than were built).
    pub fn pairs<'a>(&'a self, lines: Lines<'a>, room: usize) -> Result<Pairs<'a>, Refusal> {
        self.standing().pairs(lines, room)
    }
}

/// Tables that stand in lent slices, wherever they come from. Every call checks them, so each takes time in proportion to their length;
/// [`Standing::start`] checks them once for a whole visit.
///
/// They fit if `offsets` has at least cells + 1 entries, the first is 0, they never fall over those entries and the last is within `items`; each
/// list and the first `global_count` globals strictly increase below the number of lines; and `global_count` is within `globals`. Tables that do
/// not fit are refused by 10.
#[derive(Clone, Copy, PartialEq, Debug)]
pub struct Standing<'a> {
    /// The grid. It has to be fit: else refusal 8.
    pub grid: Grid,
    /// The number of lines. Calls that are handed the lines count those instead.
    pub line_count: usize,
    /// The list of cell c is `items[offsets[c]..offsets[c + 1]]`.
    pub offsets: &'a [u32],
    /// The lists.
    pub items: &'a [u32],
    /// The global lines, at the start of the slice.
    pub globals: &'a [u32],
    /// How many there are.
    pub global_count: u64,
}

impl<'a> Standing<'a> {
    /// Whether every call that is lent the tables takes them.
    ///
    /// Refuses by 2 (too many lines), 8 (the grid is unfit) and 10 (the tables do not fit).
    pub fn check_tables(&self) -> Result<(), Refusal> {
        let Standing { grid, line_count, offsets, items, globals, global_count } = *self;
        answer::<1>(|out| sys::check_tables(&grid.words(), line_count, offsets, items, globals, global_count, out)).map(|_| ())
    }

    /// The list of the cell (row, col): the lines that visit it, increasing, as a part of the items.
    ///
    /// Refuses by 2 (too many lines), 8 (the grid), 10 (the tables), 9 (the cell).
    pub fn cell_list(&self, row: u32, col: u32) -> Result<&'a [u32], Refusal> {
        let Standing { grid, line_count, offsets, items, globals, global_count } = *self;
        let [from, length] = answer(|out| sys::cell_list(&grid.words(), line_count, offsets, items, globals, global_count, row, col, out))?;
        Ok(&items[from as usize..][..length as usize])
    }

    /// The list of a global line, by its position among the globals: the globals from there on, as a part of them.
    ///
    /// Refuses by 2 (too many lines), 8 (the grid), 10 (the tables), 9 (the position).
    pub fn global_list(&self, position: u64) -> Result<&'a [u32], Refusal> {
        let Standing { grid, line_count, offsets, items, globals, global_count } = *self;
        let [from, length] = answer(|out| sys::global_list(&grid.words(), line_count, offsets, items, globals, global_count, position, out))?;
        Ok(&globals[from as usize..][..length as usize])
    }

    /// What a full visit will cost, before it is begun: its tests, and the lines of the longest list. A total far above the number of items, or one
    /// list far longer than the others, tells of a grid that does not suit the lines, as one stray sample far away makes it.
    ///
    /// Refuses by 2 (too many lines), 8 (the grid), 10 (the tables).
    ///
    /// ```
    /// use morelturret::{Cost, Lines, Tables};
    ///
    /// let lines = Lines::chain(&[0.0, 2.0, 2.0, 0.0, 0.0], &[0.0, 0.0, 2.0, 2.0, 0.0]);
    /// assert_eq!(Tables::of(lines)?.standing().cost()?, Cost { tests: 9, longest: 2 });
    /// # Ok::<(), morelturret::Refusal>(())
    /// ```
    pub fn cost(&self) -> Result<Cost, Refusal> {
        let Standing { grid, line_count, offsets, items, globals, global_count } = *self;
        let [tests, longest] = answer(|out| sys::visit_cost(&grid.words(), line_count, offsets, items, globals, global_count, out))?;
        Ok(Cost { tests, longest: longest as usize })
    }

    /// Lists by line, into lent slices: the cells that list line i, increasing, are `listing[starts[i]..starts[i + 1]]`, and a cell has the number
    /// row x cols + column. Beyond them both slices are zeroed. `starts` has at least one entry more than there are lines, and `listing` at
    /// least as many as `items`, used or not. Answers how many cells the lists have in all.
    ///
    /// Refuses by 3 (the room), 2 (too many lines), 8 (the grid), 10 (the tables).
    ///
    /// ```
    /// use morelturret::{Lines, Tables};
    ///
    /// let tables = Tables::of(Lines { start_x: &[0.0], start_y: &[0.0], end_x: &[2.0], end_y: &[2.0] })?;
    /// let standing = tables.standing();
    /// let (mut starts, mut listing) = (vec![0; 2], vec![0; standing.items.len()]);
    /// assert_eq!(standing.lists_by_line(&mut starts, &mut listing)?, 4);
    /// assert_eq!(listing[starts[0] as usize..starts[1] as usize], [0, 1, 2, 3]);
    /// # Ok::<(), morelturret::Refusal>(())
    /// ```
    pub fn lists_by_line(&self, starts: &mut [u32], listing: &mut [u32]) -> Result<usize, Refusal> {
        let Standing { grid, line_count, offsets, items, globals, global_count } = *self;
        let [all] = answer(|out| sys::lists_by_line(&grid.words(), line_count, offsets, items, globals, global_count, starts, listing, out))?;
        Ok(all as usize)
    }

    /// One test by its bookmark, the number of tests before it; none at the total, where the visit ends.
    ///
    /// Refuses by 3 (lengths), 2 (too many lines), 1 (a coordinate), 8 (the grid), 10 (the tables), 9 (the bookmark).
    ///
    /// ```
    /// use morelturret::{Lines, Place, Tables, Test};
    ///
    /// let lines = Lines { start_x: &[0.0, 0.0], start_y: &[0.0, 2.0], end_x: &[2.0, 2.0], end_y: &[2.0, 0.0] };
    /// let tables = Tables::of(lines)?;
    /// let test = Test { place: Place::Cell { row: 0, col: 0 }, first: 0, second: 1, overlap: true };
    /// assert_eq!(tables.standing().test_at(lines, 0)?, Some(test));
    /// # Ok::<(), morelturret::Refusal>(())
    /// ```
    pub fn test_at(&self, lines: Lines, bookmark: u64) -> Result<Option<Test>, Refusal> {
        let Standing { grid, offsets, items, globals, global_count, .. } = *self;
        let Lines { start_x, start_y, end_x, end_y } = lines;
        let [kind, at, col, first, second, overlap] =
            answer(|out| sys::test_at(&grid.words(), start_x, start_y, end_x, end_y, offsets, items, globals, global_count, bookmark, out))?;
        let place = match kind {
            0 => Place::Cell { row: at as u32, col: col as u32 },
            1 => Place::Global { position: at },
            _ => return Ok(None),
        };
        Ok(Some(Test { place, first: first as u32, second: second as u32, overlap: overlap == 1 }))
    }

    /// The tests from a bookmark on, until `first` and `second`, which are of one length, are full of pairs or the end comes. Pair k is
    /// `(first[k], second[k])`, two lines whose boxes overlap; beyond the pairs both are zeroed. Outputs of length 0 make no test.
    ///
    /// Start with the bookmark 0 and go on with the one that comes back. The visit is over when a batch leaves an output unfilled, or makes no test.
    ///
    /// Refuses by 3 (lengths), 2 (too many lines), 1 (a coordinate), 8 (the grid), 10 (the tables), 9 (the bookmark).
    ///
    /// ```
    /// use morelturret::{Lines, Tables};
    ///
    /// let lines = Lines::chain(&[0.0, 2.0, 2.0, 0.0, 0.0], &[0.0, 0.0, 2.0, 2.0, 0.0]);
    /// let tables = Tables::of(lines)?;
    /// let (mut first, mut second) = ([0; 4], [0; 4]);
    /// let (mut bookmark, mut overlaps) = (0, 0);
    /// loop {
    ///     let batch = tables.standing().batch(lines, bookmark, &mut first, &mut second)?;
    ///     overlaps += batch.overlaps; // first[..batch.overlaps] and second[..batch.overlaps] have the pairs
    ///     bookmark = batch.bookmark;
    ///     if batch.overlaps < first.len() {
    ///         break;
    ///     }
    /// }
    /// assert_eq!((bookmark, overlaps), (9, 9));
    /// # Ok::<(), morelturret::Refusal>(())
    /// ```
    pub fn batch(&self, lines: Lines, bookmark: u64, first: &mut [u32], second: &mut [u32]) -> Result<Batch, Refusal> {
        let Standing { grid, offsets, items, globals, global_count, .. } = *self;
        let Lines { start_x, start_y, end_x, end_y } = lines;
        let [tests, overlaps, bookmark] = answer(|out| {
            sys::batch(&grid.words(), start_x, start_y, end_x, end_y, offsets, items, globals, global_count, bookmark, first, second, out)
        })?;
        Ok(Batch { tests, overlaps: overlaps as usize, bookmark })
    }

    /// [`Standing::batch`], and beside pair k the number of the place where it was tested in `places[k]`, which is zeroed beyond the pairs too: a cell's
    /// number is row * cols + column, and after the cells come the globals, by their position. [`Place::by_number`] has it as a place. A cell's number
    /// is what [`owners`](crate::owners) answers, so what a pair stands for can be taken in the cell that owns it, and left in the others.
    ///
    /// Refuses by 3 (lengths), 2 (too many lines), 1 (a coordinate), 8 (the grid), 10 (the tables), 9 (the bookmark).
    ///
    /// ```
    /// use morelturret::{owner, Lines, Owner, Place, Tables};
    ///
    /// // the sides of a square meet in its corners, and a corner is tested in each cell that lists both sides
    /// let lines = Lines::chain(&[0.0, 2.0, 2.0, 0.0, 0.0], &[0.0, 0.0, 2.0, 2.0, 0.0]);
    /// let tables = Tables::of(lines)?;
    /// let (mut first, mut second, mut places) = ([0; 16], [0; 16], [0; 16]);
    /// let batch = tables.batch_places(lines, 0, &mut first, &mut second, &mut places)?;
    /// let mut corners = 0;
    /// for k in 0..batch.overlaps {
    ///     // the first line's end is the second's start, or the other way round
    ///     let (a, b) = (lines.get(first[k] as usize).unwrap(), lines.get(second[k] as usize).unwrap());
    ///     let corner = if a[2..] == b[..2] { (a[2], a[3]) } else { (a[0], a[1]) };
    ///     if let (Place::Cell { row, col }, Owner::Cell { row: r, col: c }) = (Place::by_number(places[k], tables.grid()), owner(tables.grid(), corner.0, corner.1)?) {
    ///         corners += ((row, col) == (r, c)) as usize;
    ///     }
    /// }
    /// assert_eq!((batch.overlaps, corners), (9, 4));
    /// # Ok::<(), morelturret::Refusal>(())
    /// ```
    pub fn batch_places(&self, lines: Lines, bookmark: u64, first: &mut [u32], second: &mut [u32], places: &mut [u32]) -> Result<Batch, Refusal> {
        let Standing { grid, offsets, items, globals, global_count, .. } = *self;
        let Lines { start_x, start_y, end_x, end_y } = lines;
        let [tests, overlaps, bookmark] = answer(|out| {
            sys::batch_places(&grid.words(), start_x, start_y, end_x, end_y, offsets, items, globals, global_count, bookmark, first, second, places, out)
        })?;
        Ok(Batch { tests, overlaps: overlaps as usize, bookmark })
    }

    /// A visit that pays for its checks once. [`Standing::batch`] checks lines and tables whole at every call; this does so once, and the [`Visit`] that it
    /// answers goes on from call to call with no check, from a bookmark on, 0 for a whole visit. It borrows lines and tables, so nothing but what was
    /// checked can be visited.
    ///
    /// Refuses by 3 (lengths), 2 (too many lines), 1 (a coordinate), 8 (the grid), 10 (the tables), 9 (the bookmark).
    ///
    /// ```
    /// use morelturret::{Lines, Tables};
    ///
    /// let lines = Lines::chain(&[0.0, 2.0, 2.0, 0.0, 0.0], &[0.0, 0.0, 2.0, 2.0, 0.0]);
    /// let tables = Tables::of(lines)?;
    /// let (mut first, mut second) = ([0; 4], [0; 4]);
    /// let mut visit = tables.standing().start(lines, 0)?;
    /// let mut overlaps = 0;
    /// loop {
    ///     let batch = visit.next(&mut first, &mut second)?;
    ///     overlaps += batch.overlaps; // first[..batch.overlaps] and second[..batch.overlaps] have the pairs
    ///     if batch.overlaps < first.len() {
    ///         break;
    ///     }
    /// }
    /// assert_eq!((visit.bookmark(), overlaps), (9, 9));
    /// # Ok::<(), morelturret::Refusal>(())
    /// ```
    pub fn start(&self, lines: Lines<'a>, bookmark: u64) -> Result<Visit<'a>, Refusal> {
        let Standing { grid, offsets, items, globals, global_count, .. } = *self;
        let Lines { start_x, start_y, end_x, end_y } = lines;
        let cursor =
            answer(|out| sys::start(&grid.words(), start_x, start_y, end_x, end_y, offsets, items, globals, global_count, bookmark, out))?;
        Ok(Visit { standing: *self, lines, cursor, bookmark })
    }

    /// The lines that may enter a window, each once, increasing: those whose own boxes overlap it, where equality counts, and which are global, or
    /// listed in a cell of the block from the cell of its lower corner to that of its upper corner. A window with a corner out of order matches nothing.
    ///
    /// Refuses by 3 (lengths), 2 (too many lines), 1 (a coordinate; 0 for the window, after the lines), 8 (the grid), 10 (the tables).
    ///
    /// ```
    /// use morelturret::{Lines, Tables, Window};
    ///
    /// let lines = Lines::chain(&[0.0, 2.0, 2.0, 0.0, 0.0], &[0.0, 0.0, 2.0, 2.0, 0.0]);
    /// let tables = Tables::of(lines)?;
    /// let season = Window { low_x: 1.5, low_y: -1.0, high_x: 3.0, high_y: 1.0 };
    /// assert_eq!(tables.window(lines, season)?, [0, 1]);
    /// # Ok::<(), morelturret::Refusal>(())
    /// ```
    pub fn window(&self, lines: Lines, window: Window) -> Result<Vec<u32>, Refusal> {
        let mut found = vec![0; lines.start_x.len().min(MAX_LINES)];
        let count = self.window_into(lines, window, &mut found)?;
        found.truncate(count);
        Ok(found)
    }

    /// [`Standing::window`] into a lent slice, which is zeroed beyond the lines. Answers how many there are.
    ///
    /// Refuses as that does, then by 5 where the slice is short, with how many there are; the slice is zeroed.
    pub fn window_into(&self, lines: Lines, window: Window, found: &mut [u32]) -> Result<usize, Refusal> {
        let Standing { grid, offsets, items, globals, global_count, .. } = *self;
        let Lines { start_x, start_y, end_x, end_y } = lines;
        let Window { low_x, low_y, high_x, high_y } = window;
        let [count] = answer(|out| {
            sys::window(
                &grid.words(), start_x, start_y, end_x, end_y, offsets, items, globals, global_count, low_x, low_y, high_x, high_y, found, out,
            )
        })?;
        Ok(count as usize)
    }

    /// All pairs whose boxes overlap, each once: at its first test, in the order of the visit, and with the lines in that test's order. In the covering
    /// mode every two lines that share a point are among them.
    ///
    /// Refuses by 3 (lengths), 2 (too many lines), 1 (a coordinate), 8 (the grid), 10 (the tables).
    ///
    /// ```
    /// use morelturret::{Lines, Tables};
    ///
    /// let lines = Lines::chain(&[0.0, 2.0, 2.0, 0.0, 0.0], &[0.0, 0.0, 2.0, 2.0, 0.0]);
    /// let tables = Tables::of(lines)?;
    /// assert_eq!(tables.pairs(lines, 256)?.count(), 9);
    /// assert_eq!(tables.pairs_once(lines)?, [(0, 3), (0, 1), (2, 3), (1, 2)]);
    /// # Ok::<(), morelturret::Refusal>(())
    /// ```
    pub fn pairs_once(&self, lines: Lines) -> Result<Vec<(u32, u32)>, Refusal> {
        each_once(self.items.len(), lines.start_x.len(), |[first, second, starts, listing, counts]| {
            self.pairs_once_into(lines, first, second, starts, listing, counts)
        })
    }

    /// [`Standing::pairs_once`] into lent slices: pair k is `(first[k], second[k])`, and beyond the pairs both are zeroed. The other three are scratch,
    /// and zeroed: `starts` has at least one entry more than there are lines, `listing` at least as many as `items`, used or not, and `counts` at
    /// least one for each line. Answers how many pairs there are.
    ///
    /// Refuses by 3 where `first` and `second` differ or the scratch is short, then as that does, then by 5 where there is no room for the pairs, with
    /// how many there are; all five slices are zeroed.
    pub fn pairs_once_into(
        &self, lines: Lines, first: &mut [u32], second: &mut [u32], starts: &mut [u32], listing: &mut [u32], counts: &mut [u32],
    ) -> Result<usize, Refusal> {
        let Standing { grid, offsets, items, globals, global_count, .. } = *self;
        let Lines { start_x, start_y, end_x, end_y } = lines;
        let [count] = answer(|out| {
            sys::pairs_once(
                &grid.words(), start_x, start_y, end_x, end_y, offsets, items, globals, global_count, first, second, starts, listing, counts, out,
            )
        })?;
        Ok(count as usize)
    }

    /// All pairs whose boxes overlap, in the order of the visit, found in batches of `room` pairs (0 is taken as 1). A pair comes once for each
    /// test of it: in each cell that both lines visit, and once for a global line. Lines and tables are checked once, by [`Standing::start`]; some
    /// thousand pairs suit any tables.
    ///
    /// Refuses by 3 (lengths), 2 (too many lines), 1 (a coordinate), 8 (the grid), 10 (the tables). All of that shows at once: the pairs
    /// themselves are not refused.
    pub fn pairs(&self, lines: Lines<'a>, room: usize) -> Result<Pairs<'a>, Refusal> {
        let room = room.max(1);
        let (mut first, mut second) = (vec![0; room], vec![0; room]);
        let mut visit = self.start(lines, 0)?;
        let batch = visit.next(&mut first, &mut second)?;
        Ok(Pairs { visit, first, second, count: batch.overlaps, handed: 0 })
    }
}

/// The pairs of a call that hands out each once, into room of its own: first, second, starts, listing and counts. Most visits hand out fewer pairs than
/// there are items; else 5 says how many.
pub(crate) fn each_once(
    items: usize, lines: usize, mut ask: impl FnMut(&mut [Vec<u32>; 5]) -> Result<usize, Refusal>,
) -> Result<Vec<(u32, u32)>, Refusal> {
    let mut room = items;
    loop {
        let mut slices = [room, room, lines + 1, items, lines].map(|size| vec![0; size]);
        match ask(&mut slices) {
            Ok(count) => {
                let [first, second, ..] = slices;
                return Ok(first.into_iter().zip(second).take(count).collect());
            }
            Err(Refusal { number: Refusal::SHORT_ITEMS, value }) => room = value as usize,
            Err(refusal) => return Err(refusal),
        }
    }
}

/// What a full visit costs: see [`Standing::cost`].
#[derive(Clone, Copy, PartialEq, Eq, Hash, Debug)]
pub struct Cost {
    /// The tests that it makes.
    pub tests: u64,
    /// How many lines the longest list of a cell has.
    pub longest: usize,
}

/// A window, from its lower to its upper corner.
#[derive(Clone, Copy, PartialEq, Debug)]
pub struct Window {
    /// x of the lower corner.
    pub low_x: f64,
    /// y of the lower corner.
    pub low_y: f64,
    /// x of the upper corner.
    pub high_x: f64,
    /// y of the upper corner.
    pub high_y: f64,
}

/// Where a test is made.
#[derive(Clone, Copy, PartialEq, Eq, Hash, Debug)]
pub enum Place {
    /// In a cell, among the lines of its list.
    Cell {
        /// The cell's row.
        row: u32,
        /// The cell's column.
        col: u32,
    },
    /// For a global line, which is tested with every line but itself and lower globals.
    Global {
        /// Its position among the globals.
        position: u64,
    },
}

impl Place {
    /// The place that a number among the places of [`Standing::batch_places`] stands for, on a grid: a cell's number is below the number of cells. That
    /// there is such a global is not asked.
    pub fn by_number(number: u32, grid: Grid) -> Place {
        let (number, cells) = (number as u64, grid.cols as u64 * grid.rows as u64);
        match number.checked_sub(cells) {
            Some(position) => Place::Global { position },
            None => Place::Cell { row: (number / grid.cols as u64) as u32, col: (number % grid.cols as u64) as u32 },
        }
    }
}

/// One test of a visit.
#[derive(Clone, Copy, PartialEq, Eq, Hash, Debug)]
pub struct Test {
    /// Where it is made.
    pub place: Place,
    /// The first line.
    pub first: u32,
    /// The second line.
    pub second: u32,
    /// Whether the boxes of the two overlap, borders included.
    pub overlap: bool,
}

/// What a batch of tests came to.
#[derive(Clone, Copy, PartialEq, Eq, Hash, Debug)]
pub struct Batch {
    /// The tests made.
    pub tests: u64,
    /// The pairs handed out.
    pub overlaps: usize,
    /// Where the next batch starts: the number of tests made since the start of the visit.
    pub bookmark: u64,
}

/// A visit of lines and tables that were checked: see [`Standing::start`]. Only that makes one, and it borrows both, so what it visits is what was checked.
#[derive(Clone, PartialEq, Debug)]
pub struct Visit<'a> {
    standing: Standing<'a>,
    lines: Lines<'a>,
    cursor: [u64; 3],
    bookmark: u64,
}

impl Visit<'_> {
    /// The tests from where the visit stands, until `first` and `second`, which are of one length, are full of pairs or the end comes: what
    /// [`Standing::batch`] from [`Visit::bookmark`] makes, hands out and answers, without its checks. The visit is over when an output is left
    /// unfilled.
    ///
    /// Refuses by 3 where `first` and `second` differ, and then stands where it stood.
    pub fn next(&mut self, first: &mut [u32], second: &mut [u32]) -> Result<Batch, Refusal> {
        let Standing { grid, offsets, items, globals, global_count, .. } = self.standing;
        let Lines { start_x, start_y, end_x, end_y } = self.lines;
        let [place, i, j] = self.cursor;
        let [tests, overlaps, cursor @ ..] = answer::<5>(|out| {
            sys::next_unchecked(
                &grid.words(), start_x, start_y, end_x, end_y, offsets, items, globals, global_count, place, i, j, first, second, out,
            )
        })?;
        self.cursor = cursor;
        self.bookmark += tests;
        Ok(Batch { tests, overlaps: overlaps as usize, bookmark: self.bookmark })
    }

    /// The bookmark where the visit stands: the number of tests before it.
    pub fn bookmark(&self) -> u64 {
        self.bookmark
    }
}

/// The pairs of a visit: see [`Standing::pairs`].
#[derive(Clone, Debug)]
pub struct Pairs<'a> {
    visit: Visit<'a>,
    first: Vec<u32>,
    second: Vec<u32>,
    /// How many pairs stand in the outputs, and how many of them are handed on already.
    count: usize,
    handed: usize,
}

impl Pairs<'_> {
    /// The tests made so far, by whole batches. Once the pairs have come to their end, it is the number of all tests of the visit.
    pub fn bookmark(&self) -> u64 {
        self.visit.bookmark()
    }
}

impl Iterator for Pairs<'_> {
    type Item = (u32, u32);

    fn next(&mut self) -> Option<(u32, u32)> {
        if self.handed == self.count {
            // a batch that did not fill its outputs came to the end of the visit
            if self.count < self.first.len() {
                return None;
            }
            let batch = self.visit.next(&mut self.first, &mut self.second).expect("outputs of one length are not refused");
            (self.count, self.handed) = (batch.overlaps, 0);
            if self.count == 0 {
                return None;
            }
        }
        let pair = (self.first[self.handed], self.second[self.handed]);
        self.handed += 1;
        Some(pair)
    }
}

impl FusedIterator for Pairs<'_> {}
