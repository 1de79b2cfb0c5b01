//! A uniform grid over line segments: the cells that a segment visits, the tables of many lines, the pairs of lines that may cross, the owner
//! of a crossing, and snap rounding.
//!
//! The work is done by a static library whose every function is proved to meet its contract, on every input. This crate hands slices to it and
//! answers in Rust's way. `tools/build_library`, at the top of the repository, builds the library into `target/library`, where this crate's
//! build seeks it; `MORELTURRET_LIB` names another folder.
//!
//! No coordinate, length, table or byte that is handed in makes a call panic: what cannot be done is refused by a number and a value, a
//! [`Refusal`].
//!
//! ```
//! use morelturret::{Lines, Tables};
//!
//! // The points of a square; consecutive points make lines, numbered from 0.
//! let (x, y) = ([0.0, 2.0, 2.0, 0.0, 0.0], [0.0, 0.0, 2.0, 2.0, 0.0]);
//! let lines = Lines::chain(&x, &y);
//!
//! let tables = Tables::of(lines)?;
//! assert_eq!((tables.grid().cols, tables.grid().rows), (3, 3));
//! assert_eq!(tables.cell(0, 0), [0, 3]); // the lines that visit the cell in row 0 and column 0
//!
//! // The pairs whose boxes overlap, in the order of the visit: a pair comes once for each cell that both visit.
//! let pairs: Vec<(u32, u32)> = tables.pairs(lines, 256)?.collect();
//! assert_eq!(pairs.len(), 9);
//! assert_eq!(pairs[..3], [(0, 3), (0, 1), (0, 1)]);
//! # Ok::<(), morelturret::Refusal>(())
//! ```
//!
//! # The domain
//!
//! At most [`MAX_LINES`] lines, and [`Parts`] takes more; each coordinate finite and at most 1e9 in magnitude. A walk needs [`SCRATCH`] entries of scratch. A [`Grid`] is
//! fit if both minima obey the coordinate rule, its cells are from a quarter of 1e-6 to 2e9 wide and as much high, and its columns and rows are both
//! 0, or each 1 to 4,004 with product at most 1,002,001.
//!
//! # Refusals
//!
//! [`Refusal`] has the numbers. Where several apply, the first in the order 3, 2, 1, 8, 12, 10, 9 is given; a build then goes by 4 and 7 at each
//! grid that it tries, and at last by 5 and 6; adding goes by 3 and 13; one more line by 3, 2, 1, 8, 10, then 14, 7, 5 and 6; crossings have 15 in the place of 1, and 5 at last; a reader goes by 3 and 11, and one of many chains then by 2 and 5. Refusals 4 to 7 leave zeros in the slices that the call was lent to
//! write, save the tables that a line is added to, which no refusal changes. All others change nothing.

#![deny(unsafe_code, missing_docs)]

mod added;
mod blocks;
mod counts;
pub mod drop_in;
mod lines;
mod members;
mod mode;
pub mod numbers;
mod parts;
mod place;
mod read;
mod refusal;
mod samples;
mod sizing;
#[allow(unsafe_code)]
#[rustfmt::skip]
pub mod sys;
mod tables;
mod walk;

pub use added::{add_line, Added};
pub use blocks::{add_line_blocks, items_in, Block, Blocks};
pub use counts::{add, agreed_grid, count, tables_on, Counted, Counts};
pub use lines::{LineVec, Lines};
pub use members::{clean, lines_of_members, read_multi_line_string, write_multi_line_string, Cleaning, Members};
pub use mode::{Mode, Plan};
pub use parts::{PartPairs, Parts};
pub use place::{overlap_owned, owner, owners, point_owned, snap, strategies_agree, Grid, Owner, Strategy};
pub use read::{read_line_string, read_points};
pub use refusal::{Reason, Refusal};
pub use samples::Samples;
pub use sizing::Sizing;
pub use tables::{build, Batch, Built, Cost, Pairs, Place, Room, Standing, Tables, Test, Visit, Window};
pub use walk::segment_cells;

/// The most lines that a build or a visit takes: above it refusal 2. [`Parts`] takes any number.
pub const MAX_LINES: usize = 65_536;

/// The greatest magnitude of a sample, which is 2^29: above it refusal 15.
pub const MAX_SAMPLE: i32 = 536_870_912;

/// The entries of scratch that a walk and a build need: below it refusal 3.
pub const SCRATCH: usize = 16_384;

/// The most points that the reader takes, and the entries that its point slices need: below it refusal 3.
pub const MAX_POINTS: usize = 1_024;

/// The offsets that are enough for every build.
pub const MAX_OFFSETS: usize = 1_002_002;

/// A line that visits more cells than this is global: it is in no cell's list.
pub const MAX_CELLS_OF_LINE: usize = 2_048;
