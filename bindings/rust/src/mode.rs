//! Which cells a walk visits, and what a build is asked for.

use crate::Sizing;

/// Which cells a walk visits. The first two modes go by turns, and differ where an end, or a whole line, lies on a boundary between cells: within 1e-12
/// of it, in cells. A line that is on no boundary visits the same cells in both.
///
/// [`Tables::of`](crate::Tables::of) takes the Rust's.
///
/// ```
/// use morelturret::{segment_cells, Grid, Mode, SCRATCH};
///
/// let grid = Grid { min_x: 0.0, min_y: 0.0, cell_width: 1.0, cell_height: 1.0, cols: 4, rows: 4 };
/// let mut scratch = vec![0; SCRATCH];
/// let hair_under = (1.0 - 2f64.powi(-41), 0.5);
/// assert_eq!(segment_cells(grid, hair_under, hair_under, Mode::Rust, &mut scratch)?, [0]);
/// assert_eq!(segment_cells(grid, hair_under, hair_under, Mode::Sided, &mut scratch)?, [0, 1]);
/// assert_eq!(segment_cells(grid, (0.5, 0.5), (1.5, 0.5), Mode::Covering, &mut scratch)?, [0, 1]);
/// # Ok::<(), morelturret::Refusal>(())
/// ```
#[derive(Clone, Copy, PartialEq, Eq, Hash, Debug, Default)]
#[repr(u32)]
pub enum Mode {
    /// The lower neighbour, on whichever side of the boundary the value lies: as the Rust does it.
    #[default]
    Rust = 0,
    /// The neighbour across the boundary: the lower one for a value at the boundary or just above it, the upper one for a value just below it.
    Sided = 1,
    /// No turns: row by row, the columns that the line comes to, with small margins. After a build in this mode a full visit tests, and hands out, every
    /// two lines that share an exact point. Refusal 7 cannot come.
    Covering = 2,
}

/// What a build is asked for: how its cells are sized, and which cells a walk visits. By default square cells and the Rust's walk.
///
/// Where a plan is taken, a [`Sizing`] or a [`Mode`] alone does as well; the other is then the default.
///
/// ```
/// use morelturret::{Mode, Plan, Sizing};
///
/// assert_eq!(Plan::from(Mode::Sided), Plan { sizing: Sizing::Square, mode: Mode::Sided });
/// ```
#[derive(Clone, Copy, PartialEq, Eq, Hash, Debug, Default)]
pub struct Plan {
    /// How the cells are sized.
    pub sizing: Sizing,
    /// Which cells a walk visits.
    pub mode: Mode,
}

impl From<Sizing> for Plan {
    fn from(sizing: Sizing) -> Plan {
        Plan { sizing, ..Plan::default() }
    }
}

impl From<Mode> for Plan {
    fn from(mode: Mode) -> Plan {
        Plan { mode, ..Plan::default() }
    }
}
