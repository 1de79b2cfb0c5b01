//! What is refused: a number and a value.

use std::error::Error;
use std::fmt;

/// A call that was refused: by which number, and the value that goes with it.
///
/// The constants below say when each number is given, and what its value is. README.md, "Refusals", has them in one table, with what to do.
///
/// ```
/// use morelturret::{snap, Refusal, Strategy};
///
/// let refusal = snap(f64::NAN, 0.0, 1.0, Strategy::Grid).unwrap_err();
/// assert_eq!(refusal, Refusal { number: Refusal::BAD_COORDINATE, value: 0 });
/// assert_eq!(refusal.to_string(), "refused 1: a coordinate is not finite or above 1e9 in magnitude (line 0)");
/// ```
#[derive(Clone, Copy, PartialEq, Eq, Hash)]
pub struct Refusal {
    /// Which refusal: 1 to 16.
    pub number: u32,
    /// What goes with it.
    pub value: u64,
}

impl Refusal {
    /// A coordinate is not finite or above 1e9 in magnitude. The value is the first such line, 0 for a point or one segment.
    pub const BAD_COORDINATE: u32 = 1;
    /// More than 65,536 lines. The value is their number. [`Parts`](crate::Parts) takes any number, and loses no pair.
    pub const TOO_MANY_LINES: u32 = 2;
    /// Slices that belong together differ in length, or one is too short. The value is 0.
    pub const BAD_LENGTHS: u32 = 3;
    /// A grid tried has more cells + 1 than the lent offsets. The value is that cells + 1.
    pub const SHORT_OFFSETS: u32 = 4;
    /// Items lent, or room for points, members, bytes, lines or pairs, are fewer than needed. The value is the number needed.
    pub const SHORT_ITEMS: u32 = 5;
    /// Globals lent are fewer than found. The value is the number found.
    pub const SHORT_GLOBALS: u32 = 6;
    /// A walk made 5,000 turns and would make another. The value is the line, 0 for one segment.
    pub const WALK_TOO_LONG: u32 = 7;
    /// The grid is unfit. The value is 0.
    pub const UNFIT_GRID: u32 = 8;
    /// A cell, global position or bookmark is beyond its end. The value is the cell's row, the position or the bookmark.
    pub const BEYOND_END: u32 = 9;
    /// The tables do not fit. The value is 0.
    pub const MISFIT_TABLES: u32 = 10;
    /// The bytes are no LineString, or no MultiLineString, that the reader takes. The value is the byte position.
    pub const BAD_WKB: u32 = 11;
    /// Snap size or strategy unfit. The value is 0.
    pub const UNFIT_SNAP: u32 = 12;
    /// The sum of two counts is above 65,536. The value is the first such entry.
    pub const SUM_TOO_LARGE: u32 = 13;
    /// An end of a line that is to be added is outside the grid. The value is 0.
    pub const OUTSIDE_GRID: u32 = 14;
    /// A number is no sample: its magnitude is above 2^29. The value is the first such line.
    pub const BAD_SAMPLE: u32 = 15;
    /// An end of one segment is off the grid of the covering walk. The value is 0.
    pub const OFF_GRID: u32 = 16;
}

/// Which refusal it is, by name, for a `match`. There may be more of them one day.
#[non_exhaustive]
#[derive(Clone, Copy, PartialEq, Eq, Hash, Debug)]
pub enum Reason {
    /// [`Refusal::BAD_COORDINATE`].
    BadCoordinate,
    /// [`Refusal::TOO_MANY_LINES`].
    TooManyLines,
    /// [`Refusal::BAD_LENGTHS`].
    BadLengths,
    /// [`Refusal::SHORT_OFFSETS`].
    ShortOffsets,
    /// [`Refusal::SHORT_ITEMS`].
    ShortItems,
    /// [`Refusal::SHORT_GLOBALS`].
    ShortGlobals,
    /// [`Refusal::WALK_TOO_LONG`].
    WalkTooLong,
    /// [`Refusal::UNFIT_GRID`].
    UnfitGrid,
    /// [`Refusal::BEYOND_END`].
    BeyondEnd,
    /// [`Refusal::MISFIT_TABLES`].
    MisfitTables,
    /// [`Refusal::BAD_WKB`].
    BadWkb,
    /// [`Refusal::UNFIT_SNAP`].
    UnfitSnap,
    /// [`Refusal::SUM_TOO_LARGE`].
    SumTooLarge,
    /// [`Refusal::OUTSIDE_GRID`].
    OutsideGrid,
    /// [`Refusal::BAD_SAMPLE`].
    BadSample,
    /// [`Refusal::OFF_GRID`].
    OffGrid,
    /// A number that this crate does not know.
    Other,
}

impl Refusal {
    /// Which refusal it is.
    ///
    /// ```
    /// use morelturret::{snap, Reason, Strategy};
    ///
    /// let refusal = snap(0.5, 0.5, 1e7, Strategy::Grid).unwrap_err();
    /// assert_eq!(refusal.reason(), Reason::UnfitSnap);
    /// // what `fn main() -> Result<(), Refusal>` shows
    /// assert_eq!(format!("{refusal:?}"), "refused 12: snap size or strategy unfit");
    /// ```
    pub fn reason(&self) -> Reason {
        match self.number {
            Refusal::BAD_COORDINATE => Reason::BadCoordinate,
            Refusal::TOO_MANY_LINES => Reason::TooManyLines,
            Refusal::BAD_LENGTHS => Reason::BadLengths,
            Refusal::SHORT_OFFSETS => Reason::ShortOffsets,
            Refusal::SHORT_ITEMS => Reason::ShortItems,
            Refusal::SHORT_GLOBALS => Reason::ShortGlobals,
            Refusal::WALK_TOO_LONG => Reason::WalkTooLong,
            Refusal::UNFIT_GRID => Reason::UnfitGrid,
            Refusal::BEYOND_END => Reason::BeyondEnd,
            Refusal::MISFIT_TABLES => Reason::MisfitTables,
            Refusal::BAD_WKB => Reason::BadWkb,
            Refusal::UNFIT_SNAP => Reason::UnfitSnap,
            Refusal::SUM_TOO_LARGE => Reason::SumTooLarge,
            Refusal::OUTSIDE_GRID => Reason::OutsideGrid,
            Refusal::BAD_SAMPLE => Reason::BadSample,
            Refusal::OFF_GRID => Reason::OffGrid,
            _ => Reason::Other,
        }
    }
}

impl fmt::Display for Refusal {
    fn fmt(&self, f: &mut fmt::Formatter) -> fmt::Result {
        let Refusal { number, value } = *self;
        write!(f, "refused {number}: ")?;
        match number {
            Refusal::BAD_COORDINATE => write!(f, "a coordinate is not finite or above 1e9 in magnitude (line {value})"),
            Refusal::TOO_MANY_LINES => write!(f, "more than 65,536 lines ({value})"),
            Refusal::BAD_LENGTHS => write!(f, "slices that belong together differ in length, or one is too short"),
            Refusal::SHORT_OFFSETS => write!(f, "a grid tried has more cells + 1 than the lent offsets ({value} needed)"),
            Refusal::SHORT_ITEMS => write!(f, "items, points, members, bytes, lines or pairs lent are fewer than needed ({value})"),
            Refusal::SHORT_GLOBALS => write!(f, "globals lent are fewer than found ({value} needed)"),
            Refusal::WALK_TOO_LONG => write!(f, "a walk made 5,000 turns and would make another (line {value})"),
            Refusal::UNFIT_GRID => write!(f, "grid record unfit"),
            Refusal::BEYOND_END => write!(f, "cell, global position or bookmark beyond its end ({value})"),
            Refusal::MISFIT_TABLES => write!(f, "tables misfit"),
            Refusal::BAD_WKB => write!(f, "WKB refused (byte {value})"),
            Refusal::UNFIT_SNAP => write!(f, "snap size or strategy unfit"),
            Refusal::SUM_TOO_LARGE => write!(f, "the sum of two counts is above 65,536 (entry {value})"),
            Refusal::OUTSIDE_GRID => write!(f, "an end of the line is outside the grid"),
            Refusal::BAD_SAMPLE => write!(f, "a number is no sample: its magnitude is above 2^29 (line {value})"),
            Refusal::OFF_GRID => write!(f, "an end of the segment is off the grid"),
            _ => write!(f, "value {value}"),
        }
    }
}

/// The sentence, so that a `main` that returns a refusal shows it.
impl fmt::Debug for Refusal {
    fn fmt(&self, f: &mut fmt::Formatter) -> fmt::Result {
        fmt::Display::fmt(self, f)
    }
}

impl Error for Refusal {}

/// The words of an answer, or its refusal. `out` has as many words as the success writes, a grid always its six, and a [`Sizing`](crate::Sizing)
/// and a [`Mode`](crate::Mode) are such as the library has; so its 100 to 103, "out is short", "too few words", "no such sizing" and "no such mode",
/// never come.
pub(crate) fn answer<const N: usize>(ask: impl FnOnce(&mut [u64]) -> u32) -> Result<[u64; N], Refusal> {
    let mut out = [0; N];
    match ask(&mut out) {
        0 => Ok(out),
        number => Err(Refusal { number, value: out[0] }),
    }
}
