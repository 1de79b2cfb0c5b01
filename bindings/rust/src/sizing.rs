//! How a build sizes its cells.

/// How a build sizes its cells. A grid keeps the width and the height of a cell apart; the sizing decides where the two come from.
///
/// [`Tables::of`](crate::Tables::of) takes the square one. Where the two axes have nothing to do with each other, such as kelvin and parts per
/// billion, [`Sizing::Axes`] sizes each by itself, and a change of one axis's unit changes lists by rounding alone, as long as no size is held at
/// 1e-6 and the 1e-9 that a grid reaches beyond the lines is not lost.
///
/// ```
/// use morelturret::{Lines, Sizing, Tables};
///
/// // The same chain with x in kelvin and in millikelvin.
/// let (kelvin, ppb) = ([280.0, 281.0, 282.5, 280.5, 281.5], [36.0, 36.5, 35.5, 36.25, 35.75]);
/// let milli = kelvin.map(|t| t * 1000.0);
/// let grid = |x: &[f64], sizing| Tables::sized(Lines::chain(x, &ppb), sizing).map(|t| (t.grid().cols, t.grid().rows));
///
/// assert_eq!((grid(&kelvin, Sizing::Square)?, grid(&milli, Sizing::Square)?), ((4, 2), (101, 1)));
/// assert_eq!((grid(&kelvin, Sizing::Axes)?, grid(&milli, Sizing::Axes)?), ((3, 3), (3, 3)));
/// # Ok::<(), morelturret::Refusal>(())
/// ```
#[derive(Clone, Copy, PartialEq, Eq, Hash, Debug, Default)]
#[repr(u32)]
pub enum Sizing {
    /// Cells as wide as they are high: the largest of the square root of area / lines, the longer side / 1000, and 1e-6. An area below 1e-9 counts
    /// as the number of lines.
    #[default]
    Square = 0,
    /// Each axis by itself, with s the square root of the number of lines: the width is the largest of the extent in x / s, that extent / 1000,
    /// and 1e-6; the height alike from the extent in y.
    Axes = 1,
}
