//! Lines: four slices of coordinates, lent or owned.

/// Lines by their coordinates: line i goes from `(start_x[i], start_y[i])` to `(end_x[i], end_y[i])`. The four slices are of one length; where
/// they are not, the call that takes them is refused by 3.
///
/// ```
/// use morelturret::Lines;
///
/// let lines = Lines { start_x: &[0.0], start_y: &[0.0], end_x: &[2.0], end_y: &[2.0] };
/// assert_eq!(lines.get(0), Some([0.0, 0.0, 2.0, 2.0]));
/// assert_eq!(lines.get(1), None);
/// ```
#[derive(Clone, Copy, PartialEq, Debug, Default)]
pub struct Lines<'a> {
    /// x of each start.
    pub start_x: &'a [f64],
    /// y of each start.
    pub start_y: &'a [f64],
    /// x of each end.
    pub end_x: &'a [f64],
    /// y of each end.
    pub end_y: &'a [f64],
}

impl<'a> Lines<'a> {
    /// Consecutive points as lines: of n points n - 1 lines, of one point or none no lines. Nothing is copied.
    ///
    /// x and y of different lengths give slices of different lengths, which a build refuses by 3.
    ///
    /// ```
    /// let lines = morelturret::Lines::chain(&[0.0, 2.0, 2.0], &[0.0, 0.0, 1.0]);
    /// assert_eq!(lines.get(1), Some([2.0, 0.0, 2.0, 1.0]));
    /// assert_eq!(lines.len(), 2);
    /// ```
    pub fn chain(x: &'a [f64], y: &'a [f64]) -> Lines<'a> {
        let starts = |v: &'a [f64]| &v[..v.len().saturating_sub(1)];
        let ends = |v: &'a [f64]| &v[v.len().min(1)..];
        Lines { start_x: starts(x), start_y: starts(y), end_x: ends(x), end_y: ends(y) }
    }

    /// How many lines there are. Where the slices differ in length, that of `start_x` counts.
    pub fn len(&self) -> usize {
        self.start_x.len()
    }

    /// Whether there are none.
    pub fn is_empty(&self) -> bool {
        self.len() == 0
    }

    /// Line i as start x, start y, end x, end y; none where a slice ends before it.
    pub fn get(&self, i: usize) -> Option<[f64; 4]> {
        Some([*self.start_x.get(i)?, *self.start_y.get(i)?, *self.end_x.get(i)?, *self.end_y.get(i)?])
    }
}

/// Lines that own their coordinates, for what does not stand as four slices already. [`LineVec::lines`] lends them.
///
/// ```
/// use morelturret::{LineVec, Tables};
///
/// let owned: LineVec = [[0.0, 0.0, 2.0, 2.0], [0.0, 2.0, 2.0, 0.0]].into_iter().collect();
/// let tables = Tables::of(owned.lines())?;
/// assert!(tables.pairs(owned.lines(), 16)?.any(|pair| pair == (0, 1)));
/// # Ok::<(), morelturret::Refusal>(())
/// ```
#[derive(Clone, PartialEq, Debug, Default)]
pub struct LineVec {
    pub(crate) start_x: Vec<f64>,
    pub(crate) start_y: Vec<f64>,
    pub(crate) end_x: Vec<f64>,
    pub(crate) end_y: Vec<f64>,
}

impl LineVec {
    /// No lines.
    pub fn new() -> LineVec {
        LineVec::default()
    }

    /// So many lines from (0, 0) to (0, 0).
    pub(crate) fn zeros(n: usize) -> LineVec {
        LineVec { start_x: vec![0.0; n], start_y: vec![0.0; n], end_x: vec![0.0; n], end_y: vec![0.0; n] }
    }

    /// One line more, as start x, start y, end x, end y.
    pub fn push(&mut self, [start_x, start_y, end_x, end_y]: [f64; 4]) {
        self.start_x.push(start_x);
        self.start_y.push(start_y);
        self.end_x.push(end_x);
        self.end_y.push(end_y);
    }

    /// The lines, lent.
    pub fn lines(&self) -> Lines<'_> {
        Lines { start_x: &self.start_x, start_y: &self.start_y, end_x: &self.end_x, end_y: &self.end_y }
    }
}

impl Extend<[f64; 4]> for LineVec {
    fn extend<I: IntoIterator<Item = [f64; 4]>>(&mut self, lines: I) {
        lines.into_iter().for_each(|line| self.push(line));
    }
}

impl FromIterator<[f64; 4]> for LineVec {
    fn from_iter<I: IntoIterator<Item = [f64; 4]>>(lines: I) -> LineVec {
        let mut all = LineVec::new();
        all.extend(lines);
        all
    }
}

impl<'a> From<&'a LineVec> for Lines<'a> {
    fn from(owned: &'a LineVec) -> Lines<'a> {
        owned.lines()
    }
}
