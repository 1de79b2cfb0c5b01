//! Lines of samples, which are whole numbers, and their crossings, which are decided exactly.

use crate::refusal::{answer, Refusal};
use crate::tables::each_once;
use crate::{sys, LineVec, Standing, Tables};

/// Lines of samples: line i goes from `(start_x[i], start_y[i])` to `(end_x[i], end_y[i])`. A sample is a whole number of magnitude at most
/// [`MAX_SAMPLE`](crate::MAX_SAMPLE). The four slices are of one length; where they are not, the call that takes them is refused by 3.
#[derive(Clone, Copy, PartialEq, Eq, Debug, Default)]
pub struct Samples<'a> {
    /// x of each start.
    pub start_x: &'a [i32],
    /// y of each start.
    pub start_y: &'a [i32],
    /// x of each end.
    pub end_x: &'a [i32],
    /// y of each end.
    pub end_y: &'a [i32],
}

impl<'a> Samples<'a> {
    /// Consecutive points as lines: of n points n - 1 lines, of one point or none no lines. Nothing is copied.
    pub fn chain(x: &'a [i32], y: &'a [i32]) -> Samples<'a> {
        let starts = |v: &'a [i32]| &v[..v.len().saturating_sub(1)];
        let ends = |v: &'a [i32]| &v[v.len().min(1)..];
        Samples { start_x: starts(x), start_y: starts(y), end_x: ends(x), end_y: ends(y) }
    }

    /// How many lines there are. Where the slices differ in length, that of `start_x` counts.
    pub fn len(&self) -> usize {
        self.start_x.len()
    }

    /// Whether there are none.
    pub fn is_empty(&self) -> bool {
        self.len() == 0
    }

    /// The same lines as a build takes them. A double holds every `i32` exactly.
    pub fn to_lines(&self) -> LineVec {
        let floats = |v: &[i32]| v.iter().map(|&z| z as f64).collect();
        LineVec { start_x: floats(self.start_x), start_y: floats(self.start_y), end_x: floats(self.end_x), end_y: floats(self.end_y) }
    }
}

impl Standing<'_> {
    /// The pairs of lines that share a point, ends, overlaps and single points included, each once: at its first test, in the order of the visit, and
    /// with the lines in that test's order. They are those among the pairs that are tested: after a build in the covering mode, of the lines of
    /// [`Samples::to_lines`], all that there are.
    ///
    /// Refuses by 3 (lengths), 2 (too many lines), 15 (a number is no sample; the first such line), 8 (the grid), 10 (the tables).
    ///
    /// ```
    /// use morelturret::{Mode, Samples, Tables};
    ///
    /// // a loop that closes, and a leg that crosses it
    /// let samples = Samples::chain(&[0, 4, 4, 0, 0, 2, 2], &[0, 0, 4, 4, 0, 2, 6]);
    /// let tables = Tables::planned(samples.to_lines().lines(), Mode::Covering)?;
    /// let mut pairs = tables.crossings(samples)?;
    /// pairs.iter_mut().for_each(|pair| *pair = (pair.0.min(pair.1), pair.0.max(pair.1)));
    /// pairs.sort();
    /// assert_eq!(pairs, [(0, 1), (0, 3), (0, 4), (1, 2), (2, 3), (2, 5), (3, 4), (4, 5)]);
    /// # Ok::<(), morelturret::Refusal>(())
    /// ```
    pub fn crossings(&self, samples: Samples) -> Result<Vec<(u32, u32)>, Refusal> {
        each_once(self.items.len(), samples.len(), |[first, second, starts, listing, counts]| {
            self.crossings_into(samples, first, second, starts, listing, counts)
        })
    }

    /// [`Standing::crossings`] into lent slices: pair k is `(first[k], second[k])`, and beyond the pairs both are zeroed. The other three are scratch,
    /// and zeroed: `starts` has at least one entry more than there are lines, `listing` at least as many as `items`, used or not, and `counts` at
    /// least one for each line. Answers how many pairs there are.
    ///
    /// Refuses by 3 where `first` and `second` differ or the scratch is short, then as that does, then by 5 where there is no room for the pairs, with
    /// how many there are; all five slices are zeroed.
    pub fn crossings_into(
        &self, samples: Samples, first: &mut [u32], second: &mut [u32], starts: &mut [u32], listing: &mut [u32], counts: &mut [u32],
    ) -> Result<usize, Refusal> {
        let Standing { grid, offsets, items, globals, global_count, .. } = *self;
        let Samples { start_x, start_y, end_x, end_y } = samples;
        let [count] = answer(|out| {
            sys::crossings(
                &grid.words(), start_x, start_y, end_x, end_y, offsets, items, globals, global_count, first, second, starts, listing, counts, out,
            )
        })?;
        Ok(count as usize)
    }
}

impl Tables {
    /// The pairs of lines that share a point, each once: [`Standing::crossings`]. The samples are those that were built.
    ///
    /// Refuses by 3 (lengths), 2 (too many lines), 15 (a number is no sample), 10 (fewer lines than were built).
    pub fn crossings(&self, samples: Samples) -> Result<Vec<(u32, u32)>, Refusal> {
        self.standing().crossings(samples)
    }
}
