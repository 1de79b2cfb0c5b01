//! Many chains at once: points with member lengths, in well-known binary and as lines.

use crate::refusal::{answer, Refusal};
use crate::{sys, LineVec};

/// Reads one MultiLineString in well-known binary (type 5) into lent slices: its points into x and y, member after member, as bit patterns, and the
/// number of points of each member into `lengths`. Answers how many points and members there are; beyond them the three slices are zeroed. A member
/// is a LineString of 1 to 1,024 points in a byte order of its own; none at all is fine, and no bytes follow the last. A 16th of the bytes is room
/// enough in x and y, a 25th in `lengths`. [`Members::read`] does the same with slices of its own.
///
/// Refuses by 3 (the lengths of x and y), 11 (the bytes), 2 (too many lines), and then writes nothing; then by 5 (points, then members, for which
/// there is no room), which leaves zeros.
///
/// ```
/// use morelturret::read_multi_line_string;
///
/// let none = [1, 5, 0, 0, 0, 0, 0, 0, 0]; // little-endian, type 5, no members
/// assert_eq!(read_multi_line_string(&none, &mut [], &mut [], &mut []), Ok((0, 0)));
/// ```
pub fn read_multi_line_string(bytes: &[u8], x: &mut [u64], y: &mut [u64], lengths: &mut [u32]) -> Result<(usize, usize), Refusal> {
    let [points, members] = answer(|out| sys::read_multi_line_string(bytes, x, y, lengths, out))?;
    Ok((points as usize, members as usize))
}

/// Writes members as one MultiLineString, little-endian throughout, and zeros the bytes beyond it. Answers its number of bytes. `lengths` has the
/// number of points of each member, and x and y hold the points of all, as bit patterns. [`Members::write`] does the same with bytes of its own.
///
/// Refuses by 3 (x and y differ in length, a length is 0 or above 1,024, or they do not add up to the points), 2 (too many lines), and then writes
/// nothing; then by 5 (the bytes needed), which leaves zeros.
///
/// ```
/// use morelturret::write_multi_line_string;
///
/// let mut bytes = [7; 16];
/// assert_eq!(write_multi_line_string(&[], &[], &[], &mut bytes), Ok(9));
/// assert_eq!(bytes, [1, 5, 0, 0, 0, 0, 0, 0, 0, 0, 0, 0, 0, 0, 0, 0]);
/// assert_eq!(write_multi_line_string(&[1], &[2], &[1], &mut bytes).unwrap_err().value, 34); // room for 34 bytes is needed
/// ```
pub fn write_multi_line_string(x: &[u64], y: &[u64], lengths: &[u32], bytes: &mut [u8]) -> Result<usize, Refusal> {
    let [count] = answer(|out| sys::write_multi_line_string(x, y, lengths, bytes, out))?;
    Ok(count as usize)
}

/// The lines of members into the four slices that a build takes: consecutive points of a member make a line, and none joins two members. Answers how
/// many there are, the points without the members; beyond them the slices, which are of one length, are zeroed. Every NaN becomes the one NaN.
/// [`Members::lines`] does the same with slices of its own.
///
/// Refuses by 3 (the four slices differ in length; or as [`write_multi_line_string`] does), 2 (too many lines), and then writes nothing; then by 5
/// (the number of lines), which leaves zeros.
///
/// ```
/// use morelturret::lines_of_members;
///
/// // two members: of two points, and of one
/// let (x, y) = ([0.0, 2.0, 5.0].map(f64::to_bits), [1.0, 3.0, 5.0].map(f64::to_bits));
/// let mut slices = [[7.0; 2]; 4];
/// let [start_x, start_y, end_x, end_y] = &mut slices;
/// assert_eq!(lines_of_members(&x, &y, &[2, 1], start_x, start_y, end_x, end_y), Ok(1));
/// assert_eq!(slices, [[0.0, 0.0], [1.0, 0.0], [2.0, 0.0], [3.0, 0.0]]);
/// ```
pub fn lines_of_members(
    x: &[u64],
    y: &[u64],
    lengths: &[u32],
    start_x: &mut [f64],
    start_y: &mut [f64],
    end_x: &mut [f64],
    end_y: &mut [f64],
) -> Result<usize, Refusal> {
    let [count] = answer(|out| sys::lines_of_members(x, y, lengths, start_x, start_y, end_x, end_y, out))?;
    Ok(count as usize)
}

/// What [`clean`] says of a point: that it is kept, or the first rule that drops it.
#[derive(Clone, Copy, PartialEq, Eq, Debug)]
pub enum Cleaning {
    /// It is kept.
    Kept,
    /// It is outside the coordinate rule: finite, of magnitude at most 1e9. Its member is split there.
    Range,
    /// It equals the one kept just before it in its piece; zeros of either sign are equal.
    Repeat,
    /// Fewer than two points of its piece were left.
    Short,
}

impl Cleaning {
    /// By its number in the slice that [`clean`] is lent.
    pub fn by(number: u32) -> Cleaning {
        match number {
            0 => Cleaning::Kept,
            1 => Cleaning::Range,
            2 => Cleaning::Repeat,
            _ => Cleaning::Short,
        }
    }
}

/// Cleans members into lent slices: points outside the coordinate rule are dropped, and their member is split there; of the pieces repeats are dropped,
/// and then pieces left with fewer than two points. Writes the kept points, bit for bit, the number of points of each piece, and for each point of the
/// input the number of its [`Cleaning`]; zeros beyond. Answers how many points and pieces are kept. Cleaning what is kept changes nothing. For n points
/// `kept_x`, `kept_y` and `reasons` need n entries, `kept_lengths` n / 2. [`Members::clean`] does the same with slices of its own.
///
/// Refuses by 3 (as [`write_multi_line_string`] does; or the kept slices differ in length, or one of the four is short), and then writes nothing.
///
/// ```
/// use morelturret::clean;
///
/// // a gap splits the chain: its one point before it is dropped, and of what follows the repeat
/// let (x, y) = ([5.0, f64::NAN, 0.0, -0.0, 1.0].map(f64::to_bits), [5.0, 0.0, 2.0, 2.0, 2.0].map(f64::to_bits));
/// let (mut kept_x, mut kept_y, mut lengths, mut reasons) = ([7; 5], [7; 5], [7; 2], [7; 5]);
/// assert_eq!(clean(&x, &y, &[5], &mut kept_x, &mut kept_y, &mut lengths, &mut reasons), Ok((2, 1)));
/// assert_eq!(reasons, [3, 1, 0, 2, 0]); // short, range, kept, repeat, kept
/// assert_eq!((kept_x, lengths), ([0.0, 1.0, 0.0, 0.0, 0.0].map(f64::to_bits), [2, 0]));
/// ```
pub fn clean(
    x: &[u64],
    y: &[u64],
    lengths: &[u32],
    kept_x: &mut [u64],
    kept_y: &mut [u64],
    kept_lengths: &mut [u32],
    reasons: &mut [u32],
) -> Result<(usize, usize), Refusal> {
    let [points, members] = answer(|out| sys::clean(x, y, lengths, kept_x, kept_y, kept_lengths, reasons, out))?;
    Ok((points as usize, members as usize))
}

/// Chains of points that own their slices: what a MultiLineString holds. A point is two bit patterns, so that a NaN keeps all its bits.
///
/// ```
/// use morelturret::{Members, Tables};
///
/// let mut year = Members::default();
/// year.push([(0.0, 0.0), (2.0, 0.0), (2.0, 2.0)]);
/// year.push([(0.0, 2.0), (2.0, 1.0)]);
///
/// let bytes = year.write()?;
/// assert_eq!(Members::read(&bytes)?, year); // the same points and lengths, bit for bit
///
/// let lines = year.lines()?; // two lines of the first member and one of the second
/// assert_eq!(lines.lines().get(2), Some([0.0, 2.0, 2.0, 1.0]));
/// let tables = Tables::of(lines.lines())?;
/// assert!(tables.pairs(lines.lines(), 16)?.any(|pair| pair == (1, 2)));
/// # Ok::<(), morelturret::Refusal>(())
/// ```
#[derive(Clone, PartialEq, Eq, Debug, Default)]
pub struct Members {
    /// x of each point, member after member.
    pub x: Vec<u64>,
    /// y of each point.
    pub y: Vec<u64>,
    /// The number of points of each member.
    pub lengths: Vec<u32>,
}

impl Members {
    /// What one MultiLineString holds: [`read_multi_line_string`] with slices of its own.
    ///
    /// Refuses by 11 (the bytes), 2 (too many lines).
    pub fn read(bytes: &[u8]) -> Result<Members, Refusal> {
        let (points, members) = (bytes.len() / 16, bytes.len() / 25);
        let (mut x, mut y, mut lengths) = (vec![0; points], vec![0; points], vec![0; members]);
        let (points, members) = read_multi_line_string(bytes, &mut x, &mut y, &mut lengths)?;
        x.truncate(points);
        y.truncate(points);
        lengths.truncate(members);
        Ok(Members { x, y, lengths })
    }

    /// One member more. One of no points, or of more than 1,024, is refused by 3 where it is written or made lines.
    pub fn push(&mut self, points: impl IntoIterator<Item = (f64, f64)>) {
        let before = self.x.len();
        for (x, y) in points {
            self.x.push(x.to_bits());
            self.y.push(y.to_bits());
        }
        self.lengths.push((self.x.len() - before).try_into().unwrap_or(u32::MAX));
    }

    /// Their MultiLineString, little-endian throughout: [`write_multi_line_string`] with bytes of its own.
    ///
    /// Refuses by 3 (the lengths), 2 (too many lines).
    pub fn write(&self) -> Result<Vec<u8>, Refusal> {
        let mut bytes = vec![0; 9 + 9 * self.lengths.len() + 16 * self.x.len()];
        write_multi_line_string(&self.x, &self.y, &self.lengths, &mut bytes)?;
        Ok(bytes)
    }

    /// Their lines, for a build: [`lines_of_members`] with slices of its own.
    ///
    /// Refuses by 3 (the lengths), 2 (too many lines).
    pub fn lines(&self) -> Result<LineVec, Refusal> {
        let mut lines = LineVec::zeros(self.x.len().saturating_sub(self.lengths.len()));
        let LineVec { start_x, start_y, end_x, end_y } = &mut lines;
        lines_of_members(&self.x, &self.y, &self.lengths, start_x, start_y, end_x, end_y)?;
        Ok(lines)
    }

    /// What cleaning keeps of them, and the reason of each of their points: [`clean`] with slices of its own.
    ///
    /// Refuses by 3 (the lengths).
    ///
    /// ```
    /// use morelturret::{Cleaning, Members};
    ///
    /// let mut chains = Members::default();
    /// chains.push([(0.0, 0.0), (0.0, 0.0), (1.0, 0.0), (f64::NAN, 0.0), (2.0, 0.0)]);
    /// let (kept, reasons) = chains.clean()?;
    /// assert_eq!(kept.lengths, [2]);
    /// assert_eq!(reasons, [Cleaning::Kept, Cleaning::Repeat, Cleaning::Kept, Cleaning::Range, Cleaning::Short]);
    /// assert_eq!(kept.clean()?, (kept.clone(), vec![Cleaning::Kept; 2])); // again, nothing changes
    /// # Ok::<(), morelturret::Refusal>(())
    /// ```
    pub fn clean(&self) -> Result<(Members, Vec<Cleaning>), Refusal> {
        let n = self.x.len();
        let (mut x, mut y, mut lengths, mut reasons) = (vec![0; n], vec![0; n], vec![0; n / 2], vec![0; n]);
        let (points, members) = clean(&self.x, &self.y, &self.lengths, &mut x, &mut y, &mut lengths, &mut reasons)?;
        x.truncate(points);
        y.truncate(points);
        lengths.truncate(members);
        Ok((Members { x, y, lengths }, reasons.into_iter().map(Cleaning::by).collect()))
    }
}
