//! The reader of well-known binary.

use crate::refusal::{answer, Refusal};
use crate::{sys, MAX_POINTS};

/// Reads one LineString in well-known binary (type 2, either byte order, 1 to 1,024 points, no bytes after it) into x and y, which are of one
/// length, at least [`MAX_POINTS`]. Answers the number of points; beyond them x and y are zeroed. Every NaN becomes the one NaN.
///
/// Refuses by 3 (the lengths of x and y), 11 (the bytes), and then writes nothing.
///
/// ```
/// use morelturret::{read_line_string, MAX_POINTS};
///
/// let mut bytes = vec![1, 2, 0, 0, 0, 1, 0, 0, 0]; // little-endian, type 2, one point
/// bytes.extend(281.5f64.to_le_bytes());
/// bytes.extend(36.25f64.to_le_bytes());
/// let (mut x, mut y) = ([0.0; MAX_POINTS], [0.0; MAX_POINTS]);
/// assert_eq!(read_line_string(&bytes, &mut x, &mut y), Ok(1));
/// assert_eq!((x[0], y[0]), (281.5, 36.25));
/// assert_eq!(read_line_string(&bytes[..20], &mut x, &mut y).unwrap_err().value, 20); // cut: refused at the end of input
/// ```
pub fn read_line_string(bytes: &[u8], x: &mut [f64], y: &mut [f64]) -> Result<usize, Refusal> {
    let [count] = answer(|out| sys::read_line_string(bytes, x, y, out))?;
    Ok(count as usize)
}

/// The points of one LineString as two vectors, x and y: [`read_line_string`] with slices of its own.
///
/// Refuses by 11 (the bytes).
///
/// ```
/// let refusal = morelturret::read_points(b"").unwrap_err();
/// assert_eq!((refusal.number, refusal.value), (11, 0));
/// ```
pub fn read_points(bytes: &[u8]) -> Result<(Vec<f64>, Vec<f64>), Refusal> {
    let (mut x, mut y) = (vec![0.0; MAX_POINTS], vec![0.0; MAX_POINTS]);
    let count = read_line_string(bytes, &mut x, &mut y)?;
    x.truncate(count);
    y.truncate(count);
    Ok((x, y))
}
