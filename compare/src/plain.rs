//! Plain Rust that the port is timed against. Each public function is called, as the port's are: in line, a caller's constants would go into it.

use crate::model::Standing;
use crate::{oracle, Grid};

/// Rust's own number functions.
pub mod numbers {
    #[inline(never)]
    pub fn magnitude(v: f64) -> f64 {
        v.abs()
    }
    #[inline(never)]
    pub fn least(a: f64, b: f64) -> f64 {
        a.min(b)
    }
    #[inline(never)]
    pub fn floor(v: f64) -> f64 {
        v.floor()
    }
    #[inline(never)]
    pub fn clamped_floor(v: f64, count: u32) -> u32 {
        (v.floor() as isize).clamp(0, count as isize - 1) as u32
    }
    #[inline(never)]
    pub fn ceiling(v: f64) -> u64 {
        v.ceil() as u64
    }
    #[inline(never)]
    pub fn round_half_away(v: f64) -> f64 {
        v.round()
    }
    #[inline(never)]
    pub fn square_root(v: f64) -> f64 {
        v.sqrt()
    }
}

/// `SnapNoder::snap`.
#[inline(never)]
pub fn snap_point(x: f64, y: f64, size: f64) -> (f64, f64) {
    oracle::snap(x, y, size)
}

/// `SnapNoder::snap`, handed back as the port hands it back: the bits of x and y stand in `out`.
#[inline(never)]
pub fn snap(x: f64, y: f64, size: f64, out: &mut [u64]) -> u32 {
    let (x, y) = oracle::snap(x, y, size);
    out[0] = x.to_bits();
    out[1] = y.to_bits();
    0
}

/// The first index of an axis that owns p, in the float steps of the ownership test: low = min + index x size, high = low + size.
/// The edges keep their order along an axis, so the first index with p below its high edge, or else the last, is the only one that can be it.
#[inline]
fn first(min: f64, size: f64, count: u32, p: f64) -> Option<u32> {
    let low = |i: u32| min + i as f64 * size;
    let high = |i: u32| low(i) + size;
    let last = count.checked_sub(1)?;
    let (mut a, mut b) = (0, last);
    while a < b {
        let mid = a + (b - a) / 2;
        if p < high(mid) {
            b = mid;
        } else {
            a = mid + 1;
        }
    }
    (low(a) <= p && (p < high(a) || a == last && p == high(a))).then_some(a)
}

/// The row and the column of the first cell in row order that owns (x, y). The Rust has no such search.
#[inline(never)]
pub fn owner(g: &Grid, x: f64, y: f64) -> Option<(u32, u32)> {
    let col = first(g.min_x, g.cell_width, g.cols, x)?;
    let row = first(g.min_y, g.cell_height, g.rows, y)?;
    Some((row, col))
}

/// The number of the cell that owns each point, and 2^32 - 1 where none does.
#[inline(never)]
pub fn owners(g: &Grid, x: &[f64], y: &[f64], answers: &mut [u32]) {
    for (answer, (&x, &y)) in answers.iter_mut().zip(x.iter().zip(y)) {
        let cell = first(g.min_x, g.cell_width, g.cols, x).and_then(|col| Some((first(g.min_y, g.cell_height, g.rows, y)?, col)));
        *answer = cell.map_or(u32::MAX, |(row, col)| row * g.cols + col);
    }
}

/// Each overlapping pair once, at its first test, in the order of a visit of the cells: boxes and lists by line are made once, and of each test whose boxes
/// overlap it is looked up, backwards from where the two lines stand, whether a cell that is behind lists both. Nothing is checked, and there are no globals.
/// Answers how many pairs there are.
#[inline(never)]
pub fn pairs_once(s: &Standing, first: &mut [u32], second: &mut [u32]) -> usize {
    let l = &s.lines;
    let n = l.start_x.len();
    let boxes: Vec<[f64; 4]> = (0..n)
        .map(|i| {
            let (x0, y0, x1, y1) = (l.start_x[i], l.start_y[i], l.end_x[i], l.end_y[i]);
            [x0.min(x1), y0.min(y1), x0.max(x1), y0.max(y1)]
        })
        .collect();
    let mut starts = vec![0u32; n + 1];
    for &line in s.items {
        starts[line as usize + 1] += 1;
    }
    for i in 0..n {
        starts[i + 1] += starts[i];
    }
    let lists = || s.offsets.windows(2).map(|w| &s.items[w[0] as usize..w[1] as usize]);
    let (mut at, mut listing) = (starts[..n].to_vec(), vec![0u32; s.items.len()]);
    for (cell, list) in lists().enumerate() {
        for &line in list {
            listing[at[line as usize] as usize] = cell as u32;
            at[line as usize] += 1;
        }
    }
    at.copy_from_slice(&starts[..n]);
    let mut k = 0;
    for list in lists() {
        for (i, &a) in list.iter().enumerate() {
            let [ax, ay, bx, by] = boxes[a as usize];
            for &b in &list[i + 1..] {
                let [cx, cy, dx, dy] = boxes[b as usize];
                if ax <= dx && cx <= bx && ay <= dy && cy <= by {
                    let front = |line: u32| &listing[starts[line as usize] as usize..at[line as usize] as usize];
                    if !meet(front(a), front(b)) {
                        first[k] = a;
                        second[k] = b;
                        k += 1;
                    }
                }
            }
        }
        for &line in list {
            at[line as usize] += 1;
        }
    }
    k
}

/// Whether two increasing lists have an entry in common, from their ends back.
#[inline]
fn meet(mut a: &[u32], mut b: &[u32]) -> bool {
    while let ([before_a @ .., x], [before_b @ .., y]) = (a, b) {
        if x == y {
            return true;
        }
        if x < y {
            b = before_b;
        } else {
            a = before_a;
        }
    }
    false
}
