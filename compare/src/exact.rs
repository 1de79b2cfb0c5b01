//! Whether two lines share an exact point, on whole numbers. Every coordinate is a whole number of some power of two. Lines can be asked whose coordinates,
//! in that unit, lie less than 2^61 from those of the first end: then every product fits 128 bits.

use crate::Line;

/// A finite float as m times 2^e.
fn parts(v: f64) -> Option<(i128, i32)> {
    let bits = v.to_bits();
    let (field, fraction) = ((bits >> 52 & 0x7ff) as i32, (bits & ((1 << 52) - 1)) as i128);
    let (m, e) = if field == 0 { (fraction, -1074) } else { (fraction | 1 << 52, field - 1075) };
    let zeros = if m == 0 { 0 } else { m.trailing_zeros() as i32 };
    (field != 0x7ff).then_some((if v < 0.0 { -m } else { m } >> zeros, e + zeros))
}

/// The coordinates in one unit, from those of the first end on.
fn points(lines: [&Line; 2]) -> Option<[[i128; 2]; 4]> {
    let all: Vec<(i128, i32)> = lines.iter().flat_map(|line| line.iter()).map(|&v| parts(v)).collect::<Option<_>>()?;
    let unit = all.iter().filter(|p| p.0 != 0).map(|p| p.1).min().unwrap_or(0);
    let at = |k: usize| if all[k].0 == 0 { Some(0) } else { (all[k].1 - unit <= 70).then(|| all[k].0 << (all[k].1 - unit)) };
    let mut points = [[0; 2]; 4];
    for k in 0..8 {
        points[k / 2][k % 2] = at(k)? - at(k % 2)?;
    }
    points.iter().flatten().all(|v| v.abs() < 1 << 61).then_some(points)
}

/// The sign of the turn from a to b to c.
fn side(a: [i128; 2], b: [i128; 2], c: [i128; 2]) -> i128 {
    ((b[0] - a[0]) * (c[1] - a[1]) - (b[1] - a[1]) * (c[0] - a[0])).signum()
}

/// Whether two lines share a point, ends and overlaps included; None where they cannot be asked.
pub fn share_a_point(one: &Line, other: &Line) -> Option<bool> {
    let [a, b, c, d] = points([one, other])?;
    let apart = |k: usize| a[k].max(b[k]) < c[k].min(d[k]) || c[k].max(d[k]) < a[k].min(b[k]);
    Some(!apart(0) && !apart(1) && side(a, b, c) * side(a, b, d) <= 0 && side(c, d, a) * side(c, d, b) <= 0)
}
