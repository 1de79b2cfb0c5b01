//! What the comparisons ask: grids, segments and sets of lines that seek the edges.

use crate::random::{decimals, nudged, Random};
use crate::{Grid, Line};

const SHAPES: [(u32, u32); 14] = [
    (1, 1), (3, 3), (4, 4), (15, 2), (2, 15), (64, 64), (10, 7), (1, 4), (4, 1),
    (1001, 1001), (4004, 1), (1, 4004), (4004, 250), (250, 4004),
];

/// A fit grid of square cells. Those of a thousand columns and more are drawn less often: their walks are long.
pub fn grid(r: &mut Random) -> Grid {
    let (cols, rows) = match r.below(8) {
        0 => SHAPES[r.below(SHAPES.len() as u64) as usize],
        1 => {
            let cols = 1 + r.below(4004) as u32;
            (cols, 1 + r.below((1_002_001 / cols as u64).min(4004)) as u32)
        }
        2 => r.pick(&SHAPES[..9]),
        _ => (1 + r.below(40) as u32, 1 + r.below(40) as u32),
    };
    let cell_size = match r.below(10) {
        0..=2 => 1.0,
        3 => r.pick(&[0.1, 0.24, 0.5, 2.0, 3.0, 1.0 / 3.0, 0.24000000000001068, 10.0]),
        4 => r.pick(&[1e-6 / 4.0, 1e-6, 2e9, 1e6, 1e9, 5e-7]),
        5 => 2f64.powi(r.below(48) as i32 - 20).clamp(1e-6 / 4.0, 2e9),
        6 => decimals(r.size(0.01, 1e4), 2).max(0.01),
        _ => r.size(1e-6 / 4.0, 2e9),
    };
    let mut min = || match r.below(8) {
        0..=2 => 0.0,
        3 => decimals(r.between(-2000.0, 2000.0), 2),
        4 => r.between(-1e9, 1e9),
        5 => (r.between(-1.0, 1.0) * cell_size).clamp(-1e9, 1e9),
        6 => r.pick(&[1e9, -1e9, -0.0, 5e-324, 1024.0, -70.00000000000001, 281.15, 36.0]),
        _ => r.between(-1e4, 1e4),
    };
    let (min_x, min_y) = (min(), min());
    Grid { min_x, min_y, cell_width: cell_size, cell_height: cell_size, cols, rows }
}

/// The least and the most that a cell's width and height may be.
const SIZES: (f64, f64) = (1e-6 / 4.0, 2e9);

/// A fit grid whose cells are as wide as a square grid's, and as high as chance has it.
pub fn oblong(r: &mut Random) -> Grid {
    let g = grid(r);
    let cell_height = match r.below(8) {
        0..=2 => {
            // a power of two apart: there the Rust can be asked as well
            let mut size = g.cell_width * 2f64.powi(r.below(81) as i32 - 40);
            while size < SIZES.0 {
                size *= 2.0;
            }
            while size > SIZES.1 {
                size /= 2.0;
            }
            size
        }
        3..=4 => g.cell_width * r.size(1e-12, 1e12),
        5 => g.cell_width * 10f64.powi(r.below(25) as i32 - 12),
        6 => nudged(g.cell_width, r.below(5) as i64 - 2),
        _ => grid(r).cell_height,
    };
    let cell_height = cell_height.clamp(SIZES.0, SIZES.1);
    let min_y = if r.once_in(3) { (r.between(-1.0, 1.0) * cell_height).clamp(-1e9, 1e9) } else { g.min_y };
    Grid { min_y, cell_height, ..g }
}

/// A coordinate on an axis: inside, on a boundary and a hair beside it, or outside.
pub fn coordinate(r: &mut Random, low: f64, size: f64, count: u32) -> f64 {
    let v = match r.below(12) {
        0..=3 => low + r.unit() * count as f64 * size,
        4..=8 => {
            let boundary = low + r.below(count as u64 + 1) as f64 * size;
            match r.below(6) {
                0..=1 => boundary,
                2 => nudged(boundary, r.below(9) as i64 - 4),
                3..=4 => boundary + r.sign() * size * 2f64.powi(-35 - r.below(13) as i32),
                _ => boundary + r.sign() * 0.5 * size,
            }
        }
        9 => low + r.between(-1.0, 2.0) * count as f64 * size,
        10 => decimals(low + r.unit() * count as f64 * size, r.below(4) as u32),
        _ => r.pick(&[0.0, -0.0, 5e-324, -5e-324, 1e9, -1e9, 1.0, low]),
    };
    v.clamp(-1e9, 1e9)
}

/// A segment on the grid, with the name of its shape.
pub fn segment(r: &mut Random, g: &Grid) -> (&'static str, Line) {
    let (width, height) = (g.cell_width, g.cell_height);
    let x = |r: &mut Random| coordinate(r, g.min_x, width, g.cols);
    let y = |r: &mut Random| coordinate(r, g.min_y, height, g.rows);
    let (x0, y0) = (x(r), y(r));
    let keep = |v: f64| v.clamp(-1e9, 1e9);
    match r.below(16) {
        0..=2 => ("free", [x0, y0, x(r), y(r)]),
        3..=5 => {
            let mut near = |v: f64, size: f64| keep(v + r.between(-4.0, 4.0) * size);
            ("short", [x0, y0, near(x0, width), near(y0, height)])
        }
        6 => ("vertical", [x0, y0, x0, y(r)]),
        7 => ("horizontal", [x0, y0, x(r), y0]),
        8 => ("point", [x0, y0, x0, y0]),
        9..=11 => {
            // from one corner of a cell to another by equal steps or by a simple slope: both ways at once
            let corner = |r: &mut Random, low: f64, size: f64, count: u32| low + r.below(count as u64 + 1) as f64 * size;
            let (a, b) = (corner(r, g.min_x, width, g.cols), corner(r, g.min_y, height, g.rows));
            let k = r.below(30) as f64;
            let (p, q) = r.pick(&[(1.0, 1.0), (1.0, 2.0), (2.0, 1.0), (3.0, 2.0), (1.0, 3.0)]);
            let (c, d) = (a + r.sign() * k * p * width, b + r.sign() * k * q * height);
            let mut moved = |v: f64, size: f64| match r.below(8) {
                0 => keep(nudged(v, r.below(5) as i64 - 2)),
                1 => keep(v + r.sign() * size * 2f64.powi(-35 - r.below(13) as i32)),
                _ => keep(v),
            };
            ("corner", [moved(a, width), moved(b, height), moved(c, width), moved(d, height)])
        }
        12..=13 => {
            // so little difference on one axis that t_max grows without bound
            let mut hair = |v: f64| match r.below(4) {
                0 => nudged(v, 1),
                1 => nudged(v, -1),
                2 => nudged(v, r.below(2001) as i64 - 1000),
                _ => r.sign() * v * 2f64.powi(-(r.below(60) as i32)),
            };
            let (h, v) = (keep(hair(x0)), keep(hair(y0)));
            match r.below(4) {
                0 => ("hair", [x0, y0, h, v]),
                1 => ("hair", [x0, y0, h, y(r)]),
                2 => ("hair", [x0, y0, x(r), v]),
                _ => ("hair", [0.0, y0, 5e-324 * (1 + r.below(3)) as f64 * r.sign(), y(r)]),
            }
        }
        14 => {
            let mut far = |low: f64, size: f64, count: u32| keep(low + r.between(-2.0, 3.0) * count as f64 * size);
            let (x0, y0) = (far(g.min_x, width, g.cols), far(g.min_y, height, g.rows));
            ("leaving", [x0, y0, far(g.min_x, width, g.cols), far(g.min_y, height, g.rows)])
        }
        _ => {
            // the whole length of a row or a column
            let end = |low: f64, size: f64, count: u32| keep(low + (count as f64 - 0.5) * size);
            let near = |low: f64, size: f64| keep(low + 0.5 * size);
            let (a, b) = (near(g.min_x, width), near(g.min_y, height));
            let (c, d) = (end(g.min_x, width, g.cols), end(g.min_y, height, g.rows));
            ("long", r.pick(&[[a, b, c, d], [c, d, a, b], [a, d, c, b], [c, b, a, d], [a, b, c, b], [a, b, a, d]]))
        }
    }
}

/// A coordinate beside a boundary of an axis: at it, or 2^-35 to 2^-47 of a cell off it, on either side. The first two boundaries and the last two come
/// as often as all others.
pub fn beside(r: &mut Random, low: f64, size: f64, count: u32) -> f64 {
    let i = match r.below(6) {
        0 => 0,
        1 => 1,
        2 => count.saturating_sub(1),
        3 => count,
        _ => r.below(count as u64 + 1) as u32,
    };
    let v = low + i as f64 * size;
    let hair = size * 2f64.powi(-35 - r.below(13) as i32);
    let moved = match r.below(8) {
        0 => v,
        1 => nudged(v, r.below(5) as i64 - 2),
        2..=4 => v + hair,
        _ => v - hair,
    };
    moved.clamp(-1e9, 1e9)
}

/// Gives a grid a cell size that is not fit, or at the edge of it: to one axis where these are kept apart.
pub fn resize<const AXES: bool>(r: &mut Random, g: &mut Grid) {
    let size = r.pick(&[0.0, -1.0, 2.4999999999999994e-7, 2.5e-7, 2e9, 2000000000.0000002, f64::NAN, f64::INFINITY]);
    if !AXES {
        (g.cell_width, g.cell_height) = (size, size);
    } else if r.once_in(2) {
        g.cell_width = size;
    } else {
        g.cell_height = size;
    }
}

/// A number that breaks the coordinate rule, or stands at its edge.
pub fn bad(r: &mut Random) -> f64 {
    r.pick(&[f64::NAN, f64::INFINITY, f64::NEG_INFINITY, nudged(1e9, 1), nudged(-1e9, -1), 1e9, -1e9, 1e300])
}

/// A year on a bench: n legs of orbits that loop through temperature (kelvin) and frequency (parts per billion), and drift.
/// More legs are more orbits, and each in shorter legs, so that a leg crosses as many cells of the finer grid.
pub fn year(r: &mut Random, n: usize) -> Vec<Line> {
    orbits(r, n, (0.7 * (n as f64).sqrt()).max(8.0))
}

/// A year in so many legs for each orbit: the more orbits, the more cells of the finer grid each leg crosses.
pub fn orbits(r: &mut Random, n: usize, legs: f64) -> Vec<Line> {
    let noise = 4.0 / (n as f64).sqrt().max(8.0);
    let point = |i: usize, noise: (f64, f64)| {
        let phase = i as f64 / legs * std::f64::consts::TAU;
        let season = i as f64 / n as f64 * std::f64::consts::TAU;
        let kelvin = 281.0 + (8.0 + 2.0 * season.cos()) * phase.cos() + 3.0 * season.sin() + noise.0;
        let lag = 0.35 + 0.1 * season.sin();
        let ppb = 36.0 + 6.0 * (phase - lag).cos() + 14.0 * i as f64 / n as f64 + noise.1;
        (decimals(kelvin, 3), decimals(ppb, 4))
    };
    let mut at = point(0, (0.0, 0.0));
    (1..=n)
        .map(|i| {
            let to = point(i, (r.between(-noise, noise), r.between(-noise, noise)));
            let line = [at.0, at.1, to.0, to.1];
            at = to;
            line
        })
        .collect()
}

/// A set of at most `most` lines, with the name of its shape.
pub fn lines(r: &mut Random, most: usize) -> (&'static str, Vec<Line>) {
    let n = 1 + r.below(most as u64) as usize;
    let scale = match r.below(6) {
        0 => r.size(1e-4, 1e8),
        1 => 1e8,
        2 => 1.0,
        _ => 100.0,
    };
    let places = r.below(7) as u32;
    let low = match r.below(4) {
        0 => r.between(-1e8, 1e8),
        1 => 1024.0,
        _ => 0.0,
    };
    let put = move |v: f64| if places < 4 { decimals(low + v * scale, places) } else { low + v * scale };
    let chain = |points: Vec<(f64, f64)>| points.windows(2).map(|w| [w[0].0, w[0].1, w[1].0, w[1].1]).collect::<Vec<Line>>();
    match r.below(14) {
        0 => ("year", year(r, n)),
        1..=2 => {
            // loops one after another
            let (mut x, mut y) = (0.0, 0.0);
            let points = (0..=n).map(|i| {
                let a = i as f64 * 0.6;
                x += r.between(-0.01, 0.02);
                y += r.between(-0.01, 0.02);
                (put(x + 0.3 * a.cos()), put(y + 0.3 * a.sin()))
            });
            ("loops", chain(points.collect()))
        }
        3 => {
            // rows and columns whose ends stand on cell boundaries
            let side = ((n / 2).max(1)) as f64;
            let all = (0..n).map(|i| {
                let k = (i / 2) as f64;
                if i % 2 == 0 {
                    [low, low + k, low + side, low + k]
                } else {
                    [low + k, low, low + k, low + side]
                }
            });
            ("lattice", all.collect())
        }
        4..=5 => {
            // many lines in a small part of a wide field: one halving, or two
            let small = r.size(1e-4, 0.3);
            let spread = r.below(20) as usize + 1;
            let all = (0..n + 400).map(|i| {
                let s = if i < spread { 1.0 } else { small };
                [put(r.unit() * s), put(r.unit() * s), put(r.unit() * s), put(r.unit() * s)]
            });
            ("cluster", all.collect())
        }
        6..=7 => {
            // wide and thin: two halvings make more than 2,048 columns, and the long lines global
            let height = r.pick(&[0.0, 0.001, 0.0005, 0.002, 0.004]);
            let long = 1 + r.below(4) as usize;
            let all = (0..n + 520).map(|i| {
                if i < long {
                    let end = r.pick(&[1.0, 1.0, 0.6, 0.5, 0.512, 0.49]);
                    [low, low, low + end * scale, low + r.unit() * height * scale]
                } else {
                    let (x, w) = (r.unit() * 0.0002, r.unit() * 0.0001);
                    [low + x * scale, low + r.unit() * height * scale, low + (x + w) * scale, low + r.unit() * height * scale]
                }
            });
            ("thin", all.collect())
        }
        8 => {
            // on one line
            let (a, b) = r.pick(&[(1.0, 0.0), (0.0, 1.0), (1.0, 1.0), (1.0, -0.5)]);
            let all = (0..n).map(|_| {
                let (s, t) = (put(r.unit()), put(r.unit()));
                [a * s, b * s, a * t, b * t]
            });
            ("collinear", all.collect())
        }
        9 => {
            let all = (0..n).map(|_| {
                let (x, y) = (put(r.unit()), put(r.unit()));
                [x, y, x, y]
            });
            ("points", all.collect())
        }
        10 => {
            let p = [put(r.unit()), put(r.unit()), put(r.unit()), put(r.unit())];
            ("one", vec![if r.once_in(2) { p } else { [p[0], p[1], p[0], p[1]] }])
        }
        11 => {
            let mut end = || r.pick(&[1e9, -1e9, nudged(1e9, -1), 0.0, -0.0, 5e-324, 1e-9, 999999999.5]);
            let all = (0..n.min(200)).map(|_| [end(), end(), end(), end()]);
            ("largest", all.collect())
        }
        12 if r.once_in(2) => {
            // k by k cells, and lines a hair long across the grid's high edge, which is 0: a walk that steps past the last column
            // with an endless t_max never ends
            let k = 2 + r.below(11);
            let w = r.pick(&[1e9, 1e8, 536870912.0, 1e9 - 1.0]);
            let turned = r.once_in(2);
            let mut all = vec![[-w, -w, -w, 0.0], [-w, 0.0, 0.0, -w]];
            while (all.len() as u64) < k * k {
                let mut hair = || r.pick(&[0.0, -5e-324, -1e-323, -w / 2.0]);
                let (a, b) = (hair(), hair());
                let mut edge = || if r.once_in(4) { -w * r.unit() } else { -w + r.below(k + 1) as f64 * (w / k as f64) };
                let (c, d) = (edge(), edge());
                all.push(if turned { [c, a, d, b] } else { [a, c, b, d] });
            }
            ("hair", all)
        }
        12 => {
            // whole numbers: many equal ends, many corners
            let mut whole = || low.round() + r.below(20) as f64;
            let all = (0..n).map(|_| [whole(), whole(), whole(), whole()]);
            ("whole", all.collect())
        }
        _ => {
            let all = (0..n).map(|_| {
                let (x, y) = (r.unit(), r.unit());
                [put(x), put(y), put(x + r.between(-0.1, 0.1)), put(y + r.between(-0.1, 0.1))]
            });
            ("scattered", all.collect())
        }
    }
}

/// What one axis is multiplied by.
fn factor(r: &mut Random) -> f64 {
    match r.below(5) {
        0 => 1.0,
        1 => 2f64.powi(r.below(81) as i32 - 40),
        2 => 10f64.powi(r.below(25) as i32 - 12),
        3 => r.pick(&[1e3, 1e6, 1e-3, 1e-6]),
        _ => r.size(1e-12, 1e12),
    }
}

/// An extent of n lines on one axis: none, the least, the most, and those at which 1e-6 or the 1e-9 that a grid reaches further begins to count.
fn extent(r: &mut Random, n: usize) -> f64 {
    let s = (n as f64).sqrt();
    let which = r.below(10);
    let mut beside = |v: f64| nudged(v, r.below(5) as i64 - 2);
    match which {
        0 => 0.0,
        1 => beside(1e-9),
        2 => beside(1e-6 * s),
        3 => beside(1e-6),
        4 => 2e9,
        5 => beside(2e9).min(2e9),
        6 => 1.0,
        7 => s,
        _ => r.size(1e-9, 2e9),
    }
}

/// n lines between 0 and 1 on both axes, most with ends at 0 and at 1, and the name of their shape.
fn unit(r: &mut Random, n: usize) -> (&'static str, Vec<Line>) {
    let side = (n as f64).sqrt().ceil().max(1.0);
    let keep = |v: f64| v.clamp(0.0, 1.0);
    let mut lines: Vec<Line> = Vec::with_capacity(n);
    let shape = match r.below(8) {
        0..=1 => {
            lines.extend((0..n).map(|_| {
                let (x, y) = (r.unit(), r.unit());
                [x, y, keep(x + r.between(-2.0, 2.0) / side), keep(y + r.between(-2.0, 2.0) / side)]
            }));
            "extents, short"
        }
        2 => {
            lines.extend((0..n).map(|_| [r.unit(), r.unit(), r.unit(), r.unit()]));
            "extents, free"
        }
        3 => {
            // ends on the boundaries of the first grid, or of a halved one
            let parts = side * r.pick(&[1.0, 2.0, 4.0]);
            let mut at = || r.below(parts as u64 + 1) as f64 / parts;
            lines.extend((0..n).map(|_| [at(), at(), at(), at()]));
            "extents, corners"
        }
        4 => {
            // along one axis, or a hair off it
            let hair = r.pick(&[0.0, 0.0, 5e-324, 1e-300, 1e-17]);
            let upright = r.once_in(2);
            lines.extend((0..n).map(|_| {
                let (from, to, at) = (r.unit(), r.unit(), r.below(side as u64 + 1) as f64 / side);
                if upright { [at, from, at + hair, to] } else { [from, at, to, at + hair] }
            }));
            "extents, along an axis"
        }
        5 => {
            // many in one place: a halving, or two
            let (x, y, small) = (r.unit() * 0.9, r.unit() * 0.9, r.size(1e-4, 0.1));
            let mut near = |v: f64| keep(v + r.unit() * small);
            lines.extend((0..n + 510).map(|_| [near(x), near(y), near(x), near(y)]));
            "extents, cluster"
        }
        6 => {
            lines.extend((0..n).map(|_| {
                let (x, y) = (r.unit(), r.unit());
                [x, y, x, y]
            }));
            "extents, points"
        }
        _ => {
            let (mut x, mut y) = (0.5, 0.5);
            lines.extend((0..n).map(|_| {
                let from = (x, y);
                (x, y) = (keep(x + r.between(-1.0, 1.0) / side), keep(y + r.between(-1.0, 1.0) / side));
                [from.0, from.1, x, y]
            }));
            "extents, chain"
        }
    };
    if !r.once_in(8) {
        // the whole of both extents
        lines[0] = [0.0, r.unit(), 1.0, r.unit()];
        let last = lines.len() - 1;
        lines[last][1] = 0.0;
        lines[last][3] = 1.0;
    }
    (shape, lines)
}

/// A set of about at most `most` lines whose extents in x and in y have nothing to do with each other, with the name of its shape.
pub fn apart(r: &mut Random, most: usize) -> (&'static str, Vec<Line>) {
    if r.once_in(3) {
        // one of the sets above with one axis in another unit
        let (shape, mut all) = lines(r, most);
        let f = factor(r);
        let k = r.below(2) as usize;
        for line in &mut all {
            line[k] = (line[k] * f).clamp(-1e9, 1e9);
            line[k + 2] = (line[k + 2] * f).clamp(-1e9, 1e9);
        }
        return (shape, all);
    }
    let n = match r.below(4) {
        // a whole root, and the numbers beside it
        0 => {
            let root = 1 + r.below((most as f64).sqrt() as u64) as usize;
            (root * root + r.below(3) as usize).saturating_sub(1).max(1)
        }
        _ => 1 + r.below(most as u64) as usize,
    };
    let width = extent(r, n);
    let height = match r.below(3) {
        0 => extent(r, n),
        1 => (width * 2f64.powi(r.below(81) as i32 - 40)).min(2e9),
        _ => (width * r.size(1e-12, 1e12)).min(2e9),
    };
    let mut low = |extent: f64| match r.below(4) {
        0 => 0.0,
        1 => -extent / 2.0,
        2 => -extent,
        _ => r.between(-1e9, 1e9) * if r.once_in(2) { 1.0 } else { 1e-6 },
    };
    // 2e9 has one place alone, and what is too high is brought down
    let (min_x, min_y) = (low(width).min(1e9 - width).max(-1e9), low(height).min(1e9 - height).max(-1e9));
    let (shape, mut all) = unit(r, n);
    for line in &mut all {
        for (k, (min, extent)) in [(min_x, width), (min_y, height), (min_x, width), (min_y, height)].into_iter().enumerate() {
            line[k] = (min + line[k] * extent).clamp(-1e9, 1e9);
        }
    }
    let flat = |k: usize| all.iter().all(|l| l[k] == all[0][k] && l[k + 2] == all[0][k]);
    let shape = match (flat(0), flat(1)) {
        (true, true) => "no extent",
        (true, false) => "no width",
        (false, true) => "no height",
        _ => shape,
    };
    (shape, all)
}
