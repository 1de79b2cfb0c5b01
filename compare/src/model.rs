//! Document 01, and what document 02 adds, written down once more, apart from the Rust and from the port: the third opinion.
//! Numbers are worked out on bit patterns. Each entry has the port's own shape: lent slices, an answer by number, values in `out`.
//! The walk counts its turns, so that the Rust is never asked for a walk that may not end.

use crate::{cover, Grid, Line, Mode, Sizing};

/// The turns that a walk may make.
pub const BUDGET: u32 = 5000;
/// The distinct cells that a line may have and still be listed.
pub const MOST_CELLS: usize = 2048;
/// The scratch that a walk is lent, at least.
pub const SCRATCH: usize = 16384;
/// The lines that a build takes.
pub const MOST_LINES: usize = 65536;

// ---- numbers ----

/// A finite pattern's value is m * 2^e.
fn parts(v: f64) -> (bool, u64, i32) {
    let b = v.to_bits();
    let field = (b >> 52 & 2047) as i32;
    let digits = b & ((1 << 52) - 1);
    if field == 0 {
        (b >> 63 == 1, digits, -1074)
    } else {
        (b >> 63 == 1, digits | 1 << 52, field - 1075)
    }
}

fn is_nan(v: f64) -> bool {
    v.to_bits() << 1 > 2047 << 53
}

fn signed(minus: bool, whole: u64) -> f64 {
    f64::from_bits((whole as f64).to_bits() | (minus as u64) << 63)
}

/// Whether every digit of v stands before the point: infinities and NaN too.
fn is_whole_by_size(v: f64) -> bool {
    v.to_bits() >> 52 & 2047 >= 1075
}

pub fn least(a: f64, b: f64) -> f64 {
    if is_nan(a) || b < a {
        b
    } else {
        a
    }
}

pub fn greatest(a: f64, b: f64) -> f64 {
    if is_nan(a) || a < b {
        b
    } else {
        a
    }
}

pub fn magnitude(v: f64) -> f64 {
    f64::from_bits(v.to_bits() & !(1 << 63))
}

/// m / 2^shift: its whole part, and whether something is left.
fn cut(m: u64, shift: u32) -> (u64, bool) {
    if shift > 63 {
        (0, m != 0)
    } else {
        (m >> shift, m & ((1 << shift) - 1) != 0)
    }
}

pub fn floor(v: f64) -> f64 {
    if is_whole_by_size(v) {
        return v;
    }
    let (minus, m, e) = parts(v);
    let (whole, rest) = cut(m, -e as u32);
    signed(minus, whole + (minus && rest) as u64)
}

/// The floor brought into 0 .. count - 1; 0 for a NaN and for no count.
pub fn clamped_floor(v: f64, count: u32) -> u32 {
    if is_nan(v) || count == 0 || v < 0.0 {
        return 0;
    }
    let f = floor(v);
    if f >= count as f64 {
        count - 1
    } else {
        f as u32
    }
}

/// The ceiling as a whole number of 64 bits.
pub fn ceiling(v: f64) -> u64 {
    if is_nan(v) || v <= 0.0 {
        return 0;
    }
    if v.to_bits() == f64::INFINITY.to_bits() {
        return u64::MAX;
    }
    let (_, m, e) = parts(v);
    if e >= 0 {
        return if e > 11 { u64::MAX } else { m << e };
    }
    let (whole, rest) = cut(m, -e as u32);
    whole + rest as u64
}

pub fn round_half_away(v: f64) -> f64 {
    if is_whole_by_size(v) {
        return v;
    }
    let (minus, m, e) = parts(v);
    let shift = -e as u32;
    signed(minus, if shift > 54 { 0 } else { (m + (1 << (shift - 1))) >> shift })
}

pub fn square_root(v: f64) -> f64 {
    let b = v.to_bits();
    if b << 1 == 0 || is_nan(v) || b == f64::INFINITY.to_bits() {
        return v;
    }
    if b >> 63 == 1 {
        return f64::NAN;
    }
    // the value is m * 2^e with m from 2^106 to 2^108 and e even: its root has 54 digits, and is no tie
    let (_, m, e) = parts(v);
    let lift = m.leading_zeros() as i32 - 11;
    let (m, e) = (m << lift, e - lift);
    let odd = e.rem_euclid(2);
    let (m, e) = ((m as u128) << (54 + odd), e - 54 - odd);
    let mut root = 0u128;
    for k in (0..54).rev() {
        let t = root | 1 << k;
        if t * t <= m {
            root = t;
        }
    }
    let digits = (root as u64 + 1) >> 1;
    let field = (e / 2 + 1 + 1075 - 1) as u64;
    f64::from_bits((field << 52) + digits)
}

// ---- domain ----

pub fn coordinate_fits(v: f64) -> bool {
    magnitude(v) <= 1e9
}

pub fn counts_fit(g: &Grid) -> bool {
    (g.cols == 0 && g.rows == 0)
        || ((1..=4004).contains(&g.cols) && (1..=4004).contains(&g.rows) && g.cols as u64 * g.rows as u64 <= 1_002_001)
}

pub fn grid_fits(g: &Grid) -> bool {
    let sizes = [g.cell_width, g.cell_height].iter().all(|&size| size >= 1e-6 / 4.0 && size <= 2e9);
    coordinate_fits(g.min_x) && coordinate_fits(g.min_y) && sizes && counts_fit(g)
}

pub fn snap_size_fits(size: f64) -> bool {
    size == 0.0 || (1e-6..=1e6).contains(&size)
}

pub fn snap_fits(size: f64, strategy: u32) -> bool {
    snap_size_fits(size) && strategy == 0
}

// ---- the walk ----

/// One axis of the grid: column and row follow one rule.
#[derive(Clone, Copy)]
struct Axis {
    low: f64,
    size: f64,
    count: u32,
}

impl Axis {
    fn value(self, p: f64) -> f64 {
        (p - self.low) / self.size
    }
    fn index(self, p: f64) -> i64 {
        clamped_floor(self.value(p), self.count) as i64
    }
    /// Where p lies beside the boundary that is nearest: off it, at it or just above, or just below.
    fn side(self, p: f64) -> Side {
        let v = self.value(p);
        let boundary = round_half_away(v);
        if magnitude(v - boundary) <= 1e-12 {
            if v < boundary { Side::Below } else { Side::AtOrAbove }
        } else {
            Side::Off
        }
    }
    /// The step to the neighbour that p adds: none off a boundary; the lower one, but in the sided mode the upper one just below a boundary.
    fn added(self, mode: Mode, p: f64) -> i64 {
        match (mode, self.side(p)) {
            (_, Side::Off) | (Mode::Covering, _) => 0,
            (Mode::Sided, Side::Below) => 1,
            (Mode::Sided, Side::AtOrAbove) | (Mode::Rust, _) => -1,
        }
    }
    fn low_edge(self, index: i64) -> f64 {
        self.low + index as f64 * self.size
    }
    /// Whether p is at or above the low edge of the first index, and at or below the high edge of the last.
    fn between_ends(self, p: f64) -> bool {
        match self.count {
            0 => false,
            n => self.low_edge(0) <= p && p <= self.low_edge(n as i64 - 1) + self.size,
        }
    }
    /// Whether the index's stretch owns p; in the last one its high edge belongs to it.
    fn owns(self, index: i64, p: f64, last_too: bool) -> bool {
        let low = self.low_edge(index);
        let high = low + self.size;
        low <= p && (p < high || (last_too && index + 1 == self.count as i64 && p == high))
    }
}

/// Where a value lies beside a boundary.
enum Side {
    Off,
    AtOrAbove,
    Below,
}

fn axes(g: &Grid) -> (Axis, Axis) {
    (Axis { low: g.min_x, size: g.cell_width, count: g.cols }, Axis { low: g.min_y, size: g.cell_height, count: g.rows })
}

/// How a walk goes on one axis: the index, the step, `t_max` and `t_delta`.
struct Way {
    at: i64,
    end: i64,
    step: i64,
    t_max: f64,
    t_delta: f64,
}

impl Way {
    fn new(axis: Axis, start: f64, end: f64) -> Way {
        let d = end - start;
        let at = axis.index(start);
        let step = (d > 0.0) as i64 - (d < 0.0) as i64;
        let (t_max, t_delta) = if step == 0 {
            (f64::INFINITY, f64::INFINITY)
        } else {
            let next = axis.low_edge(at + (step > 0) as i64);
            (greatest((next - start) / d, 0.0), axis.size / magnitude(d))
        };
        Way { at, end: axis.index(end), step, t_max, t_delta }
    }
    fn go(&mut self) {
        self.at += self.step;
        self.t_max += self.t_delta;
    }
}

/// What a walk pushes: cells inside the grid, none equal to the one just pushed.
struct Pushed<'a> {
    cells: &'a mut Vec<u32>,
    cols: i64,
    rows: i64,
}

impl Pushed<'_> {
    fn push(&mut self, col: i64, row: i64) {
        if (0..self.cols).contains(&col) && (0..self.rows).contains(&row) {
            let cell = (row * self.cols + col) as u32;
            if self.cells.last() != Some(&cell) {
                self.cells.push(cell);
            }
        }
    }
}

/// The cells of a line in a mode, increasing, none twice, left in `cells`; or None where the walk would make a turn beyond the budget.
/// The answer is the number of turns.
pub fn walk(mode: Mode, g: &Grid, line: &Line, cells: &mut Vec<u32>) -> Option<u32> {
    cells.clear();
    if g.cols == 0 || g.rows == 0 {
        return Some(0);
    }
    if mode == Mode::Covering {
        cells.extend(cover::cells(g, line));
        return Some(0);
    }
    let [x0, y0, x1, y1] = *line;
    let (across, up) = axes(g);
    let (mut x, mut y) = (Way::new(across, x0, x1), Way::new(up, y0, y1));
    let mut pushed = Pushed { cells, cols: g.cols as i64, rows: g.rows as i64 };
    pushed.push(x.at, y.at);
    let mut turns = 0;
    while x.at != x.end || y.at != y.end {
        let largest = greatest(greatest(magnitude(x.t_max), magnitude(y.t_max)), 1.0);
        let tolerance = f64::from_bits((1023 - 52) << 52) * largest * 8.0;
        if least(x.t_max, y.t_max) > 1.0 + tolerance {
            break;
        }
        if turns == BUDGET {
            return None;
        }
        turns += 1;
        let finite = x.t_max < f64::INFINITY && y.t_max < f64::INFINITY;
        if finite && magnitude(x.t_max - y.t_max) <= tolerance {
            pushed.push(x.at + x.step, y.at);
            pushed.push(x.at, y.at + y.step);
            x.go();
            y.go();
        } else if x.t_max < y.t_max {
            x.go();
        } else {
            y.go();
        }
        pushed.push(x.at, y.at);
    }
    pushed.push(x.end, y.end);

    // a whole line that keeps to a value of an axis adds to each cell what that value adds
    let along = (if x.step == 0 { across.added(mode, x0) } else { 0 }, if y.step == 0 { up.added(mode, y0) } else { 0 });
    for k in 0..pushed.cells.len() {
        let cell = pushed.cells[k] as i64;
        neighbours(&mut pushed, cell % g.cols as i64, cell / g.cols as i64, along);
    }
    for (px, py) in [(x0, y0), (x1, y1)] {
        neighbours(&mut pushed, across.index(px), up.index(py), (across.added(mode, px), up.added(mode, py)));
    }
    cells.sort();
    cells.dedup();
    Some(turns)
}

/// The neighbours of a cell that boundaries add, by a step on each axis; a step on both adds the corner too.
fn neighbours(pushed: &mut Pushed, col: i64, row: i64, (dx, dy): (i64, i64)) {
    if dx != 0 {
        pushed.push(col + dx, row);
    }
    if dy != 0 {
        pushed.push(col, row + dy);
    }
    if dx != 0 && dy != 0 {
        pushed.push(col + dx, row + dy);
    }
}

/// The mode is asked for by its number: 0 is the Rust's, 1 the sided one, 2 the covering one.
pub fn segment_cells(g: &Grid, line: &Line, mode: u32, scratch: &mut [u32], out: &mut [u64]) -> u32 {
    if out.is_empty() {
        return SHORT;
    }
    let Some(mode) = mode_of(mode) else {
        return NO_MODE;
    };
    let mut refuse = |number, value| {
        out[0] = value;
        number
    };
    if scratch.len() < SCRATCH {
        return refuse(3, 0);
    }
    if !line.iter().all(|&v| coordinate_fits(v)) {
        return refuse(1, 0);
    }
    if !grid_fits(g) {
        return refuse(8, 0);
    }
    if mode == Mode::Covering && cover::off(g, line) {
        return refuse(16, 0);
    }
    let mut cells = Vec::new();
    if walk(mode, g, line, &mut cells).is_none() {
        scratch.fill(0);
        return refuse(7, 0);
    }
    left(scratch, &cells);
    out[0] = cells.len() as u64;
    0
}

/// Writes `written` at the start and zero beyond.
fn left(slice: &mut [u32], written: &[u32]) {
    slice[..written.len()].copy_from_slice(written);
    slice[written.len()..].fill(0);
}

// ---- the build ----

/// Four slices of coordinates.
#[derive(Clone, Copy)]
pub struct Coordinates<'a> {
    pub start_x: &'a [f64],
    pub start_y: &'a [f64],
    pub end_x: &'a [f64],
    pub end_y: &'a [f64],
}

impl Coordinates<'_> {
    pub fn line(&self, i: usize) -> Line {
        [self.start_x[i], self.start_y[i], self.end_x[i], self.end_y[i]]
    }
    pub fn len(&self) -> usize {
        self.start_x.len()
    }
    fn uneven(&self) -> bool {
        let n = self.len();
        self.start_y.len() != n || self.end_x.len() != n || self.end_y.len() != n
    }
    /// Refusals 2 and 1.
    fn refusal(&self) -> Option<(u32, u64)> {
        let n = self.len();
        if n > MOST_LINES {
            return Some((2, n as u64));
        }
        (0..n).find(|&i| !self.line(i).iter().all(|&v| coordinate_fits(v))).map(|i| (1, i as u64))
    }
}

/// The cell width and the cell height of the first grid that is tried for n lines.
fn first_sizes(sizing: Sizing, n: f64, width: f64, height: f64) -> (f64, f64) {
    match sizing {
        Sizing::Square => {
            let mut area = width * height;
            if area < 1e-9 {
                area = n;
            }
            let size = greatest(greatest(square_root(area / n), greatest(width, height) / 1000.0), 1e-6);
            (size, size)
        }
        Sizing::Axes => {
            let s = square_root(n);
            let size = |extent: f64| greatest(greatest(extent / s, extent / 1000.0), 1e-6);
            (size(width), size(height))
        }
    }
}

/// What a grid lists: the lines of each cell, and the global lines.
pub struct Listed {
    pub lists: Vec<Vec<u32>>,
    pub globals: Vec<u32>,
}

impl Listed {
    pub fn offsets(&self) -> Vec<u32> {
        let mut offsets = vec![0];
        for l in &self.lists {
            offsets.push(offsets.last().unwrap() + l.len() as u32);
        }
        offsets
    }
}

/// The lines in the domain counted and placed on a grid that is fit; or the first line whose walk goes beyond the budget.
pub fn listed_on(mode: Mode, grid: &Grid, lines: Coordinates) -> Result<Listed, usize> {
    let mut lists = vec![Vec::new(); grid.cols as usize * grid.rows as usize];
    let mut globals = Vec::new();
    let mut cells = Vec::new();
    for i in 0..lines.len() {
        walk(mode, grid, &lines.line(i), &mut cells).ok_or(i)?;
        if cells.len() > MOST_CELLS {
            globals.push(i as u32);
        } else {
            for &c in &cells {
                lists[c as usize].push(i as u32);
            }
        }
    }
    Ok(Listed { lists, globals })
}

/// What a build makes, with the most cells + 1 of the grids that it tried and the halvings.
#[derive(Clone)]
pub struct Tables {
    pub grid: Grid,
    pub offsets: Vec<u32>,
    pub items: Vec<u32>,
    pub globals: Vec<u32>,
    pub most_offsets: usize,
    pub halvings: u32,
}

/// The tables of a set of lines in the domain, in a sizing and a mode of walk. `room` is the number of offsets lent. A refusal 4 or 7 is the error.
pub fn tables(lines: Coordinates, sizing: Sizing, mode: Mode, room: usize) -> Result<Tables, (u32, u64)> {
    let n = lines.len();
    if n == 0 {
        if room < 1 {
            return Err((4, 1));
        }
        let grid = Grid { min_x: 0.0, min_y: 0.0, cell_width: 1.0, cell_height: 1.0, cols: 0, rows: 0 };
        return Ok(Tables { grid, offsets: vec![0], items: vec![], globals: vec![], most_offsets: 1, halvings: 0 });
    }
    // of zeros the first stays: lines in order, start before end
    let reach = |a: &[f64], b: &[f64]| {
        let all = || a.iter().zip(b).flat_map(|(&start, &end)| [start, end]);
        (all().fold(f64::INFINITY, least), all().fold(f64::NEG_INFINITY, greatest))
    };
    let (min_x, max_x) = reach(lines.start_x, lines.end_x);
    let (min_y, max_y) = reach(lines.start_y, lines.end_y);
    let (width, height) = (max_x - min_x, max_y - min_y);
    let (mut cell_width, mut cell_height) = first_sizes(sizing, n as f64, width, height);
    let mut halvings = 0;
    let mut most_offsets = 0;
    loop {
        let cols = ceiling((width + 1e-9) / cell_width);
        let rows = ceiling((height + 1e-9) / cell_height);
        let count = (cols * rows) as usize;
        most_offsets = most_offsets.max(count + 1);
        if count + 1 > room {
            return Err((4, count as u64 + 1));
        }
        let grid = Grid { min_x, min_y, cell_width, cell_height, cols: cols as u32, rows: rows as u32 };
        let listed = listed_on(mode, &grid, lines).map_err(|line| (7, line as u64))?;
        let crowded = listed.lists.iter().any(|l| l.len() > 500);
        if crowded && halvings < 2 && count * 4 < 1_000_000 {
            cell_width /= 2.0;
            cell_height /= 2.0;
            halvings += 1;
            continue;
        }
        return Ok(Tables { grid, offsets: listed.offsets(), items: listed.lists.concat(), globals: listed.globals, most_offsets, halvings });
    }
}

/// What a function answers whose `out` has too few words, and one that is asked for a sizing or a mode of walk that there is not.
pub const SHORT: u32 = 100;
pub const NO_SIZING: u32 = 102;
pub const NO_MODE: u32 = 103;

/// The sizing of a number.
pub fn sizing_of(number: u32) -> Option<Sizing> {
    match number {
        0 => Some(Sizing::Square),
        1 => Some(Sizing::Axes),
        _ => None,
    }
}

/// The mode of walk of a number.
pub fn mode_of(number: u32) -> Option<Mode> {
    match number {
        0 => Some(Mode::Rust),
        1 => Some(Mode::Sided),
        2 => Some(Mode::Covering),
        _ => None,
    }
}

/// out: the words of the grid, the number of items, the number of globals.
#[allow(clippy::too_many_arguments)]
pub fn build(
    lines: Coordinates, sizing: u32, mode: u32, offsets: &mut [u32], items: &mut [u32], globals: &mut [u32], scratch: &mut [u32], out: &mut [u64],
) -> u32 {
    if out.len() < 8 {
        return SHORT;
    }
    let Some(sizing) = sizing_of(sizing) else {
        return NO_SIZING;
    };
    let Some(mode) = mode_of(mode) else {
        return NO_MODE;
    };
    if lines.uneven() || scratch.len() < SCRATCH {
        out[0] = 0;
        return 3;
    }
    if let Some((number, value)) = lines.refusal() {
        out[0] = value;
        return number;
    }
    for s in [&mut *offsets, &mut *items, &mut *globals, &mut *scratch] {
        s.fill(0);
    }
    let refusal = match tables(lines, sizing, mode, offsets.len()) {
        Err(refusal) => refusal,
        Ok(t) if t.items.len() > items.len() => (5, t.items.len() as u64),
        Ok(t) if t.globals.len() > globals.len() => (6, t.globals.len() as u64),
        Ok(t) => {
            left(offsets, &t.offsets);
            left(items, &t.items);
            left(globals, &t.globals);
            let g = t.grid;
            out[..4].copy_from_slice(&[g.min_x, g.min_y, g.cell_width, g.cell_height].map(f64::to_bits));
            out[4..8].copy_from_slice(&[g.cols as u64, g.rows as u64, t.items.len() as u64, t.globals.len() as u64]);
            return 0;
        }
    };
    out[0] = refusal.1;
    refusal.0
}

// ---- several benches ----

/// What counting and tables on a given grid refuse before they write: 3, 2, 1, 8.
fn lent_on(lines: Coordinates, g: &Grid, scratch: usize) -> Option<(u32, u64)> {
    if lines.uneven() || scratch < SCRATCH {
        return Some((3, 0));
    }
    lines.refusal().or(if grid_fits(g) { None } else { Some((8, 0)) })
}

/// out: the sum of all counts, the number of global lines.
pub fn count(lines: Coordinates, g: &Grid, mode: u32, counts: &mut [u32], scratch: &mut [u32], out: &mut [u64]) -> u32 {
    if out.len() < 2 {
        return SHORT;
    }
    let Some(mode) = mode_of(mode) else {
        return NO_MODE;
    };
    if let Some((number, value)) = lent_on(lines, g, scratch.len()) {
        out[0] = value;
        return number;
    }
    counts.fill(0);
    scratch.fill(0);
    let cells = g.cols as usize * g.rows as usize;
    if counts.len() < cells + 1 {
        out[0] = cells as u64 + 1;
        return 4;
    }
    let (mut listed, mut globals, mut of_line) = (0, 0, Vec::new());
    for i in 0..lines.len() {
        if walk(mode, g, &lines.line(i), &mut of_line).is_none() {
            counts.fill(0);
            out[0] = i as u64;
            return 7;
        }
        if of_line.len() > MOST_CELLS {
            globals += 1;
        } else {
            listed += of_line.len() as u64;
            of_line.iter().for_each(|&c| counts[c as usize] += 1);
        }
    }
    out[..2].copy_from_slice(&[listed, globals]);
    0
}

/// One count table into another. out: written only on a refusal.
pub fn add(into: &mut [u32], from: &[u32], out: &mut [u64]) -> u32 {
    if out.is_empty() {
        return SHORT;
    }
    if into.len() != from.len() {
        out[0] = 0;
        return 3;
    }
    let sums: Vec<u64> = into.iter().zip(from).map(|(&a, &b)| a as u64 + b as u64).collect();
    if let Some(entry) = sums.iter().position(|&sum| sum > 65536) {
        out[0] = entry as u64;
        return 13;
    }
    into.iter_mut().zip(sums).for_each(|(a, sum)| *a = sum as u32);
    0
}

/// The tables of lines on a given grid. out: the number of items, the number of globals.
#[allow(clippy::too_many_arguments)]
pub fn tables_on(
    lines: Coordinates, g: &Grid, mode: u32, offsets: &mut [u32], items: &mut [u32], globals: &mut [u32], scratch: &mut [u32], out: &mut [u64],
) -> u32 {
    if out.len() < 2 {
        return SHORT;
    }
    let Some(mode) = mode_of(mode) else {
        return NO_MODE;
    };
    if let Some((number, value)) = lent_on(lines, g, scratch.len()) {
        out[0] = value;
        return number;
    }
    for s in [&mut *offsets, &mut *items, &mut *globals, &mut *scratch] {
        s.fill(0);
    }
    let cells = g.cols as usize * g.rows as usize;
    let refusal = if offsets.len() < cells + 1 {
        (4, cells as u64 + 1)
    } else {
        match listed_on(mode, g, lines) {
            Err(line) => (7, line as u64),
            Ok(t) => {
                let all = t.lists.concat();
                if all.len() > items.len() {
                    (5, all.len() as u64)
                } else if t.globals.len() > globals.len() {
                    (6, t.globals.len() as u64)
                } else {
                    left(offsets, &t.offsets());
                    left(items, &all);
                    left(globals, &t.globals);
                    out[..2].copy_from_slice(&[all.len() as u64, t.globals.len() as u64]);
                    return 0;
                }
            }
        }
    };
    out[0] = refusal.1;
    refusal.0
}

/// The first grid of a sizing, from two opposite corners of the bounds, start and end of a line, and a number of lines. out: the words of the grid.
pub fn agreed_grid(corners: &Line, lines: usize, sizing: u32, out: &mut [u64]) -> u32 {
    if out.len() < 6 {
        return SHORT;
    }
    let Some(sizing) = sizing_of(sizing) else {
        return NO_SIZING;
    };
    if !corners.iter().all(|&v| coordinate_fits(v)) {
        out[0] = 0;
        return 1;
    }
    let mut grid = Grid { min_x: 0.0, min_y: 0.0, cell_width: 1.0, cell_height: 1.0, cols: 0, rows: 0 };
    if lines > 0 {
        let [x0, y0, x1, y1] = *corners;
        // of zeros the first corner's is the lower one, and the second's the upper
        let (min_x, min_y, max_x, max_y) = (least(x0, x1), least(y0, y1), greatest(x1, x0), greatest(y1, y0));
        let (width, height) = (max_x - min_x, max_y - min_y);
        let (cell_width, cell_height) = first_sizes(sizing, lines as f64, width, height);
        let (cols, rows) = (ceiling((width + 1e-9) / cell_width) as u32, ceiling((height + 1e-9) / cell_height) as u32);
        grid = Grid { min_x, min_y, cell_width, cell_height, cols, rows };
    }
    out[..6].copy_from_slice(&grid.words());
    0
}

// ---- the visit ----

/// Standing tables as a visit is lent them.
#[derive(Clone, Copy)]
pub struct Standing<'a> {
    pub grid: Grid,
    pub lines: Coordinates<'a>,
    pub offsets: &'a [u32],
    pub items: &'a [u32],
    pub globals: &'a [u32],
    pub global_count: u64,
}

/// One test: its place, which is a cell (row, column) or a global line (its position), the two lines, and whether their boxes overlap.
#[derive(Clone, Copy, Debug, PartialEq)]
pub struct Test {
    pub cell: bool,
    pub row_or_position: u32,
    pub col: u32,
    pub first: u32,
    pub second: u32,
    pub overlap: bool,
}

/// Standing tables beside a number of lines.
#[derive(Clone, Copy)]
pub struct Lists<'a> {
    pub grid: Grid,
    pub lines: usize,
    pub offsets: &'a [u32],
    pub items: &'a [u32],
    pub globals: &'a [u32],
    pub global_count: u64,
}

impl Lists<'_> {
    fn cells(&self) -> usize {
        self.grid.cols as usize * self.grid.rows as usize
    }

    /// Document 01's "tables fit".
    pub fn fits(&self) -> bool {
        let (cells, n) = (self.cells(), self.lines);
        if self.offsets.len() < cells + 1 || self.global_count > self.globals.len() as u64 {
            return false;
        }
        let offsets = &self.offsets[..cells + 1];
        let list_fits = |l: &[u32]| l.windows(2).all(|w| w[0] < w[1]) && l.iter().all(|&i| (i as usize) < n);
        offsets[0] == 0
            && offsets.windows(2).all(|w| w[0] <= w[1])
            && offsets[cells] as usize <= self.items.len()
            && offsets.windows(2).all(|w| list_fits(&self.items[w[0] as usize..w[1] as usize]))
            && list_fits(&self.globals[..self.global_count as usize])
    }

    /// Refusals 2, 8 and 10.
    fn refusal(&self) -> Option<(u32, u64)> {
        if self.lines > MOST_LINES {
            return Some((2, self.lines as u64));
        }
        if !grid_fits(&self.grid) {
            return Some((8, 0));
        }
        (!self.fits()).then_some((10, 0))
    }
}

/// The values at the start of `out`, or the refusal's one. `out` has room for the values, whichever it is.
fn listed(out: &mut [u64], answer: Result<[u64; 2], (u32, u64)>) -> u32 {
    if out.len() < 2 {
        return SHORT;
    }
    match answer {
        Ok(values) => {
            out[..2].copy_from_slice(&values);
            0
        }
        Err((number, value)) => {
            out[0] = value;
            number
        }
    }
}

/// out: nothing where the tables fit. It has room for a refusal's value all the same.
pub fn check_tables(l: &Lists, out: &mut [u64]) -> u32 {
    if out.is_empty() {
        return SHORT;
    }
    l.refusal().map_or(0, |(number, value)| {
        out[0] = value;
        number
    })
}

/// out: where the cell's list starts in the items, and its length.
pub fn cell_list(l: &Lists, row: u32, col: u32, out: &mut [u64]) -> u32 {
    let refusal = l.refusal().or((row >= l.grid.rows || col >= l.grid.cols).then_some((9, row as u64)));
    listed(out, refusal.map_or_else(
        || {
            let cell = row as usize * l.grid.cols as usize + col as usize;
            Ok([l.offsets[cell] as u64, (l.offsets[cell + 1] - l.offsets[cell]) as u64])
        },
        Err,
    ))
}

/// out: where the list of a global line starts in the globals, and its length.
pub fn global_list(l: &Lists, position: u64, out: &mut [u64]) -> u32 {
    let refusal = l.refusal().or((position >= l.global_count).then_some((9, position)));
    listed(out, refusal.map_or_else(|| Ok([position, l.global_count - position]), Err))
}

/// out: the tests of a full visit, counted one by one over places, and the length of the longest list of a cell.
pub fn visit_cost(l: &Lists, out: &mut [u64]) -> u32 {
    listed(out, l.refusal().map_or_else(
        || {
            let lengths: Vec<u64> = l.offsets[..l.cells() + 1].windows(2).map(|w| (w[1] - w[0]) as u64).collect();
            let in_cells: u64 = lengths.iter().map(|&k| (0..k).sum::<u64>()).sum();
            let of_globals: u64 = (0..l.global_count).map(|position| l.lines as u64 - position - 1).sum();
            Ok([in_cells + of_globals, lengths.into_iter().max().unwrap_or(0)])
        },
        Err,
    ))
}

/// For each line the cells that list it, by asking every cell. out: how many there are in all.
pub fn lists_by_line(l: &Lists, starts: &mut [u32], listing: &mut [u32], out: &mut [u64]) -> u32 {
    if out.is_empty() {
        return SHORT;
    }
    let short = starts.len() <= l.lines || listing.len() < l.items.len();
    if let Some((number, value)) = short.then_some((3, 0)).or(l.refusal()) {
        out[0] = value;
        return number;
    }
    starts.fill(0);
    listing.fill(0);
    let mut cells_of = vec![Vec::new(); l.lines];
    for cell in 0..l.cells() {
        for &line in &l.items[l.offsets[cell] as usize..l.offsets[cell + 1] as usize] {
            cells_of[line as usize].push(cell as u32);
        }
    }
    let mut at = 0;
    for (line, cells) in cells_of.into_iter().enumerate() {
        starts[line] = at as u32;
        listing[at..at + cells.len()].copy_from_slice(&cells);
        at += cells.len();
    }
    starts[l.lines] = at as u32;
    out[0] = at as u64;
    0
}

impl Standing<'_> {
    pub fn lists(&self) -> Lists<'_> {
        let Standing { grid, lines, offsets, items, globals, global_count } = *self;
        Lists { grid, lines: lines.len(), offsets, items, globals, global_count }
    }

    fn cells(&self) -> usize {
        self.lists().cells()
    }

    pub fn fits(&self) -> bool {
        self.lists().fits()
    }

    fn overlap(&self, i: u32, j: u32) -> bool {
        let (a, b) = (self.lines.line(i as usize), self.lines.line(j as usize));
        (0..2).all(|k| {
            least(a[k], a[k + 2]) <= greatest(b[k], b[k + 2]) && least(b[k], b[k + 2]) <= greatest(a[k], a[k + 2])
        })
    }

    /// Every test of the tables, which fit, in order.
    pub fn tests(&self) -> Vec<Test> {
        let mut tests = Vec::new();
        for cell in 0..self.cells() {
            let list = &self.items[self.offsets[cell] as usize..self.offsets[cell + 1] as usize];
            let (row_or_position, col) = (cell as u32 / self.grid.cols, cell as u32 % self.grid.cols);
            for (i, &first) in list.iter().enumerate() {
                for &second in &list[i + 1..] {
                    tests.push(Test { cell: true, row_or_position, col, first, second, overlap: self.overlap(first, second) });
                }
            }
        }
        let globals = &self.globals[..self.global_count as usize];
        for (position, &first) in globals.iter().enumerate() {
            for second in 0..self.lines.len() as u32 {
                if second != first && !globals[..position].contains(&second) {
                    let overlap = self.overlap(first, second);
                    tests.push(Test { cell: false, row_or_position: position as u32, col: 0, first, second, overlap });
                }
            }
        }
        tests
    }

    /// The number of tests of tables that fit: demand 3's sum.
    pub fn total(&self) -> u64 {
        let n = self.lines.len() as u64;
        let cells: u64 = self.offsets[..self.cells() + 1].windows(2).map(|w| (w[1] - w[0]) as u64).map(|k| k * k.saturating_sub(1) / 2).sum();
        let g = self.global_count;
        cells + g * n.saturating_sub(1) - g * g.saturating_sub(1) / 2
    }

    /// The refusals of a visit from a bookmark. `uneven` says that paired outputs differ.
    fn refusal(&self, uneven: bool, bookmark: u64) -> Option<(u32, u64)> {
        if self.lines.uneven() || uneven {
            return Some((3, 0));
        }
        if let Some(r) = self.lines.refusal() {
            return Some(r);
        }
        if !grid_fits(&self.grid) {
            return Some((8, 0));
        }
        if !self.fits() {
            return Some((10, 0));
        }
        (bookmark > self.total()).then_some((9, bookmark))
    }
}

/// Document 02, 11: one more line, numbered n, on the standing tables of n lines. The slices are the offsets, the items, the globals and the scratch; the lists
/// are taken out of them, grown and laid out anew. out: the number of items, the number of globals, how many cells list the line.
pub fn add_line(g: &Grid, mode: u32, line: &Line, n: usize, slices: [&mut [u32]; 4], global_count: u64, out: &mut [u64]) -> u32 {
    if out.len() < 3 {
        return SHORT;
    }
    let Some(mode) = mode_of(mode) else {
        return NO_MODE;
    };
    let mut refuse = |number, value| {
        out[0] = value;
        number
    };
    let [offsets, items, globals, scratch] = slices;
    if scratch.len() < SCRATCH {
        return refuse(3, 0);
    }
    if n >= MOST_LINES {
        return refuse(2, n as u64);
    }
    if !line.iter().all(|&v| coordinate_fits(v)) {
        return refuse(1, 0);
    }
    if !grid_fits(g) || g.cols == 0 {
        return refuse(8, 0);
    }
    if !(Lists { grid: *g, lines: n, offsets, items, globals, global_count }).fits() {
        return refuse(10, 0);
    }
    let far = |low: f64, count: u32, size: f64| {
        let reach = count as f64 * size;
        low + reach
    };
    let (far_x, far_y) = (far(g.min_x, g.cols, g.cell_width), far(g.min_y, g.rows, g.cell_height));
    let outside = |x: f64, y: f64| x < g.min_x || x > far_x || y < g.min_y || y > far_y;
    if outside(line[0], line[1]) || outside(line[2], line[3]) {
        return refuse(14, 0);
    }
    let mut visited = Vec::new();
    let walked = walk(mode, g, line, &mut visited);
    scratch.fill(0);
    if walked.is_none() {
        return refuse(7, 0);
    }
    let cells = g.cols as usize * g.rows as usize;
    let lists = offsets[..cells + 1].windows(2).map(|w| items[w[0] as usize..w[1] as usize].to_vec()).collect();
    let mut t = Listed { lists, globals: globals[..global_count as usize].to_vec() };
    if visited.len() > MOST_CELLS {
        t.globals.push(n as u32);
        visited.clear();
    }
    visited.iter().for_each(|&c| t.lists[c as usize].push(n as u32));
    let all = t.lists.concat();
    if all.len() > items.len() {
        return refuse(5, all.len() as u64);
    }
    if t.globals.len() > globals.len() {
        return refuse(6, t.globals.len() as u64);
    }
    left(offsets, &t.offsets());
    left(items, &all);
    left(globals, &t.globals);
    out[..3].copy_from_slice(&[all.len() as u64, t.globals.len() as u64, visited.len() as u64]);
    0
}

/// A line added to tables and to their summary together. The slices are the offsets, the items, the globals, the summary and the scratch. What the tables alone
/// would be answered decides what comes before a summary that disagrees, and what after it. out: as `add_line`.
pub fn add_line_blocks(g: &Grid, mode: u32, line: &Line, n: usize, slices: [&mut [u32]; 5], global_count: u64, out: &mut [u64]) -> u32 {
    let [offsets, items, globals, summary, scratch] = slices;
    let mut alone = [offsets.to_vec(), items.to_vec(), globals.to_vec(), scratch.to_vec()];
    let mut answer = out.to_vec();
    let number = add_line(g, mode, line, n, alone.each_mut().map(|s| &mut s[..]), global_count, &mut answer);
    if number == SHORT || number == NO_MODE {
        return number;
    }
    let blocks = blocks_along(g.cols) * blocks_along(g.rows);
    if blocks > summary.len() as u64 {
        out[0] = 0;
        return 3;
    }
    let of = |offsets: &[u32], items: &[u32], globals: &[u32], lines: usize, global_count: u64| {
        let mut numbers = vec![0; blocks as usize];
        block_counts(&Lists { grid: *g, lines, offsets, items, globals, global_count }, &mut numbers, &mut [0]);
        numbers
    };
    if ![1, 2, 3, 8, 10].contains(&number) && of(offsets, items, globals, n, global_count) != summary[..blocks as usize] {
        out[0] = 0;
        return 10;
    }
    out.copy_from_slice(&answer);
    let [of_offsets, of_items, of_globals, of_scratch] = alone;
    if number == 0 {
        let numbers = of(&of_offsets, &of_items, &of_globals, n + 1, answer[1]);
        summary.fill(0);
        summary[..numbers.len()].copy_from_slice(&numbers);
    }
    offsets.copy_from_slice(&of_offsets);
    items.copy_from_slice(&of_items);
    globals.copy_from_slice(&of_globals);
    scratch.copy_from_slice(&of_scratch);
    number
}

/// Document 02, 3: the lines in a window, which is [low x, low y, high x, high y]. Asked of each line by itself. out: how many there are.
pub fn window(s: &Standing, w: [f64; 4], found: &mut [u32], out: &mut [u64]) -> u32 {
    let refusal = if s.lines.uneven() { Some((3, 0)) } else { s.lines.refusal() }
        .or((!w.iter().all(|&v| coordinate_fits(v))).then_some((1, 0)))
        .or((!grid_fits(&s.grid)).then_some((8, 0)))
        .or_else(|| (!s.fits()).then_some((10, 0)));
    if let Some((number, value)) = refusal {
        out[0] = value;
        return number;
    }
    let g = &s.grid;
    let column = |x: f64| clamped_floor((x - g.min_x) / g.cell_width, g.cols);
    let row = |y: f64| clamped_floor((y - g.min_y) / g.cell_height, g.rows);
    let in_block = |cell: usize| {
        let (r, c) = ((cell / g.cols as usize) as u32, (cell % g.cols as usize) as u32);
        column(w[0]) <= c && c <= column(w[2]) && row(w[1]) <= r && r <= row(w[3])
    };
    let blocks: Vec<usize> = (0..s.cells()).filter(|&cell| in_block(cell)).collect();
    let listed = |i: u32| blocks.iter().any(|&cell| s.items[s.offsets[cell] as usize..s.offsets[cell + 1] as usize].contains(&i));
    let overlaps = |i: usize| {
        let line = s.lines.line(i);
        (0..2).all(|k| least(line[k], line[k + 2]) <= w[k + 2] && w[k] <= greatest(line[k], line[k + 2]))
    };
    let in_order = w[0] <= w[2] && w[1] <= w[3];
    let lines: Vec<u32> = (0..s.lines.len() as u32)
        .filter(|&i| in_order && overlaps(i as usize) && (s.globals[..s.global_count as usize].contains(&i) || listed(i)))
        .collect();
    found.fill(0);
    out[0] = lines.len() as u64;
    if lines.len() > found.len() {
        return 5;
    }
    found[..lines.len()].copy_from_slice(&lines);
    0
}

/// Document 02, 12: how many blocks of 16 by 16 cells lie along so many cells.
pub fn blocks_along(cells: u32) -> u64 {
    (cells as u64).div_ceil(16)
}

/// The number of items of each block: every item is put to the block of its cell, one by one. out: how many blocks there are.
pub fn block_counts(t: &Lists, summary: &mut [u32], out: &mut [u64]) -> u32 {
    let (across, up) = (blocks_along(t.grid.cols), blocks_along(t.grid.rows));
    let refusal = (across * up > summary.len() as u64).then_some((3, 0)).or_else(|| t.refusal());
    if let Some((number, value)) = refusal {
        out[0] = value;
        return number;
    }
    summary.fill(0);
    for cell in 0..t.cells() {
        let (row, col) = (cell as u64 / t.grid.cols as u64, cell as u64 % t.grid.cols as u64);
        for _ in t.offsets[cell]..t.offsets[cell + 1] {
            summary[(row / 16 * across + col / 16) as usize] += 1;
        }
    }
    out[0] = across * up;
    0
}

/// The numbers of a summary added up over the blocks, each [row, column], from a lower corner to an upper. out: how many items.
pub fn items_in_blocks(g: &Grid, summary: &[u32], low: [u32; 2], high: [u32; 2], out: &mut [u64]) -> u32 {
    let (across, up) = (blocks_along(g.cols), blocks_along(g.rows));
    let beyond = |b: [u32; 2]| (b[0] as u64 >= up || b[1] as u64 >= across).then_some((9, b[0] as u64));
    let refusal = (across * up > summary.len() as u64)
        .then_some((3, 0))
        .or((!grid_fits(g)).then_some((8, 0)))
        .or_else(|| beyond(low))
        .or_else(|| beyond(high));
    if let Some((number, value)) = refusal {
        out[0] = value;
        return number;
    }
    let inside = |b: u64| (low[0]..=high[0]).contains(&((b / across) as u32)) && (low[1]..=high[1]).contains(&((b % across) as u32));
    out[0] = (0..across * up).filter(|&b| inside(b)).map(|b| summary[b as usize] as u64).sum();
    0
}

/// `tests` are those of the tables where they fit; they are handed in, so that many batches of one visit share them.
pub fn batch(s: &Standing, tests: &[Test], bookmark: u64, first: &mut [u32], second: &mut [u32], out: &mut [u64]) -> u32 {
    if let Some((number, value)) = s.refusal(first.len() != second.len(), bookmark) {
        out[0] = value;
        return number;
    }
    first.fill(0);
    second.fill(0);
    let (mut at, mut written) = (bookmark as usize, 0);
    while written < first.len() && at < tests.len() {
        let t = tests[at];
        at += 1;
        if t.overlap {
            first[written] = t.first;
            second[written] = t.second;
            written += 1;
        }
    }
    out[..3].copy_from_slice(&[at as u64 - bookmark, written as u64, at as u64]);
    0
}

/// A batch by three outputs: its pairs, and beside each the number of the place of its test. A cell is numbered row by row; after the cells come the
/// globals, by their position.
pub fn batch_places(s: &Standing, tests: &[Test], bookmark: u64, outputs: [&mut [u32]; 3], out: &mut [u64]) -> u32 {
    if out.len() < 3 {
        return SHORT;
    }
    let [first, second, places] = outputs;
    if let Some((number, value)) = s.refusal(first.len() != second.len() || first.len() != places.len(), bookmark) {
        out[0] = value;
        return number;
    }
    let (Grid { rows, cols, .. }, rest) = (s.grid, &tests[bookmark as usize..]);
    // as many tests as it takes to find a pair for each entry
    let found: Vec<usize> = (0..rest.len()).filter(|&k| rest[k].overlap).take(first.len()).collect();
    let made = match found.last() {
        _ if first.is_empty() => 0,
        Some(last) if found.len() == first.len() => last + 1,
        _ => rest.len(),
    };
    for k in 0..first.len() {
        (first[k], second[k], places[k]) = match found.get(k).map(|&at| rest[at]) {
            None => (0, 0, 0),
            Some(t) => (t.first, t.second, if t.cell { t.row_or_position * cols + t.col } else { rows * cols + t.row_or_position }),
        };
    }
    out[..3].copy_from_slice(&[made as u64, found.len() as u64, bookmark + made as u64]);
    0
}

/// Where a test stands: the number of its place, which is a cell or, from the number of cells that are looked at on, a global by its position; then, in
/// a cell, where its two lines stand in the list, or 0 and the line that a global is tested with.
pub type Cursor = [u64; 3];

/// Every test of tables as they are, with nothing checked, each beside its cursor, in order; and the cursor of the end. A list that does not strictly
/// increase below the number of lines, or is no part of the items, is empty.
pub fn as_they_are(s: &Standing) -> (Vec<(Cursor, Test)>, Cursor) {
    let n = s.lines.start_x.len() as u32;
    let increases = |list: &[u32]| list.windows(2).all(|w| w[0] < w[1]) && list.iter().all(|&i| i < n);
    let part = |slice: &[u32], from: usize, to: usize| slice.get(from..to).filter(|list| increases(list)).map_or(Vec::new(), |list| list.to_vec());
    let told = s.offsets.len().saturating_sub(1) as u64;
    let reach = (s.grid.cols as u64 * s.grid.rows as u64).min(told).min(1_002_001);
    let mut tests = Vec::new();
    let mut put = |cursor: Cursor, cell: bool, row_or_position: u32, col: u32, first: u32, second: u32| {
        tests.push((cursor, Test { cell, row_or_position, col, first, second, overlap: s.overlap(first, second) }));
    };
    for cell in 0..reach as usize {
        let list = part(s.items, s.offsets[cell] as usize, s.offsets[cell + 1] as usize);
        for i in 0..list.len() {
            for j in i + 1..list.len() {
                put([cell as u64, i as u64, j as u64], true, cell as u32 / s.grid.cols, cell as u32 % s.grid.cols, list[i], list[j]);
            }
        }
    }
    let globals = usize::try_from(s.global_count).map_or(Vec::new(), |count| part(s.globals, 0, count));
    for (position, &first) in globals.iter().enumerate() {
        for second in (0..n).filter(|second| !globals[..=position].contains(second)) {
            put([reach + position as u64, 0, second as u64], false, position as u32, 0, first, second);
        }
    }
    (tests, [reach + globals.len() as u64, 0, 0])
}

/// `stood` is what `as_they_are` says of the tables. out: the cursor of the tests that are left at a bookmark.
pub fn start(s: &Standing, stood: &(Vec<(Cursor, Test)>, Cursor), bookmark: u64, out: &mut [u64]) -> u32 {
    if out.len() < 3 {
        return SHORT;
    }
    if let Some((number, value)) = s.refusal(false, bookmark) {
        out[0] = value;
        return number;
    }
    out[..3].copy_from_slice(&stood.0.get(bookmark as usize).map_or(stood.1, |at| at.0));
    0
}

/// The tests at or after a cursor, whatever its numbers are. At a global its second number says nothing.
/// out: the tests made, the pairs, and the cursor of the tests that are left.
pub fn next(
    s: &Standing, stood: &(Vec<(Cursor, Test)>, Cursor), at: Cursor, first: &mut [u32], second: &mut [u32], out: &mut [u64],
) -> u32 {
    if out.len() < 5 {
        return SHORT;
    }
    let n = s.lines.start_x.len();
    let refusal = (first.len() != second.len() || s.lines.uneven()).then_some((3, 0)).or((n > MOST_LINES).then_some((2, n as u64)));
    if let Some((number, value)) = refusal {
        out[0] = value;
        return number;
    }
    first.fill(0);
    second.fill(0);
    let (tests, end) = stood;
    let from = tests.partition_point(|(cursor, test)| if test.cell { *cursor < at } else { (cursor[0], cursor[2]) < (at[0], at[2]) });
    let (mut to, mut written) = (from, 0);
    while written < first.len() && to < tests.len() {
        let t = tests[to].1;
        to += 1;
        if t.overlap {
            (first[written], second[written]) = (t.first, t.second);
            written += 1;
        }
    }
    let left = tests.get(to).map_or(*end, |at| at.0);
    out[..5].copy_from_slice(&[(to - from) as u64, written as u64, left[0], left[1], left[2]]);
    0
}

/// The five slices that a visit is lent that hands out each pair once.
#[derive(Clone)]
pub struct OnceLent {
    pub first: Vec<u32>,
    pub second: Vec<u32>,
    pub starts: Vec<u32>,
    pub listing: Vec<u32>,
    pub counts: Vec<u32>,
}

impl OnceLent {
    pub fn all(&mut self) -> [(&'static str, &mut Vec<u32>); 5] {
        let OnceLent { first, second, starts, listing, counts } = self;
        [("first", first), ("second", second), ("starts", starts), ("listing", listing), ("counts", counts)]
    }
}

/// Each overlapping pair where it comes first among all tests, taken without order: a set of those that came before, and no lists by line.
/// out: how many there are.
pub fn pairs_once(s: &Standing, lent: &mut OnceLent, out: &mut [u64]) -> u32 {
    if out.is_empty() {
        return SHORT;
    }
    let n = s.lines.start_x.len();
    let short = lent.first.len() != lent.second.len() || lent.starts.len() <= n || lent.listing.len() < s.items.len() || lent.counts.len() < n;
    if let Some((number, value)) = s.refusal(short, 0) {
        out[0] = value;
        return number;
    }
    let mut met = std::collections::HashSet::new();
    let pairs: Vec<Test> = s.tests().into_iter().filter(|t| t.overlap && met.insert((t.first.min(t.second), t.first.max(t.second)))).collect();
    for (_, slice) in lent.all() {
        slice.fill(0);
    }
    out[0] = pairs.len() as u64;
    if pairs.len() > lent.first.len() {
        return 5;
    }
    for (k, t) in pairs.iter().enumerate() {
        (lent.first[k], lent.second[k]) = (t.first, t.second);
    }
    0
}

/// out: 0 for a cell, 1 for a global line, 2 for the end mark; row or position; column; first; second; overlap.
pub fn test_at(s: &Standing, tests: &[Test], bookmark: u64, out: &mut [u64]) -> u32 {
    if let Some((number, value)) = s.refusal(false, bookmark) {
        out[0] = value;
        return number;
    }
    let values = match tests.get(bookmark as usize) {
        None => [2, 0, 0, 0, 0, 0],
        Some(t) => [!t.cell as u64, t.row_or_position as u64, t.col as u64, t.first as u64, t.second as u64, t.overlap as u64],
    };
    out[..6].copy_from_slice(&values);
    0
}

// ---- ownership and snapping ----

fn cell_refusal(g: &Grid, x: f64, y: f64, snap: Option<(f64, u32)>, cell: Option<(u32, u32)>) -> Option<(u32, u64)> {
    if !coordinate_fits(x) || !coordinate_fits(y) {
        return Some((1, 0));
    }
    if !grid_fits(g) {
        return Some((8, 0));
    }
    if let Some((size, strategy)) = snap {
        if !snap_fits(size, strategy) {
            return Some((12, 0));
        }
    }
    if let Some((row, col)) = cell {
        if row >= g.rows || col >= g.cols {
            return Some((9, row as u64));
        }
    }
    None
}

pub fn point_owned(g: &Grid, row: u32, col: u32, x: f64, y: f64, out: &mut [u64]) -> u32 {
    if let Some((number, value)) = cell_refusal(g, x, y, None, Some((row, col))) {
        out[0] = value;
        return number;
    }
    let (across, up) = axes(g);
    out[0] = (across.owns(col as i64, x, true) && up.owns(row as i64, y, true)) as u64;
    0
}

pub fn overlap_owned(g: &Grid, row: u32, col: u32, x: f64, y: f64, size: f64, strategy: u32, out: &mut [u64]) -> u32 {
    if let Some((number, value)) = cell_refusal(g, x, y, Some((size, strategy)), Some((row, col))) {
        out[0] = value;
        return number;
    }
    let (across, up) = axes(g);
    let (px, py) = (snapped(x, size), snapped(y, size));
    let inside = across.owns(col as i64, px, false) && up.owns(row as i64, py, false);
    out[0] = (inside || (row == 0 && col == 0)) as u64;
    0
}

/// out: 1, row, column of the first cell in row order that owns the point; 2, 0, 0 in a seam; or 0, 0, 0.
pub fn owner(g: &Grid, x: f64, y: f64, out: &mut [u64]) -> u32 {
    if let Some((number, value)) = cell_refusal(g, x, y, None, None) {
        out[0] = value;
        return number;
    }
    let (across, up) = axes(g);
    // a cell owns a point where its column and its row do, so the first cell is the first row's first column
    let first = |axis: Axis, p: f64| (0..axis.count).find(|&i| axis.owns(i as i64, p, true));
    let values = match (first(up, y), first(across, x)) {
        (Some(row), Some(col)) => [1, row as u64, col as u64],
        _ if across.between_ends(x) && up.between_ends(y) => [2, 0, 0],
        _ => [0, 0, 0],
    };
    out[..3].copy_from_slice(&values);
    0
}

/// answers: for each point the number of the cell that owns it, 2^32 - 2 in a seam, 2^32 - 1 outside. A refusal leaves them.
pub fn owners(g: &Grid, x: &[f64], y: &[f64], answers: &mut [u32], out: &mut [u64]) -> u32 {
    if x.len() != y.len() || x.len() != answers.len() {
        out[0] = 0;
        return 3;
    }
    if let Some(bad) = x.iter().zip(y).position(|(&x, &y)| !coordinate_fits(x) || !coordinate_fits(y)) {
        out[0] = bad as u64;
        return 1;
    }
    if !grid_fits(g) {
        out[0] = 0;
        return 8;
    }
    for (answer, (&x, &y)) in answers.iter_mut().zip(x.iter().zip(y)) {
        let mut one = [0; 3];
        owner(g, x, y, &mut one);
        *answer = match one {
            [1, row, col] => (row * g.cols as u64 + col) as u32,
            [2, ..] => u32::MAX - 1,
            _ => u32::MAX,
        };
    }
    0
}

fn snapped(v: f64, size: f64) -> f64 {
    if size == 0.0 {
        return v;
    }
    round_half_away(v / size) * size
}

/// Document 01's second strategy.
fn snapped_by_geos(v: f64, size: f64) -> f64 {
    if size == 0.0 {
        return v;
    }
    let scaled = v / size;
    let sign = if scaled.to_bits() >> 63 == 1 { -1.0 } else { 1.0 };
    floor(magnitude(scaled) + 0.5) * sign * size
}

/// out: the bits of x and y.
pub fn snap(x: f64, y: f64, size: f64, strategy: u32, out: &mut [u64]) -> u32 {
    let number = if !coordinate_fits(x) || !coordinate_fits(y) {
        1
    } else if !snap_fits(size, strategy) {
        12
    } else {
        0
    };
    if number != 0 {
        out[0] = 0;
        return number;
    }
    out[0] = snapped(x, size).to_bits();
    out[1] = snapped(y, size).to_bits();
    0
}

/// out: 1 where document 01's two strategies give the coordinate the same bits, else 0. Both are worked out.
pub fn strategies_agree(v: f64, size: f64, out: &mut [u64]) -> u32 {
    let number = if !coordinate_fits(v) {
        1
    } else if !snap_size_fits(size) {
        12
    } else {
        0
    };
    out[0] = (number == 0 && snapped(v, size).to_bits() == snapped_by_geos(v, size).to_bits()) as u64;
    number
}

// ---- the reader ----

/// out: the number of points.
pub fn read_line_string(bytes: &[u8], x: &mut [f64], y: &mut [f64], out: &mut [u64]) -> u32 {
    if x.len() != y.len() || x.len() < 1024 {
        out[0] = 0;
        return 3;
    }
    match points(bytes) {
        Err(position) => {
            out[0] = position as u64;
            11
        }
        Ok(points) => {
            x.fill(0.0);
            y.fill(0.0);
            for (i, p) in points.iter().enumerate() {
                (x[i], y[i]) = *p;
            }
            out[0] = points.len() as u64;
            0
        }
    }
}

fn points(bytes: &[u8]) -> Result<Vec<(f64, f64)>, usize> {
    let (points, end) = chain(bytes, 0)?;
    if end < bytes.len() {
        return Err(end);
    }
    Ok(points.into_iter().map(|[x, y]| (f64::from_bits(x), f64::from_bits(y))).collect())
}

/// A field of so many bytes; where it is cut, the end of the bytes.
fn field(bytes: &[u8], at: usize, size: usize) -> Result<&[u8], usize> {
    bytes.get(at..).and_then(|rest| rest.get(..size)).ok_or(bytes.len())
}

fn number(bytes: &[u8], at: usize, size: usize, little: bool) -> Result<u64, usize> {
    let byte = |v: u64, &b: &u8| v << 8 | b as u64;
    let f = field(bytes, at, size)?;
    Ok(if little { f.iter().rev().fold(0, byte) } else { f.iter().fold(0, byte) })
}

/// Whether the order at a position is the little one, and the number after the type, which has to be `kind`.
fn head(bytes: &[u8], at: usize, kind: u64) -> Result<(bool, u64), usize> {
    let little = match field(bytes, at, 1)?[0] {
        0 => false,
        1 => true,
        _ => return Err(at),
    };
    if number(bytes, at + 1, 4, little)? != kind {
        return Err(at + 1);
    }
    Ok((little, number(bytes, at + 5, 4, little)?))
}

/// The points of the LineString at a position, as bit patterns, and where it ends; or where it is wrong.
fn chain(bytes: &[u8], at: usize) -> Result<(Vec<[u64; 2]>, usize), usize> {
    let (little, count) = head(bytes, at, 2)?;
    if !(1..=1024).contains(&count) {
        return Err(at + 5);
    }
    let mut points = Vec::new();
    let mut at = at + 9;
    for _ in 0..count {
        points.push([number(bytes, at, 8, little)?, number(bytes, at + 8, 8, little)?]);
        at += 16;
    }
    Ok((points, at))
}

// ---- many chains at once ----

/// The members of a MultiLineString, or where it is wrong.
fn chains(bytes: &[u8]) -> Result<Vec<Vec<[u64; 2]>>, usize> {
    let (_, count) = head(bytes, 0, 5)?;
    let mut members = Vec::new();
    let mut at = 9;
    for _ in 0..count {
        let (points, end) = chain(bytes, at)?;
        members.push(points);
        at = end;
    }
    if at < bytes.len() {
        return Err(at);
    }
    Ok(members)
}

/// The value goes to `out`, and the number is answered.
fn refused(number: u32, value: usize, out: &mut [u64]) -> u32 {
    out[0] = value as u64;
    number
}

/// out: the number of points, the number of members.
pub fn read_multi_line_string(bytes: &[u8], x: &mut [u64], y: &mut [u64], lengths: &mut [u32], out: &mut [u64]) -> u32 {
    if x.len() != y.len() {
        return refused(3, 0, out);
    }
    let members = match chains(bytes) {
        Ok(members) => members,
        Err(position) => return refused(11, position, out),
    };
    let lines: usize = members.iter().map(|m| m.len() - 1).sum();
    if lines > MOST_LINES {
        return refused(2, lines, out);
    }
    x.fill(0);
    y.fill(0);
    lengths.fill(0);
    let points = members.concat();
    if points.len() > x.len() {
        return refused(5, points.len(), out);
    }
    if members.len() > lengths.len() {
        return refused(5, members.len(), out);
    }
    for (i, p) in points.iter().enumerate() {
        [x[i], y[i]] = *p;
    }
    for (length, m) in lengths.iter_mut().zip(&members) {
        *length = m.len() as u32;
    }
    out[0] = points.len() as u64;
    out[1] = members.len() as u64;
    0
}

/// The members that points and lengths make: none where they do not go together.
fn held(x: &[u64], y: &[u64], lengths: &[u32]) -> Option<Vec<Vec<[u64; 2]>>> {
    let sum: u64 = lengths.iter().map(|&n| n as u64).sum();
    let alike = x.len() == y.len() && sum == x.len() as u64 && lengths.len() < 1 << 32;
    if !alike || lengths.iter().any(|n| !(1..=1024).contains(n)) {
        return None;
    }
    let mut points = x.iter().zip(y).map(|(&x, &y)| [x, y]);
    Some(lengths.iter().map(|&n| points.by_ref().take(n as usize).collect()).collect())
}

/// A MultiLineString of members, each with whether it is written in the little order; and whether the whole is.
pub fn multi_line_string(little: bool, members: &[(bool, Vec<[u64; 2]>)]) -> Vec<u8> {
    let mut bytes = Vec::new();
    let put = |bytes: &mut Vec<u8>, little: bool, number: &[u8]| match little {
        true => bytes.extend(number),
        false => bytes.extend(number.iter().rev()),
    };
    let head = |bytes: &mut Vec<u8>, little: bool, kind: u32, count: usize| {
        bytes.push(little as u8);
        put(bytes, little, &kind.to_le_bytes());
        put(bytes, little, &(count as u32).to_le_bytes());
    };
    head(&mut bytes, little, 5, members.len());
    for (little, points) in members {
        head(&mut bytes, *little, 2, points.len());
        points.iter().flatten().for_each(|v| put(&mut bytes, *little, &v.to_le_bytes()));
    }
    bytes
}

/// out: the number of bytes.
pub fn write_multi_line_string(x: &[u64], y: &[u64], lengths: &[u32], bytes: &mut [u8], out: &mut [u64]) -> u32 {
    let Some(members) = held(x, y, lengths) else {
        return refused(3, 0, out);
    };
    let lines = x.len() - members.len();
    if lines > MOST_LINES {
        return refused(2, lines, out);
    }
    let written = multi_line_string(true, &members.into_iter().map(|m| (true, m)).collect::<Vec<_>>());
    bytes.fill(0);
    if written.len() > bytes.len() {
        return refused(5, written.len(), out);
    }
    bytes[..written.len()].copy_from_slice(&written);
    out[0] = written.len() as u64;
    0
}

/// The four slices are start x, start y, end x, end y. out: the number of lines.
pub fn lines_of_members(x: &[u64], y: &[u64], lengths: &[u32], slices: [&mut [f64]; 4], out: &mut [u64]) -> u32 {
    if slices.iter().any(|s| s.len() != slices[0].len()) {
        return refused(3, 0, out);
    }
    let Some(members) = held(x, y, lengths) else {
        return refused(3, 0, out);
    };
    let pairs: Vec<_> = members.iter().flat_map(|m| m.windows(2).map(|w| [w[0][0], w[0][1], w[1][0], w[1][1]])).collect();
    if pairs.len() > MOST_LINES {
        return refused(2, pairs.len(), out);
    }
    let room = slices[0].len() >= pairs.len();
    for (k, slice) in slices.into_iter().enumerate() {
        slice.fill(0.0);
        if room {
            slice.iter_mut().zip(&pairs).for_each(|(s, pair)| *s = f64::from_bits(pair[k]));
        }
    }
    if !room {
        return refused(5, pairs.len(), out);
    }
    out[0] = pairs.len() as u64;
    0
}

/// The reasons of the points of one member, and the points of the pieces that are kept of it, by document 02's words: the points outside the rule split
/// it; of each piece the repeats go, and then the piece if fewer than two are left.
fn cleaned(member: &[[u64; 2]]) -> (Vec<u32>, Vec<Vec<[u64; 2]>>) {
    let value = |p: &[u64; 2]| p.map(f64::from_bits);
    let right = |p: &[u64; 2]| value(p).iter().all(|v| v.is_finite() && v.abs() <= 1e9);
    let mut reasons = vec![1; member.len()];
    let mut pieces = Vec::new();
    let mut start = 0;
    while start < member.len() {
        if !right(&member[start]) {
            start += 1;
            continue;
        }
        let end = start + member[start..].iter().take_while(|p| right(p)).count();
        let mut left: Vec<usize> = Vec::new();
        for i in start..end {
            match left.last() {
                Some(&before) if value(&member[before]) == value(&member[i]) => reasons[i] = 2,
                _ => left.push(i),
            }
        }
        let short = left.len() < 2;
        left.iter().for_each(|&i| reasons[i] = if short { 3 } else { 0 });
        if !short {
            pieces.push(left.iter().map(|&i| member[i]).collect());
        }
        start = end;
    }
    (reasons, pieces)
}

/// The cleaning program: what it prints for the bytes that it reads, and the file that it writes.
pub fn clean_program(bytes: &[u8]) -> (String, Option<Vec<u8>>) {
    if bytes.len() > 65_536 {
        return ("refused 5\n".into(), None);
    }
    let line = chain(bytes, 0).ok().filter(|(_, end)| *end == bytes.len()).map(|(points, _)| vec![points]);
    let Some(members) = line.or_else(|| chains(bytes).ok()) else {
        return ("refused 11\n".into(), None);
    };
    let (mut text, mut kept) = (String::new(), Vec::new());
    for (k, member) in members.iter().enumerate() {
        let (reasons, pieces) = cleaned(member);
        for (i, &reason) in reasons.iter().enumerate().filter(|(_, &reason)| reason > 0) {
            text += &format!("{k} {i} {}\n", ["range", "repeat", "short"][reason as usize - 1]);
        }
        kept.extend(pieces.into_iter().map(|points| (true, points)));
    }
    (text, Some(multi_line_string(true, &kept)))
}

/// out: the number of points and the number of pieces that are kept.
pub fn clean(x: &[u64], y: &[u64], lengths: &[u32], kept: [&mut [u64]; 2], kept_lengths: &mut [u32], reasons: &mut [u32], out: &mut [u64]) -> u32 {
    let Some(members) = held(x, y, lengths) else {
        return refused(3, 0, out);
    };
    let n = x.len();
    if kept[0].len() != kept[1].len() || kept[0].len() < n || kept_lengths.len() < n / 2 || reasons.len() < n {
        return refused(3, 0, out);
    }
    let (mut why, mut pieces) = (Vec::new(), Vec::new());
    for member in &members {
        let (r, p) = cleaned(member);
        why.extend(r);
        pieces.extend(p);
    }
    let points = pieces.concat();
    for (k, slice) in kept.into_iter().enumerate() {
        slice.fill(0);
        slice.iter_mut().zip(&points).for_each(|(s, p)| *s = p[k]);
    }
    kept_lengths.fill(0);
    kept_lengths.iter_mut().zip(&pieces).for_each(|(s, p)| *s = p.len() as u32);
    reasons.fill(0);
    reasons[..n].copy_from_slice(&why);
    out[0] = points.len() as u64;
    out[1] = pieces.len() as u64;
    0
}
