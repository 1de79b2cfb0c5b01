//! The cells of one segment, with the scratch that is left.

use super::{answers, float, rounder, show_grid, sizes, slices, word, Kind, JUNK, WHERE_SQUARED};
use crate::cases;
use crate::model::{self, SCRATCH};
use crate::oracle::{self, Squared};
use crate::random::Random;
use crate::{Grid, Line, Mode};

#[derive(Clone)]
pub struct Case {
    pub grid: Grid,
    pub line: Line,
    /// The number by which the mode of walk is asked for.
    pub mode: u32,
    pub scratch: usize,
}

type Entry = fn(&Grid, &Line, u32, &mut [u32], &mut [u64]) -> u32;

fn entries() -> Vec<(&'static str, Entry)> {
    vec![("model", model::segment_cells), ("port", crate::port::segment_cells)]
}

/// The inner walk, which is the Rust's: the same answer and the same cells; what is beyond them on success is open, and a refusal leaves what the entry's leaves.
/// It takes floats as they are, so where the entry refuses these it answers cells of the grid that increase, or 7.
fn inner(case: &Case, wanted: &(u32, u64, Vec<u32>)) -> Result<(), String> {
    let mut scratch = vec![JUNK; case.scratch];
    let mut out = [u64::MAX; 8];
    let g = &case.grid;
    let number = crate::port::inner_walk(g, &case.line, &mut scratch, &mut out);
    if case.scratch >= SCRATCH && !model::counts_fit(g) {
        return answers("inner walk", (8, &[0]), (number, &[out[0]]));
    }
    if wanted.0 == 1 || wanted.0 == 8 {
        let cells = if number == 0 { &scratch[..out[0] as usize] } else { &[] };
        let inside = cells.windows(2).all(|c| c[0] < c[1]) && cells.iter().all(|&c| c < g.cols * g.rows);
        return if inside && (number == 0 || number == 7) { Ok(()) } else { Err(format!("inner walk: {number}, {cells:?}")) };
    }
    answers("inner walk", (wanted.0, &[wanted.1]), (number, &[out[0]]))?;
    let settled = if number == 0 { out[0] as usize } else { case.scratch };
    slices("inner walk: scratch", &wanted.2[..settled], &scratch[..settled])
}

pub struct Walk<const AXES: bool>;

impl<const AXES: bool> Kind for Walk<AXES> {
    type Case = Case;
    const NAME: &'static str = if AXES { "axes-walk" } else { "walk" };
    const SIDES: &'static str = if AXES { WHERE_SQUARED } else { "port, Rust and model" };

    fn draw(r: &mut Random) -> (&'static str, Case) {
        let grid = if AXES { cases::oblong(r) } else { cases::grid(r) };
        let (shape, line) = cases::segment(r, &grid);
        let mut case = Case { grid, line, mode: 0, scratch: SCRATCH };
        if !r.once_in(100) {
            return (shape, case);
        }
        // now and then something that is refused, or just not
        let v = cases::bad(r);
        match r.below(7) {
            0..=1 => case.line[r.below(4) as usize] = v,
            2 => case.grid.min_x = v,
            3 => cases::resize::<AXES>(r, &mut case.grid),
            4 => (case.grid.cols, case.grid.rows) = r.pick(&[(0, 0), (0, 1), (4005, 1), (1, 4005), (4004, 251), (1002, 1001), (u32::MAX, u32::MAX)]),
            5 => case.mode = r.pick(&[3, 4, 256, 1 << 31, u32::MAX]),
            _ => case.scratch = r.pick(&[0, 1, SCRATCH - 1, SCRATCH, SCRATCH + 1, 20000]),
        }
        ("edge of the domain", case)
    }

    fn check(case: &Case) -> Result<&'static str, String> {
        let mut wanted = None;
        for (who, entry) in entries() {
            let mut scratch = vec![JUNK; case.scratch];
            let mut out = [u64::MAX; 8];
            let number = entry(&case.grid, &case.line, case.mode, &mut scratch, &mut out);
            let got = (number, out[0], scratch);
            // the model comes first: it says whether the Rust can be asked
            let wanted = wanted.get_or_insert_with(|| {
                let Some(cells) = by_rust(case).filter(|_| got.0 == 0) else {
                    return got.clone();
                };
                let mut left = vec![0; case.scratch];
                left[..cells.len()].copy_from_slice(&cells);
                (0, cells.len() as u64, left)
            });
            answers(who, (wanted.0, &[wanted.1]), (got.0, &[got.1]))?;
            slices(&format!("{who}: scratch"), &wanted.2, &got.2)?;
        }
        if case.mode == Mode::Rust as u32 {
            inner(case, wanted.as_ref().unwrap())?;
        }
        Ok(match wanted.unwrap().0 {
            7 => "past the budget",
            0 if AXES && by_rust(case).is_some() => "answered, by the Rust too",
            n => word(n),
        })
    }

    fn smaller(case: &Case) -> Vec<Case> {
        let mut all = Vec::new();
        let mut put = |change: &dyn Fn(&mut Case)| {
            let mut c = case.clone();
            change(&mut c);
            all.push(c);
        };
        for v in rounder(case.grid.min_x) {
            put(&|c| c.grid.min_x = v);
        }
        for v in rounder(case.grid.min_y) {
            put(&|c| c.grid.min_y = v);
        }
        for (width, height) in sizes(&case.grid, AXES) {
            put(&|c| (c.grid.cell_width, c.grid.cell_height) = (width, height));
        }
        for n in [1, case.grid.cols / 2, case.grid.cols.saturating_sub(1)] {
            if n < case.grid.cols {
                put(&|c| c.grid.cols = n);
            }
        }
        for n in [1, case.grid.rows / 2, case.grid.rows.saturating_sub(1)] {
            if n < case.grid.rows {
                put(&|c| c.grid.rows = n);
            }
        }
        for k in 0..4 {
            for v in rounder(case.line[k]) {
                put(&|c| c.line[k] = v);
            }
        }
        all
    }

    fn show(case: &Case) -> String {
        let g = &case.grid;
        let mut text = show_grid(g);
        text += &format!("segment {}\n", case.line.map(float).join(", "));
        text += &format!("mode {}, scratch {}\n", case.mode, case.scratch);
        let mut cells = Vec::new();
        let mode = model::mode_of(case.mode).unwrap_or(Mode::Rust);
        if model::grid_fits(g) && model::walk(mode, g, &case.line, &mut cells).is_some() {
            match by_rust(case) {
                Some(cells) => text += &format!("the Rust's cells: {cells:?}\n"),
                None => text += &format!("the model's cells: {cells:?}\n"),
            }
        }
        text
    }
}

/// The cells by the Rust, where it can be asked and the walk ends: in its own mode, on a grid of square cells, or where there is one a power of two away.
fn by_rust(case: &Case) -> Option<Vec<u32>> {
    if case.mode != Mode::Rust as u32 || !model::grid_fits(&case.grid) || !case.line.iter().all(|&v| model::coordinate_fits(v)) {
        return None;
    }
    let squared = Squared::of(&case.grid)?;
    model::walk(Mode::Rust, &case.grid, &case.line, &mut Vec::new())?;
    Some(oracle::segment_cells(squared.grid(), &squared.line(&case.line)))
}

/// Document 01's measured points, and a walk that never ends in the Rust.
pub fn fixed() -> Vec<(&'static str, Case)> {
    let four = Grid { min_x: 0.0, min_y: 0.0, cell_width: 1.0, cell_height: 1.0, cols: 4, rows: 4 };
    let long = Grid { cols: 4004, rows: 1, ..four };
    let endless = Grid { min_x: -70.00000000000001, min_y: 1.0553831621433073e-7, cols: 15, rows: 2, ..four };
    let hair = 2f64.powi(-41);
    let at = |x: f64| [x, 0.5, x, 0.5];
    let all = [
        (four, [0.5, 0.5, 2.5, 0.5]),
        (four, [1.0, 0.5, 1.0, 2.5]),
        (four, [1.0, 1.0, 1.0, 1.0]),
        (four, at(1.0 + hair)),
        (four, at(1.0 + 4.0 * hair)),
        (four, at(1.0 - hair)),
        (long, [0.5, 0.5, 2047.5, 0.5]),
        (long, [0.5, 0.5, 2048.5, 0.5]),
        (endless, [0.0, 0.6036785153383751, 5e-324, 1.639504059742847]),
    ];
    all.map(|(grid, line)| ("measured points", Case { grid, line, mode: 0, scratch: SCRATCH })).into()
}

/// The same points with y in another unit, on cells as much higher: the cells are the same, so the numbers of document 01 stand for these too.
pub fn fixed_by_axis() -> Vec<(&'static str, Case)> {
    let mut all = Vec::new();
    for (_, case) in fixed() {
        for unit in [2f64.powi(28), 2f64.powi(-20), 1e3, 1e-6, 3.0] {
            let mut c = case.clone();
            c.grid.min_y *= unit;
            c.grid.cell_height *= unit;
            c.line[1] *= unit;
            c.line[3] *= unit;
            all.push(("measured points", c));
        }
    }
    all
}
