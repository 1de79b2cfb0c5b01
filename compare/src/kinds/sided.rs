//! The sided mode of walk, which the Rust does not have: walks and builds by the port and by the model. Ends lie beside boundaries, 2^-35 to 2^-47 of
//! a cell off them on either side, the first and the last ones among them. Beside each answer stands whether the Rust's mode has another.

use super::build::{self, Build, Columns};
use super::walk::{self, Walk};
use super::Kind;
use crate::cases;
use crate::model::{self, SCRATCH};
use crate::random::Random;
use crate::{Grid, Line, Mode, Sizing};

const SIDED: u32 = Mode::Sided as u32;

// ---- walks

pub struct SidedWalk;

impl Kind for SidedWalk {
    type Case = walk::Case;
    const NAME: &'static str = "sided-walk";
    const SIDES: &'static str = "port and model";

    fn draw(r: &mut Random) -> (&'static str, walk::Case) {
        if r.once_in(8) {
            let (shape, case) = if r.once_in(2) { Walk::<false>::draw(r) } else { Walk::<true>::draw(r) };
            // a mode that there is not stays
            return (shape, walk::Case { mode: case.mode.max(SIDED), ..case });
        }
        let grid = grid(r);
        let (shape, line) = segment(r, &grid);
        (shape, walk::Case { grid, line, mode: SIDED, scratch: SCRATCH })
    }

    fn check(case: &walk::Case) -> Result<&'static str, String> {
        let answer = Walk::<false>::check(case)?;
        if answer != "answered" {
            return Ok(answer);
        }
        let cells = |mode| {
            let mut cells = Vec::new();
            model::walk(mode, &case.grid, &case.line, &mut cells).map(|_| cells)
        };
        Ok(if cells(Mode::Rust) == cells(Mode::Sided) { "as in the Rust's mode" } else { "other cells" })
    }

    fn smaller(case: &walk::Case) -> Vec<walk::Case> {
        Walk::<true>::smaller(case)
    }

    fn show(case: &walk::Case) -> String {
        Walk::<true>::show(case)
    }
}

/// A fit grid: any, or one on which a hair beside a boundary is not lost in rounding.
fn grid(r: &mut Random) -> Grid {
    if r.once_in(4) {
        return if r.once_in(2) { cases::grid(r) } else { cases::oblong(r) };
    }
    let size = |r: &mut Random| r.pick(&[1.0, 1.0, 0.5, 0.25, 4.0, 3.0, 0.1, 1e-6, 1e6]);
    let (cell_width, square) = (size(r), r.once_in(2));
    let cell_height = if square { cell_width } else { size(r) };
    let low = |r: &mut Random, size: f64| r.pick(&[0.0, 0.0, -size, 3.0 * size, -0.5 * size, 0.1]);
    let (min_x, min_y) = (low(r, cell_width), low(r, cell_height));
    let count = |r: &mut Random| r.pick(&[1, 2, 3, 4, 5, 8, 17]);
    Grid { min_x, min_y, cell_width, cell_height, cols: count(r), rows: count(r) }
}

/// A segment whose ends lie beside boundaries, and the name of its shape.
fn segment(r: &mut Random, g: &Grid) -> (&'static str, Line) {
    let x = |r: &mut Random| cases::beside(r, g.min_x, g.cell_width, g.cols);
    let y = |r: &mut Random| cases::beside(r, g.min_y, g.cell_height, g.rows);
    let any_x = |r: &mut Random| cases::coordinate(r, g.min_x, g.cell_width, g.cols);
    let any_y = |r: &mut Random| cases::coordinate(r, g.min_y, g.cell_height, g.rows);
    let (x0, y0) = (x(r), y(r));
    match r.below(8) {
        0 => ("corner point", [x0, y0, x0, y0]),
        1 => {
            let (u, v) = (any_x(r), any_y(r));
            ("point", if r.once_in(2) { [x0, v, x0, v] } else { [u, y0, u, y0] })
        }
        2 => ("vertical", [x0, y0, x0, if r.once_in(2) { y(r) } else { any_y(r) }]),
        3 => ("level", [x0, y0, if r.once_in(2) { x(r) } else { any_x(r) }, y0]),
        4 => ("from a boundary", [x0, y0, any_x(r), any_y(r)]),
        5 => ("to a boundary", [any_x(r), any_y(r), x0, y0]),
        _ => ("between boundaries", [x0, y0, x(r), y(r)]),
    }
}

/// Values that are worked out by hand: on a grid of 4 by 4 cells of 1 by 1, the measured points and those that the second mode is about.
pub fn fixed_walks() -> Vec<(&'static str, walk::Case)> {
    walk::fixed().into_iter().chain(walk::fixed_by_axis()).map(|(shape, case)| (shape, walk::Case { mode: SIDED, ..case })).collect()
}

// ---- builds

pub struct SidedBuild;

impl Kind for SidedBuild {
    type Case = build::Case;
    const NAME: &'static str = "sided-build";
    const SIDES: &'static str = "port and model";

    fn draw(r: &mut Random) -> (&'static str, build::Case) {
        let (shape, mut case) = if r.once_in(2) { Build::<false>::draw(r) } else { Build::<true>::draw(r) };
        case.mode = case.mode.max(SIDED);
        if shape != "edge of the domain" {
            move_ends(r, &mut case);
        }
        (shape, case)
    }

    fn check(case: &build::Case) -> Result<&'static str, String> {
        let answer = Build::<false>::check(case)?;
        let built = answer.starts_with("built") || answer.contains("halving");
        // two more builds by the model: of many lines they take long
        let Some(sizing) = model::sizing_of(case.sizing).filter(|_| built && case.lines.len() <= 5000) else {
            return Ok(answer);
        };
        let columns = Columns::new(&case.lines);
        let tables = |mode| model::tables(columns.coordinates(), sizing, mode, usize::MAX).map(|t| (t.offsets, t.items, t.globals));
        Ok(if tables(Mode::Rust) == tables(Mode::Sided) { "as in the Rust's mode" } else { "other lists" })
    }

    fn smaller(case: &build::Case) -> Vec<build::Case> {
        Build::<false>::smaller(case)
    }

    fn show(case: &build::Case) -> String {
        Build::<false>::show(case)
    }
}

/// Puts about half of the ends beside boundaries of the grid that the lines lead to. Ends that hold its bounds stay, and so does the first grid.
fn move_ends(r: &mut Random, case: &mut build::Case) {
    let Some(sizing) = model::sizing_of(case.sizing) else { return };
    let columns = Columns::new(&case.lines);
    let Ok(t) = model::tables(columns.coordinates(), sizing, Mode::Sided, usize::MAX) else { return };
    let axes = [(t.grid.min_x, t.grid.cell_width, t.grid.cols), (t.grid.min_y, t.grid.cell_height, t.grid.rows)];
    for (k, (low, size, count)) in axes.into_iter().enumerate() {
        let high = case.lines.iter().flat_map(|l| [l[k], l[k + 2]]).fold(low, f64::max);
        for line in &mut case.lines {
            for v in [k, k + 2] {
                if line[v] > low && line[v] < high && r.once_in(2) {
                    line[v] = cases::beside(r, low, size, count).clamp(low, high);
                }
            }
        }
    }
}

/// The fixed builds of both sizings, and builds whose lines end a hair under the edges of their own grid.
pub fn fixed_builds(seed: u64) -> Vec<(&'static str, build::Case)> {
    let mut all: Vec<(&str, build::Case)> = build::fixed(seed).into_iter().chain(build::fixed_by_axis(seed)).collect();
    for exponent in 35..=47 {
        for hair in [2f64.powi(-exponent), -(2f64.powi(-exponent))] {
            // cells of 1 by 1 in both sizings: 3 columns and 3 rows
            let ends = [1.0 + hair, 2.0 - hair.abs(), 1.0 - hair];
            for (x, y) in ends.into_iter().flat_map(|x| ends.map(|y| (x, y))) {
                let lines = vec![[0.0, 0.0, 2.0, 2.0], [0.5, 0.5, x, y], [x, 0.25, x, 1.75], [x, y, x, y]];
                for sizing in [Sizing::Square, Sizing::Axes] {
                    all.push(("a hair beside an edge", build::ample(lines.clone(), sizing)));
                }
            }
        }
    }
    // a mode that there is not comes after a short `out` and an unknown sizing, and before every refusal
    let one = build::ample(vec![[0.0, 0.0, 2.0, 2.0]], Sizing::Square);
    let mut border = Vec::new();
    for (sizing, mode, out) in [(0, 3, 8), (0, u32::MAX, 8), (1, 3, 9), (2, 3, 8), (0, 3, 7), (3, 1, 7)] {
        border.push(build::Case { sizing, mode, out, ..one.clone() });
        border.push(build::Case { sizing, mode, out, scratch: SCRATCH - 1, ..one.clone() });
    }
    all = all.into_iter().map(|(shape, case)| (shape, build::Case { mode: SIDED, ..case })).collect();
    all.extend(border.into_iter().map(|case| ("answers of the border", case)));
    all
}
