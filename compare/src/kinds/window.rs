//! The lines in a window: on the tables that a build leaves, in any mode of walk, on lines placed on any grid, and on fit tables that no build made.
//! Every entry of the output is compared, with room to spare, exactly full and one short.

use super::build::Columns;
use super::visit::{Case as Visited, Owned};
use super::{answers, float, show_grid, slices, word, Kind, JUNK};
use crate::cases;
use crate::model::{self, Standing, MOST_LINES};
use crate::port;
use crate::random::{nudged, Random};
use crate::{Grid, Line, Mode, Sizing};

#[derive(Clone)]
pub struct Case {
    lines: Vec<Line>,
    /// The grid that the lines are placed on; where there is none, a build picks it.
    grid: Option<Grid>,
    axes: bool,
    mode: Mode,
    /// For windows, lists that no walk made, and damage.
    seed: u64,
    made_up: bool,
    damage: bool,
    spoil: Spoil,
}

/// What is wrong with the lines that the query is lent; the tables are of the right ones.
#[derive(Clone, Copy, PartialEq)]
enum Spoil {
    Nothing,
    Coordinate,
    Lengths,
    Number,
}

/// The windows of one case.
const WINDOWS: usize = 25;

/// A bound of a window on an axis: an edge to the last bit, an end of a line, anywhere about the grid, or far off.
fn bound(r: &mut Random, lines: &[Line], axis: usize, low: f64, size: f64, count: u32) -> f64 {
    let near = match r.below(8) {
        0 | 1 => low + r.below(count as u64 + 1) as f64 * size,
        2..=4 if !lines.is_empty() => lines[r.below(lines.len() as u64) as usize][axis + 2 * r.below(2) as usize],
        5 => r.pick(&[-1e9, 1e9, low, low + count as f64 * size]),
        _ => cases::coordinate(r, low, size, count.max(1)),
    };
    let near = if r.once_in(3) { nudged(near, r.below(3) as i64 - 1) } else { near };
    near.clamp(-1e9, 1e9)
}

/// [low x, low y, high x, high y]
fn window(r: &mut Random, lines: &[Line], g: &Grid) -> (&'static str, [f64; 4]) {
    let mut b = |axis: usize| {
        let (low, size, count) = if axis == 0 { (g.min_x, g.cell_width, g.cols) } else { (g.min_y, g.cell_height, g.rows) };
        bound(r, lines, axis, low, size, count)
    };
    let (x, y, u, v) = (b(0), b(1), b(0), b(1));
    match r.below(12) {
        0 => ("everything", [-1e9, -1e9, 1e9, 1e9]),
        1 => ("one point", [x, y, x, y]),
        2 => ("corners as they come", [x, y, u, v]),
        3 => ("a bad corner", {
            let mut w = [x, y, u, v];
            w[r.below(4) as usize] = cases::bad(r);
            w
        }),
        _ => ("in order", [x.min(u), y.min(v), x.max(u), y.max(v)]),
    }
}

/// The port and the model with an output of `room` entries.
fn ask(s: &Standing, w: [f64; 4], room: usize) -> Result<(u32, u64), String> {
    let (mut of_model, mut of_port) = (vec![JUNK; room], vec![JUNK; room]);
    let (mut wanted, mut out) = ([u64::MAX; 2], [u64::MAX; 2]);
    let number = model::window(s, w, &mut of_model, &mut wanted);
    let got = port::window(s, w, &mut of_port, &mut out);
    answers(&format!("port: window {w:?} with room for {room}"), (number, &wanted), (got, &out))?;
    slices("found", &of_model, &of_port)?;
    Ok((number, wanted[0]))
}

pub struct Window;

impl Kind for Window {
    type Case = Case;
    const NAME: &'static str = "window";
    const SIDES: &'static str = "port and model";

    fn draw(r: &mut Random) -> (&'static str, Case) {
        let axes = r.once_in(2);
        let (shape, v) = Visited::draw(r, axes, 12);
        let mode = r.pick(&[Mode::Rust, Mode::Sided, Mode::Covering]);
        let made_up = !v.damage && r.once_in(3);
        let spoil = match r.below(100) {
            0..=3 => Spoil::Coordinate,
            4..=6 => Spoil::Lengths,
            7 => Spoil::Number,
            _ => Spoil::Nothing,
        };
        let shape = if made_up { "tables that no build made" } else { shape };
        (shape, Case { lines: v.lines, grid: v.grid, axes, mode, seed: v.seed, made_up, damage: v.damage, spoil })
    }

    fn check(case: &Case) -> Result<&'static str, String> {
        let columns = Columns::new(&case.lines);
        let lines = columns.coordinates();
        let sizing = if case.axes { Sizing::Axes } else { Sizing::Square };
        let (grid, offsets, items, globals) = match case.grid {
            Some(grid) => match model::listed_on(case.mode, &grid, lines) {
                Ok(t) => (grid, t.offsets(), t.lists.concat(), t.globals),
                Err(_) => return Ok("not built"),
            },
            None => match model::tables(lines, sizing, case.mode, usize::MAX) {
                Ok(t) => (t.grid, t.offsets, t.items, t.globals),
                Err(_) => return Ok("not built"),
            },
        };
        let r = &mut Random::new(case.seed);
        let standing = Standing { grid, lines, offsets: &offsets, items: &items, globals: &globals, global_count: globals.len() as u64 };
        let mut t = Owned::of(&standing);
        if case.made_up {
            t.make_up(case.lines.len() as u32, r);
        }
        if case.damage {
            t.damage(case.lines.len() as u32, r);
        }
        let mut lent = case.lines.clone();
        match case.spoil {
            Spoil::Coordinate => {
                let k = r.below(lent.len() as u64) as usize;
                lent[k][r.below(4) as usize] = cases::bad(r);
            }
            Spoil::Number => lent = lent.iter().copied().cycle().take(MOST_LINES + 1).collect(),
            _ => {}
        }
        let columns = Columns::new(&lent);
        let mut lines = columns.coordinates();
        if case.spoil == Spoil::Lengths {
            lines.end_x = &lines.end_x[1..];
        }
        let s = Standing { grid: t.grid, lines, offsets: &t.offsets, items: &t.items, globals: &t.globals, global_count: t.global_count };
        let (mut some, mut refused) = (false, 0);
        for _ in 0..WINDOWS {
            let (_, w) = window(r, &case.lines, &s.grid);
            let (number, count) = ask(&s, w, case.lines.len() + r.below(3) as usize)?;
            if number != 0 {
                refused = number;
                continue;
            }
            some |= count > 0;
            ask(&s, w, count as usize)?;
            if count > 0 {
                let (number, needed) = ask(&s, w, count as usize - 1)?;
                if (number, needed) != (5, count) {
                    return Err(format!("one short of {count} was answered by {number} with {needed}"));
                }
            }
        }
        Ok(if some { "lines found" } else if refused != 0 { word(refused) } else { "nothing found" })
    }

    fn smaller(case: &Case) -> Vec<Case> {
        let n = case.lines.len();
        let mut all = Vec::new();
        for k in [n / 2, n.saturating_sub(1)] {
            if k > 0 && k < n {
                all.push(Case { lines: case.lines[..k].to_vec(), ..case.clone() });
                all.push(Case { lines: case.lines[n - k..].to_vec(), ..case.clone() });
            }
        }
        all
    }

    fn show(c: &Case) -> String {
        let lines: Vec<String> = c.lines.iter().take(12).map(|l| l.map(float).join(" ")).collect();
        let grid = c.grid.as_ref().map(show_grid).unwrap_or_default();
        format!("{grid}{} lines, seed {}, axes {}, made up {}, damage {}\n{}\n", c.lines.len(), c.seed, c.axes, c.made_up, c.damage, lines.join("\n"))
    }
}
