//! Lists by place and the check of tables: on the tables that the Rust builds, with more lent than is used, and on damaged ones. On built tables a
//! cell's list is exactly the lines whose walk by the Rust (where sizes are kept apart, by the model) visits the cell. Every word that is lent as
//! `out`, and of the array that it is a part of, is compared.

use super::build::Columns;
use super::visit::{Case, Owned, Visit};
use super::{answers, slices, word, Kind, JUNK};
use crate::cases;
use crate::model::{self, Lists as Tables, MOST_CELLS, MOST_LINES};
use crate::port;
use crate::oracle;
use crate::random::Random;
use crate::{Grid, Line, Mode};

type CheckTables = fn(&Tables, &mut [u64]) -> u32;
type CellList = fn(&Tables, u32, u32, &mut [u64]) -> u32;
type GlobalList = fn(&Tables, u64, &mut [u64]) -> u32;

struct Entries {
    who: &'static str,
    check_tables: CheckTables,
    cell_list: CellList,
    global_list: GlobalList,
}

fn entries() -> Vec<Entries> {
    vec![
        Entries { who: "model", check_tables: model::check_tables, cell_list: model::cell_list, global_list: model::global_list },
        Entries { who: "port", check_tables: port::check_tables, cell_list: port::cell_list, global_list: port::global_list },
    ]
}

/// The words of the array that `out` is a part of, and what they hold before a call.
const WORDS: usize = 8;
const LEFT: u64 = 888_888_888;

/// What every entry answers, with `lent` words of `out`: the number, and all words of the array.
fn ask(what: &str, lent: usize, by: impl Fn(&Entries, &mut [u64]) -> u32) -> Result<(u32, [u64; WORDS]), String> {
    let mut wanted: Option<(u32, [u64; WORDS])> = None;
    for entry in entries() {
        let mut out = [LEFT; WORDS];
        let number = by(&entry, &mut out[..lent]);
        let w = *wanted.get_or_insert((number, out));
        answers(&format!("{}, {what}, {lent} words lent,", entry.who), (w.0, &w.1), (number, &out))?;
    }
    Ok(wanted.unwrap())
}

fn lent(r: &mut Random) -> usize {
    r.pick(&[0, 1, 2, 2, 3, WORDS, WORDS])
}

fn cell_list(t: &Tables, (row, col): (u32, u32), lent: usize) -> Result<(u32, [u64; WORDS]), String> {
    ask(&format!("list of the cell in row {row} and column {col}"), lent, |e, out| (e.cell_list)(t, row, col, out))
}

fn global_list(t: &Tables, position: u64, lent: usize) -> Result<(u32, [u64; WORDS]), String> {
    ask(&format!("list of the global at {position}"), lent, |e, out| (e.global_list)(t, position, out))
}

/// A place inside, at an end or far beyond it.
fn place(r: &mut Random, end: u64, most: u64) -> u64 {
    if r.once_in(6) {
        r.pick(&[end, end + 1, most, end.saturating_sub(1), 0])
    } else {
        r.below(end.max(1))
    }
}

fn cell(r: &mut Random, g: &Grid) -> (u32, u32) {
    (place(r, g.rows as u64, u32::MAX as u64) as u32, place(r, g.cols as u64, u32::MAX as u64) as u32)
}

pub struct Lists<const AXES: bool>;

impl<const AXES: bool> Kind for Lists<AXES> {
    type Case = Case;
    const NAME: &'static str = if AXES { "axes-lists" } else { "lists" };
    const SIDES: &'static str = if AXES { "port and model" } else { "port, Rust and model" };

    fn draw(r: &mut Random) -> (&'static str, Case) {
        Case::draw(r, AXES, 2)
    }

    fn check(case: &Case) -> Result<&'static str, String> {
        let columns = Columns::new(&case.lines);
        let lines = columns.coordinates();
        let Some((grid, built)) = case.tables(AXES) else {
            return Ok("not built");
        };
        let (offsets, items, globals) = (built.offsets(), built.items(), built.globals());
        let standing = model::Standing { grid, lines, offsets: &offsets, items, globals: &globals, global_count: globals.len() as u64 };
        let mut t = Owned::of(&standing);
        let r = &mut Random::new(case.seed);
        // a build leaves entries beyond the tables; what they are is of no account
        let mut beyond = |slice: &mut Vec<u32>| slice.resize(slice.len() + r.below(4) as usize, JUNK);
        beyond(&mut t.offsets);
        beyond(&mut t.items);
        beyond(&mut t.globals);
        let mut count = case.lines.len();
        if case.damage {
            match r.below(4) {
                0 => count = r.pick(&[0, 1, count - 1, count + 1, MOST_LINES, MOST_LINES + 1, 70_000, usize::MAX]),
                1 => t.grid = unfit(r, t.grid),
                _ => t.damage(count as u32, r),
            }
        }
        let t = Tables { grid: t.grid, lines: count, offsets: &t.offsets, items: &t.items, globals: &t.globals, global_count: t.global_count };

        let walked = |line: &Line| {
            let mut cells = Vec::new();
            if !AXES {
                return oracle::segment_cells(&t.grid, line);
            }
            model::walk(Mode::Rust, &t.grid, line, &mut cells);
            cells
        };
        let walks: Vec<Vec<u32>> = if case.damage { vec![] } else { case.lines.iter().map(walked).collect() };
        for _ in 0..20 {
            let (row, col) = cell(r, &t.grid);
            let lent = lent(r);
            let (number, out) = cell_list(&t, (row, col), lent)?;
            if number == 0 && !case.damage {
                let cell = row * t.grid.cols + col;
                let visiting = (0..count as u32).filter(|&i| walks[i as usize].len() <= MOST_CELLS && walks[i as usize].contains(&cell));
                let got = &t.items[out[0] as usize..(out[0] + out[1]) as usize];
                slices(&format!("list of the cell in row {row} and column {col}"), &visiting.collect::<Vec<_>>(), got)?;
            }
            let position = place(r, t.global_count, u64::MAX);
            let (number, out) = global_list(&t, position, lent)?;
            if number == 0 && !case.damage {
                let got = &t.globals[out[0] as usize..(out[0] + out[1]) as usize];
                slices(&format!("list of the global at {position}"), &globals[position as usize..], got)?;
            }
        }
        for lent in 0..4 {
            ask("check of the tables", lent, |e, out| (e.check_tables)(&t, out))?;
        }
        let (number, _) = ask("check of the tables", WORDS, |e, out| (e.check_tables)(&t, out))?;
        Ok(match number {
            0 if globals.is_empty() => "listed",
            0 => "listed with globals",
            _ => word(number),
        })
    }

    fn smaller(case: &Case) -> Vec<Case> {
        Visit::<AXES>::smaller(case)
    }

    fn show(case: &Case) -> String {
        Visit::<AXES>::show(case)
    }
}

/// A grid that is not fit, or at the edge of it.
fn unfit(r: &mut Random, g: Grid) -> Grid {
    r.pick(&[
        Grid { min_x: f64::NAN, ..g },
        Grid { min_y: f64::INFINITY, ..g },
        Grid { min_x: -1.0000000000000001e9, ..g },
        Grid { min_y: cases::bad(&mut r.clone()), ..g },
        Grid { cell_width: -7.0, ..g },
        Grid { cell_height: -7.0, ..g },
        Grid { cell_width: 1e-6 / 4.0, ..g },
        Grid { cell_height: 2e9, ..g },
        Grid { cell_height: f64::NAN, ..g },
        Grid { cols: 1, rows: 0, ..g },
        Grid { cols: 0, rows: 1, ..g },
        Grid { cols: 4004, rows: 4004, ..g },
        Grid { cols: u32::MAX, rows: u32::MAX, ..g },
    ])
}
