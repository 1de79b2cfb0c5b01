//! The grid under the Rust's own names (`morelturret::drop_in`), beside the Rust: the same fields, and every callback of every visit in order, of each cell
//! and of each global line, and of a line that is none. With a tracker it makes as many tests, and a callback's error ends a visit.

use super::build::Columns;
use super::{float, rounder, Kind};
use crate::cases;
use crate::model;
use crate::oracle;
use crate::random::Random;
use crate::{Line, Mode, Sizing};
use morelturret::drop_in::{CandidatePair, SoALines, Tracker, UniformGrid};

#[derive(Clone)]
pub struct Case {
    lines: Vec<Line>,
}

/// Counts the tests, and those that overlap.
#[derive(Default)]
struct Counted {
    tests: u64,
    overlaps: u64,
}

impl Tracker<()> for Counted {
    fn candidate(&mut self, overlaps: bool) -> Result<(), ()> {
        self.tests += 1;
        self.overlaps += overlaps as u64;
        Ok(())
    }
}

/// The callbacks of one visit, in order.
fn called(visit: impl FnOnce(&mut dyn FnMut(CandidatePair) -> Result<(), ()>) -> Result<(), ()>) -> Vec<(usize, usize)> {
    let mut pairs = Vec::new();
    let ended = visit(&mut |pair| {
        pairs.push((pair.first, pair.second));
        Ok(())
    });
    assert_eq!(ended, Ok(()));
    pairs
}

fn same<T: PartialEq + std::fmt::Debug>(what: &str, rust: T, drop_in: T) -> Result<(), String> {
    if rust == drop_in {
        return Ok(());
    }
    Err(format!("{what}: the Rust has {rust:?}, the drop-in {drop_in:?}"))
}

pub struct DropIn;

impl Kind for DropIn {
    type Case = Case;
    const NAME: &'static str = "drop-in";
    const SIDES: &'static str = "port and Rust";

    fn draw(r: &mut Random) -> (&'static str, Case) {
        let most = r.pick(&[3, 8, 30, 100, 300]);
        let (shape, lines) = cases::lines(r, most);
        (shape, Case { lines })
    }

    fn check(case: &Case) -> Result<&'static str, String> {
        let lines = &case.lines[..];
        // a walk beyond the budget, where the Rust may never end, is refused
        let wanted = model::tables(Columns::new(lines).coordinates(), Sizing::Square, Mode::Rust, usize::MAX);
        let grid = match (UniformGrid::try_new(lines), wanted) {
            (Ok(grid), Ok(_)) => grid,
            (Err(refusal), Err((number, _))) if refusal.number == number => return Ok("refused"),
            (got, wanted) => return Err(format!("refusal: the model has {:?}, the drop-in {:?}", wanted.err(), got.err())),
        };
        let rust_lines = oracle::Lines::new(lines);
        let rust = oracle::build(&rust_lines);
        let record = rust.grid();
        same("columns and rows", (record.cols as usize, record.rows as usize), (grid.cols, grid.rows))?;
        same("cell size", record.cell_width.to_bits(), grid.cell_size.to_bits())?;
        // equal as numbers: of two zeros the Rust takes either
        same("lower corner", (record.min_x, record.min_y), (grid.bounds_min.x, grid.bounds_min.y))?;
        same("offsets", rust.offsets(), grid.cell_offsets.iter().map(|&o| o as u32).collect())?;
        same("items", rust.items(), &grid.cell_items[..])?;
        same("global lines", rust.globals(), grid.global_lines.iter().map(|&g| g as u32).collect())?;

        let soa = SoALines::new(lines);
        let mut counted = Counted::default();
        let list = |cell: usize| &grid.cell_items[grid.cell_offsets[cell]..grid.cell_offsets[cell + 1]];
        let cells: Vec<usize> = (0..grid.cols * grid.rows).filter(|&cell| list(cell).len() > 1).collect();
        for (cell, wanted) in cells.iter().zip(rust.cell_callbacks(&rust_lines, &cells)) {
            let got = called(|visit| grid.visit_cell_candidates(list(*cell), &soa, None, visit));
            same(&format!("callbacks of cell {cell}"), &wanted, &got)?;
            let tracked = called(|visit| grid.visit_cell_candidates(list(*cell), &soa, Some(&mut counted), visit));
            same(&format!("callbacks of cell {cell}, with a tracker"), &wanted, &tracked)?;
            let mut calls = 0;
            let ended = grid.visit_cell_candidates(list(*cell), &soa, None, |_| {
                calls += 1;
                Err(())
            });
            same(&format!("calls in cell {cell} until an error"), (wanted.len().min(1), wanted.is_empty()), (calls, ended.is_ok()))?;
        }
        for (line, wanted) in grid.global_lines.iter().zip(rust.global_callbacks(&rust_lines, &grid.global_lines)) {
            let got = called(|visit| grid.visit_global_candidates_for_line(*line, lines, &soa, None, visit));
            same(&format!("callbacks of global line {line}"), &wanted, &got)?;
            let tracked = called(|visit| grid.visit_global_candidates_for_line(*line, lines, &soa, Some(&mut counted), visit));
            same(&format!("callbacks of global line {line}, with a tracker"), &wanted, &tracked)?;
        }
        let (tests, pairs) = rust.visit(&rust_lines);
        same("tests and overlaps by the tracker", (tests, pairs.len() as u64), (counted.tests, counted.overlaps))?;
        // the Rust takes any line as the global one
        for line in [0, lines.len() / 2, lines.len() - 1] {
            let wanted = rust.global_callbacks(&rust_lines, &[line]).remove(0);
            let got = called(|visit| grid.visit_global_candidates_for_line(line, lines, &soa, None, visit));
            same(&format!("callbacks of line {line} as a global one"), &wanted, &got)?;
        }
        Ok(if grid.global_lines.is_empty() { "the same" } else { "the same, with globals" })
    }

    fn smaller(case: &Case) -> Vec<Case> {
        let n = case.lines.len();
        let mut all = Vec::new();
        for i in (0..n).filter(|_| n > 1) {
            let mut c = case.clone();
            c.lines.remove(i);
            all.push(c);
        }
        for i in (0..n).filter(|_| n <= 4) {
            for k in 0..4 {
                for v in rounder(case.lines[i][k]) {
                    let mut c = case.clone();
                    c.lines[i][k] = v;
                    all.push(c);
                }
            }
        }
        all
    }

    fn show(case: &Case) -> String {
        let lines: Vec<String> = case.lines.iter().take(40).map(|l| format!("  {}", l.map(float).join(", "))).collect();
        format!("{} lines\n{}\n", case.lines.len(), lines.join("\n"))
    }
}

/// 510 holds at one temperature, then two swings over 1,000: the swings are global.
pub fn fixed() -> Vec<(&'static str, Case)> {
    let mut lines = vec![[100.1, 0.0, 100.1, 0.0]; 510];
    lines.extend([[0.0, 0.0, 1000.0, 0.0], [1000.0, 0.0, 0.0, 0.0]]);
    vec![("holds and swings", Case { lines })]
}
