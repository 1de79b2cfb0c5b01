//! What a visit will cost, and lists by line: on the tables of builds in every sizing and mode of walk, on tables that fit and that no build made,
//! and on damaged ones. Every entry of the slices that are lent is compared.

use super::build::Columns;
use super::visit::{self, Owned, Visit};
use super::{answers, slices, word, Kind, JUNK};
use crate::model::{self, Coordinates, Standing};
use crate::port;
use crate::random::Random;
use crate::{Grid, Mode, Sizing};

pub struct Pairs;

/// Tables of n lines that fit, on a small grid: every line in any cells, some of them among the globals too.
fn unbuilt(n: u32, r: &mut Random) -> Owned {
    let grid = Grid { min_x: 0.0, min_y: 0.0, cell_width: 1.0, cell_height: 1.0, cols: 1 + r.below(5) as u32, rows: 1 + r.below(5) as u32 };
    let some = |r: &mut Random, often: u64| (0..n).filter(|_| r.once_in(often)).collect::<Vec<u32>>();
    let (mut offsets, mut items) = (vec![0], Vec::new());
    for _ in 0..grid.cols * grid.rows {
        let often = 1 + r.below(6);
        items.extend(some(r, often));
        offsets.push(items.len() as u32);
    }
    let globals = if r.once_in(2) { some(r, 4) } else { Vec::new() };
    let global_count = globals.len() as u64;
    Owned { grid, offsets, items, globals, global_count }
}

/// The cost, and the lists by line with so much room to spare, by the model and by the port.
fn asked(s: &Standing, r: &mut Random) -> Result<u32, String> {
    let t = &s.lists();
    let words = r.pick(&[0, 1, 2, 4]) as usize;
    let (mut wanted, mut got) = ([u64::MAX; 4], [u64::MAX; 4]);
    let number = model::visit_cost(t, &mut wanted[..words]);
    answers("port, cost,", (number, &wanted), (port::visit_cost(t, &mut got[..words]), &got))?;

    let (starts, listing) = (t.lines + 2 - r.below(3) as usize, (t.items.len() + 2).saturating_sub(r.below(3) as usize));
    let lent = || (vec![JUNK; starts], vec![JUNK; listing], [u64::MAX; 4]);
    let ((mut a, mut b, mut wanted), (mut c, mut d, mut got)) = (lent(), lent());
    let words = words.min(1);
    let number = model::lists_by_line(t, &mut a, &mut b, &mut wanted[..words]);
    answers("port, lists by line,", (number, &wanted), (port::lists_by_line(t, &mut c, &mut d, &mut got[..words]), &got))?;
    slices("starts", &a, &c)?;
    slices("listing", &b, &d)?;
    Ok(number)
}

/// Tables for a case: of a build in any sizing and mode of walk, or such as no build makes. None where a walk goes beyond the budget.
pub fn tables(lines: Coordinates, r: &mut Random) -> Option<Owned> {
    if r.once_in(3) {
        return Some(unbuilt(lines.len() as u32, r));
    }
    let (sizing, mode) = (r.pick(&[Sizing::Square, Sizing::Axes]), r.pick(&[Mode::Rust, Mode::Sided, Mode::Covering]));
    let t = model::tables(lines, sizing, mode, usize::MAX).ok()?;
    Some(Owned { grid: t.grid, offsets: t.offsets, items: t.items, global_count: t.globals.len() as u64, globals: t.globals })
}

impl Kind for Pairs {
    type Case = visit::Case;
    const NAME: &'static str = "pairs";
    const SIDES: &'static str = "port and model";

    fn draw(r: &mut Random) -> (&'static str, visit::Case) {
        let axes = r.once_in(2);
        visit::Case::draw(r, axes, 4)
    }

    fn check(case: &visit::Case) -> Result<&'static str, String> {
        let columns = Columns::new(&case.lines);
        let lines = columns.coordinates();
        let r = &mut Random::new(case.seed);
        let Some(mut t) = tables(lines, r) else { return Ok("not built") };
        if case.damage && !case.lines.is_empty() {
            t.damage(lines.len() as u32, r);
        }
        let s = Standing { grid: t.grid, lines, offsets: &t.offsets, items: &t.items, globals: &t.globals, global_count: t.global_count };
        asked(&s, r).map(word)
    }

    fn smaller(case: &visit::Case) -> Vec<visit::Case> {
        Visit::<false>::smaller(case)
    }

    fn show(case: &visit::Case) -> String {
        Visit::<false>::show(case)
    }
}
