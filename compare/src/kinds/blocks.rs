//! Counts per block: summaries of the tables that a build leaves, in any sizing and mode of walk, of lines placed on grids whose columns fill their
//! blocks, lack a cell or have one too many, and of tables that no build made or that are damaged; and queries over rectangles of blocks, of the tables'
//! own summary and of any numbers; and lines added to tables and summary together, with summaries that disagree or are short. Every entry of every slice is
//! compared.

use super::added;
use super::build::Columns;
use super::visit::{self, Owned, Visit};
use super::{answers, slices, word, Kind, JUNK};
use crate::model::{self, Lists, Standing, SCRATCH};
use crate::port;
use crate::random::Random;
use crate::{Grid, Mode, Sizing};

pub struct Blocks;

/// The rectangles that are asked of one summary.
const RECTANGLES: usize = 40;

fn made(t: &Lists, room: usize) -> Result<(u32, Vec<u32>), String> {
    let (mut of_model, mut of_port) = (vec![JUNK; room], vec![JUNK; room]);
    let (mut wanted, mut out) = ([u64::MAX; 2], [u64::MAX; 2]);
    let number = model::block_counts(t, &mut of_model, &mut wanted);
    let got = port::block_counts(t, &mut of_port, &mut out);
    answers(&format!("port: a summary with room for {room}"), (number, &wanted), (got, &out))?;
    slices("summary", &of_model, &of_port)?;
    Ok((number, of_port))
}

fn asked(g: &Grid, summary: &[u32], low: [u32; 2], high: [u32; 2]) -> Result<(u32, u64), String> {
    let (mut wanted, mut out) = ([u64::MAX; 2], [u64::MAX; 2]);
    let number = model::items_in_blocks(g, summary, low, high, &mut wanted);
    let got = port::items_in_blocks(g, summary, low, high, &mut out);
    answers(&format!("port: the blocks from {low:?} to {high:?}"), (number, &wanted), (got, &out))?;
    Ok((number, out[0]))
}

/// A block of the grid, most often; else one that lies beyond an end.
fn block(r: &mut Random, g: &Grid) -> [u32; 2] {
    let mut along = |cells: u32| {
        let n = model::blocks_along(cells);
        match r.below(12) {
            0 => r.pick(&[n as u32, n as u32 + 1, u32::MAX]),
            1 => n.saturating_sub(1) as u32,
            _ => r.below(n.max(1)) as u32,
        }
    };
    [along(g.rows), along(g.cols)]
}

/// The items in the lists of the cells of a rectangle of blocks, cell by cell.
fn cell_by_cell(t: &Lists, low: [u32; 2], high: [u32; 2]) -> u64 {
    let cells = (0..t.grid.rows).flat_map(|row| (0..t.grid.cols).map(move |col| (row, col)));
    let inside = cells.filter(|&(row, col)| (low[0]..=high[0]).contains(&(row / 16)) && (low[1]..=high[1]).contains(&(col / 16)));
    let number = |(row, col)| (row * t.grid.cols + col) as usize;
    inside.map(|c| (t.offsets[number(c) + 1] - t.offsets[number(c)]) as u64).sum()
}

/// Summaries of one set of tables, with room to spare, exactly enough and one short, and rectangles of what was made.
fn compared(t: &Lists, r: &mut Random) -> Result<u32, String> {
    let blocks = (model::blocks_along(t.grid.cols) * model::blocks_along(t.grid.rows)) as usize;
    let (number, summary) = made(t, blocks + r.below(20) as usize)?;
    made(t, blocks)?;
    if blocks > 0 {
        made(t, blocks - 1)?;
    }
    if number == 0 {
        let total: u64 = summary.iter().map(|&n| n as u64).sum();
        if total != t.offsets[t.grid.cols as usize * t.grid.rows as usize] as u64 {
            return Err(format!("the blocks have {total} items in all"));
        }
    }
    // numbers that no tables have: the query takes any
    let any: Vec<u32> = (0..blocks + 2).map(|_| r.pick(&[0, 1, 65_536, u32::MAX - 1, u32::MAX])).collect();
    for k in 0..RECTANGLES {
        let (low, high) = (block(r, &t.grid), block(r, &t.grid));
        let (low, high) = if r.once_in(5) { (low, high) } else { ([low[0].min(high[0]), low[1].min(high[1])], [low[0].max(high[0]), low[1].max(high[1])]) };
        let (answer, items) = asked(&t.grid, &summary, low, high)?;
        if number == 0 && answer == 0 && k < 5 && items != cell_by_cell(t, low, high) {
            return Err(format!("the blocks from {low:?} to {high:?} have {items} items, which is not what their cells list"));
        }
        asked(&t.grid, &any, low, high)?;
        asked(&t.grid, &any[..blocks.saturating_sub(1)], low, high)?;
    }
    Ok(number)
}

/// Lines added to the tables and to their summary, one at a time, some of them with something wrong.
fn grown(t: &Owned, n: usize, summary: &[u32], r: &mut Random) -> Result<(), String> {
    let (grid, mut n, mut count) = (t.grid, n, t.global_count);
    let blocks = (model::blocks_along(grid.cols) * model::blocks_along(grid.rows)) as usize;
    let mut held = [t.offsets.clone(), t.items.clone(), t.globals.clone(), summary.to_vec(), vec![JUNK; SCRATCH]];
    let mut before = Vec::new();
    for _ in 0..1 + r.below(8) {
        let line = added::line(r, &grid, &before);
        let total = held[0][grid.cols as usize * grid.rows as usize] as usize;
        held[1].resize(total + r.pick(&[0, 3, 2_048]), JUNK);
        held[2].resize(count as usize + r.below(2) as usize, JUNK);
        held[4].fill(JUNK);
        // what is wrong is tried on a copy, and given up
        let mut tried = held.clone();
        let (wrong, at) = (r.below(6), r.below(tried[3].len().max(1) as u64) as usize);
        match wrong {
            0 if !tried[3].is_empty() => tried[3][at] = tried[3][at].wrapping_add(r.pick(&[1, u32::MAX])),
            1 => tried[3].truncate(blocks.saturating_sub(r.below(2) as usize)),
            2 => tried[4].truncate(SCRATCH - r.below(2) as usize),
            3 => tried[0][0] = 1,
            4 => tried[0].truncate(1 + r.below(total as u64 + 1) as usize),
            _ => {}
        }
        let mode = if r.once_in(40) { 3 } else { r.below(3) as u32 };
        let lent = if wrong < 5 { &mut tried } else { &mut held };
        let mut by_port = lent.clone();
        let (mut wanted, mut out) = ([u64::MAX; 4], [u64::MAX; 4]);
        let words = if r.once_in(30) { 2 } else { 3 };
        let number = model::add_line_blocks(&grid, mode, &line, n, lent.each_mut().map(|s| &mut s[..]), count, &mut wanted[..words]);
        let got = port::add_line_blocks(&grid, mode, &line, n, by_port.each_mut().map(|s| &mut s[..]), count, &mut out[..words]);
        let who = format!("port: line {n} at {line:?} in mode {mode}");
        answers(&who, (number, &wanted), (got, &out))?;
        for (name, k) in ["offsets", "items", "globals", "summary", "scratch"].iter().zip(0..) {
            slices(&format!("{who}: {name}"), &lent[k], &by_port[k])?;
        }
        if number == 0 && wrong >= 5 {
            (n, count) = (n + 1, wanted[1]);
            before.push(line);
        }
    }
    Ok(())
}

/// Grids whose columns or rows fill their blocks, lack a cell or have one too many, and the largest.
pub fn fixed() -> Vec<(&'static str, visit::Case)> {
    let counts = [(1, 1), (15, 1), (16, 16), (17, 16), (16, 17), (31, 2), (32, 33), (33, 32), (4_004, 1), (1, 4_004), (4_004, 250), (3_898, 257), (1_001, 1_001)];
    let line = |cols: u32, rows: u32, k: u32| {
        let (w, h) = (cols as f64, rows as f64);
        [w * (k % 7) as f64 / 7.0, h * (k % 5) as f64 / 5.0, w * (k % 11) as f64 / 11.0, h * (k % 3) as f64 / 3.0]
    };
    let case = |(cols, rows): (u32, u32)| visit::Case {
        lines: (0..60).map(|k| line(cols, rows, k)).collect(),
        grid: Some(Grid { min_x: 0.0, min_y: 0.0, cell_width: 1.0, cell_height: 1.0, cols, rows }),
        seed: cols as u64 * 5_000 + rows as u64,
        damage: false,
    };
    counts.into_iter().map(|c| ("at the edges of blocks", case(c))).collect()
}

impl Kind for Blocks {
    type Case = visit::Case;
    const NAME: &'static str = "blocks";
    const SIDES: &'static str = "port and model";

    fn draw(r: &mut Random) -> (&'static str, visit::Case) {
        let axes = r.once_in(2);
        visit::Case::draw(r, axes, 6)
    }

    fn check(case: &visit::Case) -> Result<&'static str, String> {
        let columns = Columns::new(&case.lines);
        let lines = columns.coordinates();
        let r = &mut Random::new(case.seed);
        let (sizing, mode) = (r.pick(&[Sizing::Square, Sizing::Axes]), r.pick(&[Mode::Rust, Mode::Sided, Mode::Covering]));
        let mut t = match case.grid {
            Some(grid) => match model::listed_on(mode, &grid, lines) {
                Ok(t) => Owned { grid, offsets: t.offsets(), items: t.lists.concat(), global_count: t.globals.len() as u64, globals: t.globals },
                Err(_) => return Ok("not built"),
            },
            None => match model::tables(lines, sizing, mode, usize::MAX) {
                Ok(t) => Owned { grid: t.grid, offsets: t.offsets, items: t.items, global_count: t.globals.len() as u64, globals: t.globals },
                Err(_) => return Ok("not built"),
            },
        };
        if r.once_in(4) && !case.lines.is_empty() {
            t.make_up(case.lines.len() as u32, r);
        }
        if case.damage && !case.lines.is_empty() {
            t.damage(case.lines.len() as u32, r);
        }
        let s = Standing { grid: t.grid, lines, offsets: &t.offsets, items: &t.items, globals: &t.globals, global_count: t.global_count };
        let mut t = s.lists();
        if r.once_in(50) {
            t.lines = model::MOST_LINES + 1;
        }
        let number = compared(&t, r)?;
        if number == 0 && t.lines <= model::MOST_LINES {
            let blocks = (model::blocks_along(t.grid.cols) * model::blocks_along(t.grid.rows)) as usize;
            let (_, summary) = made(&t, blocks + r.below(3) as usize)?;
            grown(&Owned::of(&s), t.lines, &summary, r)?;
        }
        Ok(word(number))
    }

    fn smaller(case: &visit::Case) -> Vec<visit::Case> {
        Visit::<false>::smaller(case)
    }

    fn show(case: &visit::Case) -> String {
        Visit::<false>::show(case)
    }
}
