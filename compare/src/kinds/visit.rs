//! Visits: whole, in batches, test by test, and tables that do not fit. The Rust's visit reads no cell size, so it is asked for every grid.

use super::build::Columns;
use super::{answers, float, rounder, show_grid, slices, Kind, JUNK};
use crate::cases;
use crate::model::{self, Standing, Test};
use crate::oracle::{self, Built};
use crate::port;
use crate::random::Random;
use crate::{Grid, Line, Mode, Sizing};

#[derive(Clone)]
pub struct Case {
    pub lines: Vec<Line>,
    /// The grid that the lines are placed on; where there is none, a build picks it.
    pub grid: Option<Grid>,
    /// For batch sizes, bookmarks and damage.
    pub seed: u64,
    pub damage: bool,
}

type Batch = fn(&Standing, &[Test], u64, &mut [u32], &mut [u32], &mut [u64]) -> u32;
type TestAt = fn(&Standing, &[Test], u64, &mut [u64]) -> u32;

fn entries() -> Vec<(&'static str, Batch, TestAt)> {
    vec![
        ("model", model::batch, model::test_at),
        ("port", |s, _, b, first, second, out| port::batch(s, b, first, second, out), |s, _, b, out| port::test_at(s, b, out)),
    ]
}

/// One batch by every entry: they leave the same, and that is what the model leaves.
fn batch(s: &Standing, tests: &[Test], bookmark: u64, lent: (usize, usize)) -> Result<(u32, [u64; 3], Vec<u32>, Vec<u32>), String> {
    let mut wanted: Option<(u32, [u64; 3], Vec<u32>, Vec<u32>)> = None;
    for (who, batch, _) in entries() {
        let (mut first, mut second) = (vec![JUNK; lent.0], vec![JUNK; lent.1]);
        let mut out = [u64::MAX; 8];
        let number = batch(s, tests, bookmark, &mut first, &mut second, &mut out);
        let values = if number == 0 { [out[0], out[1], out[2]] } else { [out[0], 0, 0] };
        let got = (number, values, first, second);
        let w = wanted.get_or_insert_with(|| got.clone());
        answers(&format!("{who}, batch from {bookmark} into {lent:?},"), (w.0, &w.1), (got.0, &got.1))?;
        slices(&format!("{who}: first"), &w.2, &got.2)?;
        slices(&format!("{who}: second"), &w.3, &got.3)?;
    }
    Ok(wanted.unwrap())
}

fn test_at(s: &Standing, tests: &[Test], bookmark: u64) -> Result<u32, String> {
    let mut wanted: Option<(u32, Vec<u64>)> = None;
    for (who, _, test_at) in entries() {
        let mut out = [u64::MAX; 8];
        let number = test_at(s, tests, bookmark, &mut out);
        let got = (number, out[..if number == 0 { 6 } else { 1 }].to_vec());
        let w = wanted.get_or_insert_with(|| got.clone());
        answers(&format!("{who}, test at {bookmark},"), (w.0, &w.1), (got.0, &got.1))?;
    }
    Ok(wanted.unwrap().0)
}

impl Case {
    /// Lines for a visit: by axis sized by a build, or placed on a grid of any two sizes.
    pub fn draw(r: &mut Random, axes: bool, often: u64) -> (&'static str, Case) {
        let most = r.pick(&[3, 8, 30, 100, 300]);
        let (shape, lines, grid) = if !axes {
            let (shape, lines) = cases::lines(r, most);
            (shape, lines, None)
        } else if r.once_in(2) {
            let (shape, lines) = cases::apart(r, most);
            (shape, lines, None)
        } else {
            // every call checks all cells: few grids of many
            let small = |g: &Grid| g.cols * g.rows <= 10_000;
            let grid = std::iter::repeat_with(|| (cases::oblong(r), r.once_in(30))).find(|(g, any)| *any || small(g)).unwrap().0;
            let n = 1 + r.below(most as u64) as usize;
            let ends = |line: &Line| model::walk(Mode::Rust, &grid, line, &mut Vec::new()).is_some();
            ("on any grid", std::iter::repeat_with(|| cases::segment(r, &grid).1).filter(ends).take(n).collect(), Some(grid))
        };
        let damage = r.once_in(often);
        (if damage { "damaged tables" } else { shape }, Case { lines, grid, seed: r.bits(), damage })
    }

    /// The tables as the Rust has them: those that it builds, or, where the sizing is by axis, those that the model gives it. None where a walk goes
    /// beyond the budget.
    pub fn tables(&self, axes: bool) -> Option<(Grid, Built)> {
        let columns = Columns::new(&self.lines);
        let lines = columns.coordinates();
        if let Some(grid) = self.grid {
            let t = model::listed_on(Mode::Rust, &grid, lines).ok()?;
            return Some((grid, Built::standing(&grid, &t.offsets(), &t.lists.concat(), &t.globals)));
        }
        let sizing = if axes { Sizing::Axes } else { Sizing::Square };
        let t = model::tables(lines, sizing, Mode::Rust, usize::MAX).ok()?;
        if axes {
            return Some((t.grid, Built::standing(&t.grid, &t.offsets, &t.items, &t.globals)));
        }
        let built = oracle::build(&oracle::Lines::new(&self.lines));
        Some((built.grid(), built))
    }
}

pub struct Visit<const AXES: bool>;

impl<const AXES: bool> Kind for Visit<AXES> {
    type Case = Case;
    const NAME: &'static str = if AXES { "axes-visit" } else { "visit" };

    fn draw(r: &mut Random) -> (&'static str, Case) {
        Case::draw(r, AXES, 4)
    }

    fn check(case: &Case) -> Result<&'static str, String> {
        let columns = Columns::new(&case.lines);
        let lines = columns.coordinates();
        let Some((grid, built)) = case.tables(AXES) else {
            return Ok("not built");
        };
        let rust_lines = oracle::Lines::new(&case.lines);
        let (offsets, items, globals) = (built.offsets(), built.items(), built.globals());
        let s = Standing { grid, lines, offsets: &offsets, items, globals: &globals, global_count: globals.len() as u64 };
        let r = &mut Random::new(case.seed);
        if case.damage {
            return damaged(&s, r);
        }
        let (rust_tests, rust_pairs) = built.visit(&rust_lines);
        let tests = s.tests();
        let total = tests.len() as u64;
        answers("model, whole visit,", (0, &[rust_tests, rust_tests]), (0, &[total, s.total()]))?;

        // the whole visit, with room to spare
        let room = rust_pairs.len() + r.below(5) as usize + 1;
        let (number, values, first, second) = batch(&s, &tests, 0, (room, room))?;
        answers("whole visit", (0, &[rust_tests, rust_pairs.len() as u64, rust_tests]), (number, &values))?;
        let column = |k: fn(&(u32, u32)) -> u32| rust_pairs.iter().map(k).chain(std::iter::repeat(0)).take(room).collect::<Vec<_>>();
        slices("first", &column(|p| p.0), &first)?;
        slices("second", &column(|p| p.1), &second)?;

        // in batches: joined end to end they are the whole
        let most = r.pick(&[1, 2, 7, 100, 4096]);
        let (mut at, mut joined, mut overlaps, mut calls) = (0, Vec::new(), 0, 0);
        while at < total && calls < 400 {
            calls += 1;
            let room = 1 + r.below(most) as usize;
            let (_, values, first, second) = batch(&s, &tests, at, (room, room))?;
            joined.extend(first.into_iter().zip(second).take(values[1] as usize));
            overlaps += values[1] as usize;
            at = values[2];
        }
        if joined[..] != rust_pairs[..overlaps] || (at == total && overlaps != rust_pairs.len()) {
            return Err(format!("batches of at most {most} joined are not the whole visit"));
        }

        // one test by bookmark, the end mark, and refusals
        for _ in 0..20 {
            let k = r.below(total + 1);
            test_at(&s, &tests, k)?;
            batch(&s, &tests, k, (0, 0))?;
        }
        test_at(&s, &tests, total)?;
        for beyond in [total + 1, total + 1 + r.bits() % 1000, u64::MAX] {
            test_at(&s, &tests, beyond)?;
            batch(&s, &tests, beyond, (3, 3))?;
        }
        batch(&s, &tests, 0, (3, 4))?;
        Ok(if globals.is_empty() { "visited" } else { "visited with globals" })
    }

    fn smaller(case: &Case) -> Vec<Case> {
        let mut all = Vec::new();
        let n = case.lines.len();
        let mut part = n / 2;
        while part > 0 {
            for k in 0..n.div_ceil(part) {
                let mut c = case.clone();
                c.lines.drain((k * part).min(n)..((k + 1) * part).min(n));
                if c.lines.len() < n && !c.lines.is_empty() {
                    all.push(c);
                }
            }
            part /= 2;
        }
        if n <= 8 {
            for i in 0..n {
                for k in 0..4 {
                    for v in rounder(case.lines[i][k]) {
                        let mut c = case.clone();
                        c.lines[i][k] = v;
                        all.push(c);
                    }
                }
            }
        }
        all
    }

    fn show(case: &Case) -> String {
        let lines: Vec<String> = case.lines.iter().take(40).map(|l| format!("  {}", l.map(float).join(", "))).collect();
        let grid = case.grid.as_ref().map_or(String::new(), show_grid);
        format!("{grid}{} lines, seed {}, damage {}\n{}\n", case.lines.len(), case.seed, case.damage, lines.join("\n"))
    }
}

/// Tables that can be changed.
pub struct Owned {
    pub grid: Grid,
    pub offsets: Vec<u32>,
    pub items: Vec<u32>,
    pub globals: Vec<u32>,
    pub global_count: u64,
}

impl Owned {
    pub fn of(s: &Standing) -> Self {
        Owned { grid: s.grid, offsets: s.offsets.to_vec(), items: s.items.to_vec(), globals: s.globals.to_vec(), global_count: s.global_count }
    }

    /// Other lists of n lines in the place of those that are there: fit, and such as no walk makes. A line may be in a list and global.
    pub fn make_up(&mut self, n: u32, r: &mut Random) {
        let cells = self.grid.cols as usize * self.grid.rows as usize;
        let (often, most) = (1 + cells as u64 / 200, 1 + r.below(6));
        let mut list = |some: bool| -> Vec<u32> {
            if !some {
                return Vec::new();
            }
            let mut all: Vec<u32> = (0..r.below(most + 1)).map(|_| r.below(n as u64) as u32).collect();
            all.sort_unstable();
            all.dedup();
            all
        };
        self.globals = list(true);
        self.global_count = self.globals.len() as u64;
        (self.offsets, self.items) = (vec![0], Vec::new());
        for cell in 0..cells {
            self.items.extend(list((cell as u64).wrapping_mul(0x9e3779b97f4a7c15) >> 32 & 0xffff < 0x10000 / often));
            self.offsets.push(self.items.len() as u32);
        }
    }

    /// One thing wrong with tables of n lines that were right. Most are refused with 10; the model says which are not.
    pub fn damage(&mut self, n: u32, r: &mut Random) {
        let Owned { grid, offsets, items, globals, global_count } = self;
        match r.below(9) {
            0 => offsets.truncate(r.below(offsets.len() as u64) as usize),
            1 => offsets[0] = 1,
            2 => {
                let k = r.below(offsets.len() as u64) as usize;
                offsets[k] = r.pick(&[0, u32::MAX, items.len() as u32, items.len() as u32 + 1]);
            }
            3 => items.truncate(r.below(items.len().max(1) as u64) as usize),
            4..=5 if !items.is_empty() => {
                let k = r.below(items.len() as u64) as usize;
                items[k] = r.pick(&[0, n, n - 1, u32::MAX, items[k / 2]]);
            }
            6 => {
                globals.push(r.pick(&[n, 0, u32::MAX, n - 1]));
                globals.push(r.pick(&[0, n - 1]));
                *global_count = globals.len() as u64;
            }
            7 => *global_count = globals.len() as u64 + 1 + r.pick(&[0, 1, u64::MAX / 2]),
            _ => {
                let g = *grid;
                *grid = r.pick(&[
                    Grid { cols: g.cols + 1, ..g },
                    Grid { rows: 4005, ..g },
                    Grid { cell_width: 0.0, ..g },
                    Grid { cell_height: 0.0, ..g },
                    Grid { cols: 0, rows: 0, ..g },
                ]);
            }
        }
    }
}

fn damaged(s: &Standing, r: &mut Random) -> Result<&'static str, String> {
    let mut t = Owned::of(s);
    t.damage(s.lines.len() as u32, r);
    let d = Standing { grid: t.grid, lines: s.lines, offsets: &t.offsets, items: &t.items, globals: &t.globals, global_count: t.global_count };
    let fits = model::grid_fits(&t.grid) && d.fits();
    let tests = if fits { d.tests() } else { Vec::new() };
    let bookmark = r.pick(&[0, 0, 1, u64::MAX]);
    let (number, ..) = batch(&d, &tests, bookmark, (5, 5))?;
    test_at(&d, &tests, bookmark)?;
    Ok(super::word(number))
}
