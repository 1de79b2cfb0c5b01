//! Lines added to standing tables one at a time, which the Rust does not have: 1 to 500 after builds of 0 to 5,000 lines, in every mode and both sizings, and on any
//! grid. Each answer and every entry of the four slices, on success and on each refusal; ends on the grid's edges to the last bit; and at the end the tables of all
//! lines, counted and placed at once.

use super::build::Columns;
use super::visit::Case as Visited;
use super::{answers, float, show_grid, slices, word, Kind, JUNK};
use crate::cases;
use crate::model::{self, MOST_LINES, SCRATCH};
use crate::port;
use crate::random::{nudged, Random};
use crate::{Grid, Line, Sizing};

#[derive(Clone)]
pub struct Case {
    lines: Vec<Line>,
    /// The grid that the lines are placed on; where there is none, a build picks it.
    grid: Option<Grid>,
    axes: bool,
    mode: u32,
    /// The lines that are added; where there are none, so many are drawn on the grid.
    more: Vec<Line>,
    steps: usize,
    /// For lines, room and what is wrong with a call.
    seed: u64,
}

/// The cells and items that the steps of a case go over, together.
const WORK: usize = 20_000_000;

const NAMES: [&str; 4] = ["offsets", "items", "globals", "scratch"];

/// Standing tables in slices with something beyond them.
#[derive(Clone)]
struct Held {
    grid: Grid,
    lines: usize,
    slices: [Vec<u32>; 4],
    global_count: u64,
}

impl Held {
    /// One line by the model and by the port: they answer and leave the same, and that is what is held now.
    fn add(&mut self, mode: u32, line: &Line, out: usize) -> Result<(u32, [u64; 3]), String> {
        let mut by_port = self.slices.clone();
        let (mut wanted, mut got) = ([u64::MAX; 4], [u64::MAX; 4]);
        let number = model::add_line(&self.grid, mode, line, self.lines, self.slices.each_mut().map(|s| &mut s[..]), self.global_count, &mut wanted[..out]);
        let of_port = port::add_line(&self.grid, mode, line, self.lines, by_port.each_mut().map(|s| &mut s[..]), self.global_count, &mut got[..out]);
        let who = format!("port: line {} at {}", self.lines, line.map(float).join(" "));
        answers(&who, (number, &wanted), (of_port, &got))?;
        for (k, name) in NAMES.iter().enumerate() {
            slices(&format!("{who}: {name}"), &self.slices[k], &by_port[k])?;
        }
        if number == 0 {
            self.lines += 1;
            self.global_count = wanted[1];
        }
        Ok((number, [wanted[0], wanted[1], wanted[2]]))
    }

    fn total(&self) -> usize {
        self.slices[0][self.grid.cols as usize * self.grid.rows as usize] as usize
    }

    /// The slices with so many entries of items and globals; the scratch holds anything.
    fn room(&mut self, items: usize, globals: usize) {
        self.slices[1].resize(items, JUNK);
        self.slices[2].resize(globals, JUNK);
        self.slices[3].fill(JUNK);
    }
}

/// A coordinate on an axis: an edge of the grid or of a cell, or beside it to the last bit, or anywhere inside; seldom outside.
fn coordinate(r: &mut Random, low: f64, size: f64, count: u32) -> f64 {
    let far = low + count as f64 * size;
    let v = match r.below(12) {
        0 => low,
        1 | 2 => far,
        3 => low + (count.max(1) - 1) as f64 * size + size,
        4 | 5 => low + r.below(count as u64 + 1) as f64 * size,
        6 if r.once_in(4) => cases::coordinate(r, low, size, count.max(1)),
        _ => low + r.between(0.0, 1.0) * (far - low),
    };
    if r.once_in(3) {
        nudged(v, r.below(3) as i64 - 1)
    } else {
        v
    }
}

/// A line on or about the grid, often from where the last one ends.
pub fn line(r: &mut Random, g: &Grid, before: &[Line]) -> Line {
    let x = |r: &mut Random| coordinate(r, g.min_x, g.cell_width, g.cols);
    let y = |r: &mut Random| coordinate(r, g.min_y, g.cell_height, g.rows);
    match r.below(10) {
        0 => cases::segment(r, g).1,
        // from where the last line ends, as a chain grows
        1..=4 if !before.is_empty() => {
            let last = before[before.len() - 1];
            [last[2], last[3], x(r), y(r)]
        }
        5 => {
            let (a, b) = (x(r), y(r));
            [a, b, a, b]
        }
        6 => {
            let a = x(r);
            [a, y(r), a, y(r)]
        }
        _ => [x(r), y(r), x(r), y(r)],
    }
}

/// A call that goes wrong beside one that does not: what it leaves is compared, and then given up.
fn wrong(r: &mut Random, held: &Held, mode: u32, line: &Line) -> Result<u32, String> {
    let mut h = held.clone();
    let (mut line, mut mode, mut out) = (*line, mode, 3);
    match r.below(10) {
        0 => h.slices[3].truncate(SCRATCH - 1),
        1 => h.lines = r.pick(&[MOST_LINES, MOST_LINES + 1, usize::MAX]),
        2 => line[r.below(4) as usize] = cases::bad(r),
        3 => (h.grid.cols, h.grid.rows) = r.pick(&[(0, 0), (0, 1), (4005, 1)]),
        4 => {
            // an item that is out of order, with an end that may be off the grid: 10 comes first
            let k = r.below(h.slices[1].len().max(1) as u64) as usize;
            if let Some(item) = h.slices[1].get_mut(k) {
                *item = item.wrapping_add(r.pick(&[1, u32::MAX, MOST_LINES as u32]));
            }
            line[r.below(4) as usize] = r.pick(&[-1e9, 1e9]);
        }
        5 => h.slices[0][0] = 1,
        6 => h.global_count = h.slices[2].len() as u64 + 1,
        7 => out = r.below(3) as usize,
        8 => mode = 3,
        _ => line[r.below(4) as usize] = r.pick(&[-1e9, 1e9]),
    }
    h.add(mode, &line, out).map(|(number, _)| number)
}

pub struct Added;

impl Kind for Added {
    type Case = Case;
    const NAME: &'static str = "added";
    const SIDES: &'static str = "port and model, lines added beside all placed at once";

    fn draw(r: &mut Random) -> (&'static str, Case) {
        let axes = r.once_in(2);
        let steps = r.pick(&[1, 3, 10, 30, 100, 500]);
        let (shape, lines, grid) = match r.below(10) {
            0 => ("no lines", vec![], None),
            1..=4 => {
                let v = Visited::draw(r, axes, u64::MAX).1;
                (if v.grid.is_some() { "on any grid" } else { "after a build" }, v.lines, v.grid)
            }
            5 => ("a year", cases::year(r, 5000), None),
            _ => {
                let most = r.pick(&[1, 10, 100, 1000, 5000]);
                let (_, lines) = if axes { cases::apart(r, most) } else { cases::lines(r, most) };
                ("after a build", lines, None)
            }
        };
        (shape, Case { lines, grid, axes, mode: r.below(3) as u32, more: vec![], steps, seed: r.bits() })
    }

    fn check(case: &Case) -> Result<&'static str, String> {
        let r = &mut Random::new(case.seed);
        let mode = model::mode_of(case.mode).unwrap();
        let columns = Columns::new(&case.lines);
        let (grid, offsets, items, globals) = match case.grid {
            Some(grid) => match model::listed_on(mode, &grid, columns.coordinates()) {
                Ok(t) => (grid, t.offsets(), t.lists.concat(), t.globals),
                Err(_) => return Ok("not built"),
            },
            None => match model::tables(columns.coordinates(), if case.axes { Sizing::Axes } else { Sizing::Square }, mode, usize::MAX) {
                Ok(t) => (t.grid, t.offsets, t.items, t.globals),
                Err(_) => return Ok("not built"),
            },
        };
        let (total, found) = (items.len(), globals.len());
        let mut held = Held { grid, lines: case.lines.len(), slices: [offsets, items, globals, vec![JUNK; SCRATCH + r.below(3) as usize]], global_count: found as u64 };
        let spare = held.slices[0].len() + r.below(3) as usize;
        held.slices[0].resize(spare, JUNK);
        let mut all = case.lines.clone();
        let drawn = case.more.is_empty();
        let steps = if drawn { case.steps.min(WORK / (held.slices[0].len() + total + 1) + 1) } else { case.more.len() };
        let mut refused = 0;
        for k in 0..steps {
            let next = if drawn { line(r, &grid, &all) } else { case.more[k] };
            let (total, found) = (held.total(), held.global_count as usize);
            if r.once_in(3) {
                held.room(total + r.below(40) as usize, found + r.below(2) as usize);
                let number = wrong(r, &held, case.mode, &next)?;
                refused = refused.max(number);
            }
            // one short of what is needed, then exactly that or more
            let mut most = held.clone();
            most.room(total + 2048, found + 1);
            let (number, now) = most.add(case.mode, &next, 3)?;
            if number != 0 {
                refused = number;
                continue;
            }
            let (needs, in_all) = (now[0] as usize, now[1] as usize);
            if needs > total {
                held.room(needs - 1, found);
                if held.add(case.mode, &next, 3)?.0 != 5 {
                    return Err(format!("one short of {needs} items is not refused by 5"));
                }
            }
            if in_all > found {
                held.room(needs, found);
                if held.add(case.mode, &next, 3)?.0 != 6 {
                    return Err(format!("one short of {in_all} globals is not refused by 6"));
                }
            }
            held.room(needs + r.pick(&[0, 0, 1, 9]), in_all + r.pick(&[0, 1, 5]));
            held.add(case.mode, &next, 3)?;
            all.push(next);
        }
        if all.len() == case.lines.len() {
            return Ok(word(refused));
        }
        let columns = Columns::new(&all);
        let t = model::listed_on(mode, &grid, columns.coordinates()).map_err(|i| format!("line {i} was added, and its walk is refused"))?;
        // what is beyond the tables was compared after each line
        for (name, wanted, got) in [("offsets", t.offsets(), &held.slices[0]), ("items", t.lists.concat(), &held.slices[1]), ("globals", t.globals, &held.slices[2])] {
            slices(&format!("added beside all at once: {name}"), &wanted, &got[..wanted.len()])?;
        }
        Ok(if held.global_count as usize > found { "added, some global" } else { "added" })
    }

    fn smaller(case: &Case) -> Vec<Case> {
        let n = case.lines.len();
        let mut all = Vec::new();
        for k in [n / 2, n.saturating_sub(1)] {
            if k > 0 && k < n {
                all.push(Case { lines: case.lines[..k].to_vec(), ..case.clone() });
                all.push(Case { lines: case.lines[n - k..].to_vec(), ..case.clone() });
            }
        }
        for k in [case.steps / 2, case.steps.saturating_sub(1)] {
            if k > 0 && k < case.steps {
                all.push(Case { steps: k, ..case.clone() });
            }
        }
        all
    }

    fn show(c: &Case) -> String {
        let lines: Vec<String> = c.lines.iter().take(12).map(|l| l.map(float).join(" ")).collect();
        let grid = c.grid.as_ref().map(show_grid).unwrap_or_default();
        format!("{grid}{} lines, {} steps, seed {}, axes {}, mode {}\n{}\n", c.lines.len(), c.steps, c.seed, c.axes, c.mode, lines.join("\n"))
    }
}

/// 14 at its edges, to the last bit; a line of the build itself that is refused by 14; and a walk inside the grid that is refused by 7.
pub fn fixed() -> Vec<(&'static str, Case)> {
    let on = |min_x, size, cols, rows| Grid { min_x, min_y: 0.0, cell_width: size, cell_height: size, cols, rows };
    let case = |lines: Vec<Line>, grid, mode, more: Vec<Line>| Case { lines, grid, axes: false, mode, steps: more.len(), more, seed: 1 };
    let mut all = Vec::new();
    for mode in 0..3 {
        for (size, cols) in [(0.1, 6), (0.1, 13), (1.0, 4), (0.3, 7)] {
            let far = cols as f64 * size;
            let ends = [far, nudged(far, 1), nudged(far, -1), 0.0, -0.0, -5e-324, nudged(0.0, 1)];
            let more = ends.iter().flat_map(|&v| [[v, 0.05, 0.05, 0.05], [0.05, v, 0.05, 0.05], [0.05, 0.05, v, 0.05], [0.05, 0.05, 0.05, v]]).collect();
            all.push(("14 at its edges", case(vec![[0.05, 0.05, 0.05, 0.05]], Some(on(0.0, size, cols, cols)), mode, more)));
        }
        let own = [-977318582.1337959, 3.0, 1e9, 3.0];
        all.push(("a line of the build itself", case(vec![own], None, mode, vec![own])));
        all.push(("7 inside the grid", case(vec![[0.0, 0.0, 1.0, 1.0]], Some(on(-18.2, 2.6, 8, 2)), mode, vec![[0.0, 0.0, 1e-300, 4.16]])));
    }
    all
}
