//! Several benches, which the Rust does not have: lines shared among 1 to 8 of them, counted on one grid in one mode, and the tables added in any order;
//! adding by itself, near 65,536; the agreed grid of any number of lines; and tables on a given grid. Each answer and every entry of every lent slice.

use super::build::Columns;
use super::{answers, float, rounder, show_grid, slices, word, Kind, JUNK};
use crate::cases;
use crate::model::{self, Coordinates, SCRATCH};
use crate::port;
use crate::random::Random;
use crate::{Grid, Line};

#[derive(Clone)]
pub enum Case {
    Sharing(Sharing),
    Adding { a: Vec<u32>, b: Vec<u32>, out: usize },
    Agreed { corners: Line, lines: usize, sizing: u32, out: usize },
}

/// Lines, each with the bench that counts it.
#[derive(Clone)]
pub struct Sharing {
    lines: Vec<Line>,
    benches: Vec<usize>,
    grid: Grid,
    mode: u32,
    /// The entries of each count table beyond cells + 1, and of the other slices beyond what is needed.
    spare: i64,
    scratch: usize,
    out: usize,
    /// For the order within a share and the order of adding.
    seed: u64,
}

/// How many modes of walk there are.
fn modes() -> u32 {
    (0..).find(|&m| model::mode_of(m).is_none()).unwrap()
}

pub struct Counts;

impl Kind for Counts {
    type Case = Case;
    const NAME: &'static str = "counts";
    const SIDES: &'static str = "port and model, benches beside a single count";

    fn draw(r: &mut Random) -> (&'static str, Case) {
        match r.below(8) {
            0 => ("adding", adding(r)),
            1 => ("agreed grid", agreed(r)),
            _ => sharing(r),
        }
    }

    fn check(case: &Case) -> Result<&'static str, String> {
        match case {
            Case::Sharing(s) => check_sharing(s),
            Case::Adding { a, b, out } => {
                let (mut by_model, mut by_port) = (a.clone(), a.clone());
                let (mut wanted, mut got) = (vec![u64::MAX; *out], vec![u64::MAX; *out]);
                let number = model::add(&mut by_model, b, &mut wanted);
                answers("port", (number, &wanted), (port::add(&mut by_port, b, &mut got), &got))?;
                slices("port: the sum", &by_model, &by_port)?;
                Ok(word(number))
            }
            Case::Agreed { corners, lines, sizing, out } => {
                let (mut wanted, mut got) = (vec![u64::MAX; *out], vec![u64::MAX; *out]);
                let number = model::agreed_grid(corners, *lines, *sizing, &mut wanted);
                answers("port", (number, &wanted), (port::agreed_grid(corners, *lines, *sizing, &mut got), &got))?;
                if number == 0 && !model::grid_fits(&Grid::from_words(got[..6].try_into().unwrap())) {
                    return Err("the agreed grid is not fit".to_string());
                }
                Ok(word(number))
            }
        }
    }

    fn smaller(case: &Case) -> Vec<Case> {
        let mut all = Vec::new();
        match case {
            Case::Sharing(s) => {
                let n = s.lines.len();
                let mut part = n / 2;
                while part > 0 {
                    for k in 0..n.div_ceil(part).min(16) {
                        let mut c = s.clone();
                        let range = (k * part).min(n)..((k + 1) * part).min(n);
                        c.lines.drain(range.clone());
                        c.benches.drain(range);
                        all.push(Case::Sharing(c));
                    }
                    part /= 2;
                }
                if s.benches.iter().any(|&b| b > 0) {
                    all.push(Case::Sharing(Sharing { benches: s.benches.iter().map(|b| b / 2).collect(), ..s.clone() }));
                }
            }
            Case::Adding { a, b, out } => {
                for k in 0..a.len().min(b.len()) {
                    let (mut a, mut b) = (a.clone(), b.clone());
                    a.remove(k);
                    b.remove(k);
                    all.push(Case::Adding { a, b, out: *out });
                }
            }
            Case::Agreed { corners, lines, sizing, out } => {
                for k in 0..4 {
                    for v in rounder(corners[k]) {
                        let mut corners = *corners;
                        corners[k] = v;
                        all.push(Case::Agreed { corners, lines: *lines, sizing: *sizing, out: *out });
                    }
                }
            }
        }
        all
    }

    fn show(case: &Case) -> String {
        match case {
            Case::Sharing(s) => {
                let lines: Vec<String> =
                    s.lines.iter().zip(&s.benches).take(40).map(|(l, b)| format!("  bench {b}: {}", l.map(float).join(", "))).collect();
                format!(
                    "{} lines\n{}\n{}mode {}, spare {}, scratch {}, out {}, seed {}\n",
                    s.lines.len(), lines.join("\n"), show_grid(&s.grid), s.mode, s.spare, s.scratch, s.out, s.seed
                )
            }
            Case::Adding { a, b, out } => format!("{a:?}\n{b:?}\nout {out}\n"),
            Case::Agreed { corners, lines, sizing, out } => {
                format!("corners {}, {lines} lines, sizing {sizing}, out {out}\n", corners.map(float).join(", "))
            }
        }
    }
}

// ---- draws

/// Entries about 65,536 and anywhere in 32 bits, in tables of one length or of two.
fn adding(r: &mut Random) -> Case {
    let n = r.pick(&[0, 1, 2, 3, 10, 100]);
    let entry = |r: &mut Random| match r.below(5) {
        0 => 0,
        1 => r.below(65537) as u32,
        2 => r.pick(&[1, 32768, 65535, 65536]),
        3 => r.pick(&[65537, 1 << 31, u32::MAX]),
        _ => r.below(100) as u32,
    };
    // few tables are refused where most entries are small
    let small = r.once_in(2);
    let mut table = |n: usize| -> Vec<u32> { (0..n).map(|_| if small && !r.once_in(50) { r.below(32769) as u32 } else { entry(r) }).collect() };
    let (a, mut b) = (table(n), table(n));
    if r.once_in(10) {
        b.push(0);
    }
    Case::Adding { a, b, out: if r.once_in(20) { 0 } else { 1 } }
}

fn agreed(r: &mut Random) -> Case {
    let lines = r.pick(&[0, 1, 2, 4, 100, 65536, 65537, 700_800, 999_999, 1_000_000, 1_000_001, 1 << 30, (1 << 53) + 1, usize::MAX - 512, usize::MAX]);
    let lines = if r.once_in(2) { r.below(2_000_000) as usize } else { lines };
    let scale = r.pick(&[0.0, 1e-9, 1e-6, 1e-3, 1.0, 281.0, 1e6, 1e9]);
    let mut at = || (r.unit() * 2.0 - 1.0) * scale;
    let mut corners = [at(), at(), at(), at()];
    if r.once_in(4) {
        corners[2] = corners[0];
    }
    if r.once_in(8) {
        corners[r.below(4) as usize] = r.pick(&[0.0, -0.0, 1e9, -1e9]);
    }
    if r.once_in(20) {
        corners[r.below(4) as usize] = cases::bad(r);
    }
    let (sizing, out) = if r.once_in(20) { (r.pick(&[0, 1, 2, u32::MAX]), r.below(8) as usize) } else { (r.below(2) as u32, 6) };
    Case::Agreed { corners, lines, sizing, out }
}

fn sharing(r: &mut Random) -> (&'static str, Case) {
    let most = r.pick(&[0, 1, 3, 8, 30, 100, 300, 1000, 3000]);
    let lines = match most {
        0 => vec![],
        _ => if r.once_in(2) { cases::lines(r, most).1 } else { cases::apart(r, most).1 },
    };
    let (mut shape, grid) = if !lines.is_empty() && !r.once_in(4) {
        // the grid that benches would agree on, in either sizing
        let mut words = [0; 6];
        model::agreed_grid(&bounds(&lines), lines.len(), r.below(2) as u32, &mut words);
        ("on the agreed grid", Grid::from_words(words))
    } else {
        // any other: lines may leave it
        ("on another grid", if r.once_in(2) { cases::grid(r) } else { cases::oblong(r) })
    };
    let count = 1 + r.below(8);
    let kept = 1 + r.below(count);
    // some benches have no lines
    let benches = lines.iter().map(|_| r.below(kept) as usize).collect();
    let mut s = Sharing { lines, benches, grid, mode: r.below(modes() as u64) as u32, spare: r.below(20) as i64, scratch: SCRATCH, out: 2, seed: r.below(1 << 40) };
    if r.once_in(12) {
        shape = "edge of the domain";
        match r.below(7) {
            0 => s.spare = -1,
            1 => s.scratch = r.pick(&[0, SCRATCH - 1, SCRATCH + 7]),
            2 => s.mode = r.pick(&[modes(), u32::MAX]),
            3 => (s.grid.cols, s.grid.rows) = r.pick(&[(0, 0), (0, 3), (4005, 1), (1002, 1002)]),
            4 => s.out = r.below(4) as usize,
            5 if !s.lines.is_empty() => {
                let at = r.below(s.lines.len() as u64) as usize;
                s.lines[at][r.below(4) as usize] = cases::bad(r);
            }
            _ => s.grid.cell_height = r.pick(&[0.0, f64::NAN, 2.1e9, 2e9]),
        }
    }
    (shape, Case::Sharing(s))
}

/// Two opposite corners of the bounds of some lines.
fn bounds(lines: &[Line]) -> Line {
    let all = |k: usize| lines.iter().flat_map(move |l| [l[k], l[k + 2]]);
    [all(0).fold(f64::INFINITY, model::least), all(1).fold(f64::INFINITY, model::least), all(0).fold(f64::NEG_INFINITY, model::greatest), all(1).fold(f64::NEG_INFINITY, model::greatest)]
}

// ---- the check of a sharing

type Entry = fn(Coordinates, &Grid, u32, &mut [u32], &mut [u32], &mut [u64]) -> u32;

/// What a count leaves.
struct Left {
    number: u32,
    out: Vec<u64>,
    counts: Vec<u32>,
    scratch: Vec<u32>,
}

impl Left {
    fn by(entry: Entry, s: &Sharing, lines: &[Line], room: usize) -> Left {
        let columns = Columns::new(lines);
        let (mut counts, mut scratch, mut out) = (vec![JUNK; room], vec![JUNK; s.scratch], vec![u64::MAX; s.out]);
        let number = entry(columns.coordinates(), &s.grid, s.mode, &mut counts, &mut scratch, &mut out);
        Left { number, out, counts, scratch }
    }

    /// By the port, held to the model.
    fn held(who: &str, s: &Sharing, lines: &[Line], room: usize) -> Result<Left, String> {
        let (wanted, got) = (Left::by(model::count, s, lines, room), Left::by(port::count, s, lines, room));
        answers(who, (wanted.number, &wanted.out), (got.number, &got.out))?;
        slices(&format!("{who}: counts"), &wanted.counts, &got.counts)?;
        slices(&format!("{who}: scratch"), &wanted.scratch, &got.scratch)?;
        Ok(got)
    }
}

fn check_sharing(s: &Sharing) -> Result<&'static str, String> {
    let r = &mut Random::new(s.seed);
    let cells = s.grid.cols as usize * s.grid.rows as usize;
    let room = (cells.min(1_100_000) as i64 + 1 + s.spare) as usize;
    let single = Left::held("a single count", s, &s.lines, room)?;

    // every bench counts its share, in any order of its lines
    let count = s.benches.iter().max().map_or(1, |b| b + 1) + r.below(2) as usize;
    let mut tables = Vec::new();
    let mut refused = false;
    for bench in 0..count {
        let mut share: Vec<Line> = s.lines.iter().zip(&s.benches).filter(|x| *x.1 == bench).map(|x| *x.0).collect();
        for k in (1..share.len()).rev() {
            share.swap(k, r.below(k as u64 + 1) as usize);
        }
        let left = Left::held("a bench", s, &share, room)?;
        refused |= left.number != 0;
        tables.push(left);
    }
    if refused != (single.number != 0) {
        return Err(format!("a single count answers {}, and of the benches {}", single.number, if refused { "one is refused" } else { "none is refused" }));
    }
    if refused {
        return Ok(word(single.number));
    }
    // any two are added, until one is left
    while tables.len() > 1 {
        let from = tables.swap_remove(r.below(tables.len() as u64) as usize);
        let at = r.below(tables.len() as u64) as usize;
        let into = &mut tables[at];
        let (mut by_model, mut wanted, mut got) = (into.counts.clone(), [u64::MAX], [u64::MAX]);
        let number = model::add(&mut by_model, &from.counts, &mut wanted);
        answers("port", (number, &wanted), (port::add(&mut into.counts, &from.counts, &mut got), &got))?;
        slices("port: the sum", &by_model, &into.counts)?;
        if number != 0 {
            return Err(format!("the tables of benches are refused by {number}"));
        }
        (0..2).for_each(|k| into.out[k] += from.out[k]);
    }
    slices("the sum of all benches", &single.counts, &tables[0].counts)?;
    answers("all benches", (0, &single.out[..2]), (0, &tables[0].out[..2]))?;
    check_tables(s, &single, r)?;
    Ok(if single.out[1] > 0 { "with globals" } else { "the same table" })
}

/// Tables on the grid: with the room that they need, a little more, or one entry too few; and their offsets beside the counts.
fn check_tables(s: &Sharing, single: &Left, r: &mut Random) -> Result<(), String> {
    let columns = Columns::new(&s.lines);
    let cells = s.grid.cols as usize * s.grid.rows as usize;
    let mut room = |needed: usize| (needed as i64 + r.pick(&[0, 0, 0, 3, 17, -1])).max(0) as usize;
    let sizes = [room(cells + 1), room(single.out[0] as usize), room(single.out[1] as usize), s.scratch];
    let mut by_model = sizes.map(|n| vec![JUNK; n]);
    let mut by_port = by_model.clone();
    let (mut wanted, mut got) = ([u64::MAX; 3], [u64::MAX; 3]);
    let [o, t, g, h] = &mut by_model;
    let number = model::tables_on(columns.coordinates(), &s.grid, s.mode, o, t, g, h, &mut wanted);
    let [o, t, g, h] = &mut by_port;
    let by = port::tables_on(columns.coordinates(), &s.grid, s.mode, o, t, g, h, &mut got);
    answers("tables on the grid", (number, &wanted), (by, &got))?;
    for (k, name) in ["offsets", "items", "globals", "scratch"].iter().enumerate() {
        slices(&format!("tables on the grid: {name}"), &by_model[k], &by_port[k])?;
    }
    if number == 0 {
        let lengths: Vec<u32> = by_port[0][..cells + 1].windows(2).map(|w| w[1] - w[0]).collect();
        slices("the lengths of the lists", &single.counts[..cells], &lengths)?;
    }
    Ok(())
}

/// Document 02's three benches; 65,536 lines in one cell, shared in halves; two tables whose sum is one too large; the named entries of both groupings.
pub fn fixed() -> Vec<(&'static str, Case)> {
    let square = [[0.0, 0.0, 2.0, 0.0], [2.0, 0.0, 2.0, 2.0], [2.0, 2.0, 0.0, 2.0], [0.0, 2.0, 0.0, 0.0]];
    let unit = Grid { min_x: 0.0, min_y: 0.0, cell_width: 1.0, cell_height: 1.0, cols: 3, rows: 3 };
    let mut all = Vec::new();
    for mode in 0..modes() {
        let s = Sharing { lines: square.to_vec(), benches: vec![0, 1, 2, 2], grid: unit, mode, spare: 0, scratch: SCRATCH, out: 2, seed: 1 };
        all.push(("three benches", Case::Sharing(s.clone())));
        all.push(("no lines", Case::Sharing(Sharing { lines: vec![], benches: vec![], ..s.clone() })));
        all.push(("no cells", Case::Sharing(Sharing { grid: Grid { cols: 0, rows: 0, ..unit }, ..s.clone() })));
        let most = vec![[0.5; 4]; 65536];
        all.push(("65,536 in a cell", Case::Sharing(Sharing { benches: (0..65536).map(|i| i % 2).collect(), lines: most.clone(), ..s.clone() })));
        let more: Vec<Line> = most.into_iter().chain([[0.5; 4]]).collect();
        all.push(("65,537 lines", Case::Sharing(Sharing { benches: vec![0; 65537], lines: more, ..s })));
    }
    // a level line through 2,049 columns is global
    let row = Grid { cols: 2049, rows: 1, ..unit };
    let s = Sharing { lines: vec![[0.5, 0.5, 2048.5, 0.5], [0.5, 0.5, 2047.5, 0.5]], benches: vec![1, 0], grid: row, mode: 0, spare: 3, scratch: SCRATCH, out: 2, seed: 2 };
    all.push(("a global line", Case::Sharing(s)));
    for (a, b) in [
        (vec![65535, 32768], vec![0, 32768]),
        (vec![65535, 65536], vec![65536, 65536]),
        (vec![0, 32768], vec![65536, 65536]),
        (vec![65536], vec![1]),
        (vec![65536], vec![0]),
        (vec![65537], vec![0]),
        (vec![u32::MAX], vec![u32::MAX]),
        (vec![], vec![]),
        (vec![], vec![0]),
    ] {
        all.push(("adding", Case::Adding { a, b, out: 1 }));
    }
    for lines in [0, 1, 65536, 1_000_000, usize::MAX] {
        for sizing in [0, 1, 2] {
            for corners in [[0.0; 4], [2.0, 2.0, 0.0, 0.0], [-0.0, 0.0, 0.0, -0.0], [-1e9, -1e9, 1e9, 1e9], [0.0, 0.0, 1e9, 0.0], [f64::NAN, 0.0, 0.0, 0.0]] {
                all.push(("agreed grid", Case::Agreed { corners, lines, sizing, out: 6 }));
            }
        }
    }
    all
}
