//! Builds: every entry of every buffer, the zeros beyond included, and refusals at their exact edges. Square cells are the Rust's; cells sized by
//! axis are the model's, and the lists on them those of the Rust's walks where the Rust can be asked.

use super::{answers, float, rounder, slices, word, Kind, JUNK};
use crate::cases;
use crate::model::{self, Coordinates, MOST_CELLS, MOST_LINES, SCRATCH};
use crate::oracle::{self, Squared};
use crate::port;
use crate::random::{nudged, Random};
use crate::{Line, Mode, Sizing};

#[derive(Clone)]
pub struct Case {
    pub lines: Vec<Line>,
    /// The number by which the sizing is asked for.
    pub sizing: u32,
    /// And the mode of walk.
    pub mode: u32,
    /// Entries taken from the end of one coordinate slice, and which one.
    pub short: Option<usize>,
    pub offsets: Room,
    pub items: Room,
    pub globals: Room,
    pub scratch: usize,
    /// The words lent as `out`.
    pub out: usize,
}

/// How many entries are lent: beyond what is needed (or short of it), or an exact number.
#[derive(Clone, Copy, Debug, PartialEq)]
pub enum Room {
    Needed(i64),
    Exactly(usize),
}

impl Room {
    fn of(self, needed: usize) -> usize {
        match self {
            Room::Needed(more) => (needed as i64 + more).max(0) as usize,
            Room::Exactly(n) => n,
        }
    }
}

/// Lines as four slices.
#[derive(Clone)]
pub struct Columns([Vec<f64>; 4]);

impl Columns {
    pub fn new(lines: &[Line]) -> Self {
        Columns([0, 1, 2, 3].map(|k| lines.iter().map(|l| l[k]).collect()))
    }
    pub fn coordinates(&self) -> Coordinates<'_> {
        Coordinates { start_x: &self.0[0], start_y: &self.0[1], end_x: &self.0[2], end_y: &self.0[3] }
    }
}

type Entry = fn(Coordinates, u32, u32, &mut [u32], &mut [u32], &mut [u32], &mut [u32], &mut [u64]) -> u32;

/// The words of the array that `out` is a part of, and what they hold before a call.
const WORDS: usize = 10;
const LEFT: u64 = 888_888_888;

/// What a call leaves.
struct Left {
    number: u32,
    out: [u64; WORDS],
    buffers: [Vec<u32>; 4],
}

const NAMES: [&str; 4] = ["offsets", "items", "globals", "scratch"];

impl Left {
    fn by(entry: Entry, case: &Case, lines: Coordinates, sizes: [usize; 4]) -> Left {
        let mut buffers = sizes.map(|n| vec![JUNK; n]);
        let mut out = [LEFT; WORDS];
        let [offsets, items, globals, scratch] = &mut buffers;
        let number = entry(lines, case.sizing, case.mode, offsets, items, globals, scratch, &mut out[..case.out]);
        Left { number, out, buffers }
    }

    /// How what another left differs from this.
    fn held(&self, who: &str, other: &Left) -> Result<(), String> {
        answers(who, (self.number, &self.out), (other.number, &other.out))?;
        for (k, name) in NAMES.iter().enumerate() {
            slices(&format!("{who}: {name}"), &self.buffers[k], &other.buffers[k])?;
        }
        Ok(())
    }

    /// The same with zero minima of one sign: the Rust leaves it open.
    fn signless(mut self) -> Left {
        for bits in &mut self.out[..2] {
            *bits = if *bits == 1 << 63 { 0 } else { *bits };
        }
        self
    }
}

pub struct Build<const AXES: bool>;

impl<const AXES: bool> Kind for Build<AXES> {
    type Case = Case;
    const NAME: &'static str = if AXES { "axes-build" } else { "build" };
    const SIDES: &'static str =
        if AXES { "port and model, and the Rust's walks where the sizes are a power of two apart" } else { "port, Rust and model" };

    fn draw(r: &mut Random) -> (&'static str, Case) {
        let most = r.pick(&[3, 8, 30, 30, 100, 100, 300, 1000, 3000]);
        let (shape, lines) = if !AXES {
            cases::lines(r, most)
        } else if r.once_in(200) {
            let (_, mut lines) = cases::apart(r, MOST_LINES);
            lines.truncate(MOST_LINES);
            ("up to 65,536 lines", lines)
        } else {
            cases::apart(r, most)
        };
        let mut room = |often: u64| if r.once_in(often) { Room::Needed(r.below(3) as i64 - 1) } else { Room::Needed(r.below(40) as i64) };
        let (offsets, items, globals) = (room(6), room(6), room(3));
        let mut case = Case { lines, sizing: AXES as u32, mode: 0, short: None, offsets, items, globals, scratch: SCRATCH, out: 8 };
        if !r.once_in(20) {
            return (shape, case);
        }
        let n = case.lines.len() as u64;
        match r.below(11) {
            0..=2 => case.lines[r.below(n) as usize][r.below(4) as usize] = cases::bad(r),
            3 => case.short = Some(r.below(4) as usize),
            4 => case.scratch = r.pick(&[0, SCRATCH - 1, SCRATCH, SCRATCH + 7]),
            5 => case.offsets = Room::Exactly(r.below(3) as usize),
            6 => case.items = Room::Exactly(r.below(3) as usize),
            7 => case.lines.clear(),
            8 => case.mode = r.pick(&[3, 4, 256, 1 << 31, u32::MAX]),
            9 => case.sizing = r.pick(&[0, 1, 2, 3, 256, 1 << 31, u32::MAX]),
            _ => (case.out, case.sizing) = (r.below(WORDS as u64 + 1) as usize, r.pick(&[case.sizing, 2])),
        }
        ("edge of the domain", case)
    }

    fn check(case: &Case) -> Result<&'static str, String> {
        let mut columns = Columns::new(&case.lines);
        if let Some(k) = case.short {
            columns.0[k].pop();
        }
        // what is needed, where the lines are in the domain
        let inside = case.short.is_none()
            && case.lines.len() <= MOST_LINES
            && case.lines.iter().flatten().all(|&v| model::coordinate_fits(v));
        let tables = match model::sizing_of(case.sizing).zip(model::mode_of(case.mode)) {
            Some((sizing, mode)) if inside => model::tables(columns.coordinates(), sizing, mode, usize::MAX),
            _ => Err((0, 0)),
        };
        let needed = tables.as_ref().map_or([4096, 64, 8], |t| [t.most_offsets, t.items.len(), t.globals.len()]);
        let sizes = [case.offsets.of(needed[0]), case.items.of(needed[1]), case.globals.of(needed[2]), case.scratch];

        let by_model = Left::by(model::build, case, columns.coordinates(), sizes);
        let by_port = Left::by(port::build, case, columns.coordinates(), sizes);
        by_model.held("port", &by_port)?;
        let number = by_model.number;
        let (0, Ok(t)) = (number, &tables) else {
            return Ok(word(number));
        };
        // the port leaves what the model leaves: one of the two is held to the Rust, in the Rust's mode
        let rust = if case.mode != Mode::Rust as u32 {
            false
        } else if case.sizing == Sizing::Square as u32 {
            by_rust(case, sizes).held("model", &by_model.signless())?;
            false
        } else {
            by_walks(case, t)?
        };
        let built = [
            ["built", "built with globals", "built, the Rust's walks", "built with globals, the Rust's walks"],
            ["one halving", "one halving, globals", "one halving, the Rust's walks", "one halving, globals, the Rust's walks"],
            ["two halvings", "two halvings, globals", "two halvings, the Rust's walks", "two halvings, globals, the Rust's walks"],
        ];
        Ok(built[t.halvings as usize][2 * rust as usize + !t.globals.is_empty() as usize])
    }

    fn smaller(case: &Case) -> Vec<Case> {
        let mut all = Vec::new();
        let n = case.lines.len();
        let mut part = n / 2;
        while part > 0 {
            // without one stretch of lines
            let tries = if n > 5000 { 4 } else { n.div_ceil(part) };
            for k in 0..tries {
                let mut c = case.clone();
                c.lines.drain((k * part).min(n)..((k + 1) * part).min(n));
                if c.lines.len() < n {
                    all.push(c);
                }
            }
            part /= 2;
        }
        if n <= 12 {
            for i in 0..n {
                for k in 0..4 {
                    for v in rounder(case.lines[i][k]) {
                        let mut c = case.clone();
                        c.lines[i][k] = v;
                        all.push(c);
                    }
                }
            }
        }
        all
    }

    fn show(case: &Case) -> String {
        let lines: Vec<String> = case.lines.iter().take(40).map(|l| format!("  {}", l.map(float).join(", "))).collect();
        format!(
            "{} lines\n{}\nsizing {}, mode {}; lent: offsets {:?}, items {:?}, globals {:?}, scratch {}, out {}; short slice {:?}\n",
            case.lines.len(), lines.join("\n"), case.sizing, case.mode, case.offsets, case.items, case.globals, case.scratch, case.out, case.short,
        )
    }
}

/// Written entries, and zero up to n.
fn filled(written: &[u32], n: usize) -> Vec<u32> {
    let mut all = written.to_vec();
    all.resize(n.max(written.len()), 0);
    all
}

/// The Rust's tables, as they are to stand in the lent buffers.
fn by_rust(case: &Case, sizes: [usize; 4]) -> Left {
    let built = oracle::build(&oracle::Lines::new(&case.lines));
    let globals = built.globals();
    let mut out = [LEFT; WORDS];
    out[..6].copy_from_slice(&built.grid().words());
    out[6..8].copy_from_slice(&[built.items().len() as u64, globals.len() as u64]);
    let buffers = [filled(&built.offsets(), sizes[0]), filled(built.items(), sizes[1]), filled(&globals, sizes[2]), vec![0; sizes[3]]];
    Left { number: 0, out, buffers }.signless()
}

/// Holds the tables to the cells that the Rust's walks find on their grid. Answers whether the Rust could be asked.
fn by_walks(case: &Case, t: &model::Tables) -> Result<bool, String> {
    let Some(squared) = Squared::of(&t.grid) else {
        return Ok(false);
    };
    let mut lists = vec![Vec::new(); t.offsets.len() - 1];
    let mut globals = Vec::new();
    for (i, line) in case.lines.iter().enumerate() {
        let cells = oracle::segment_cells(squared.grid(), &squared.line(line));
        if cells.len() > MOST_CELLS {
            globals.push(i as u32);
        } else {
            cells.iter().for_each(|&c| lists[c as usize].push(i as u32));
        }
    }
    let ends = lists.iter().scan(0, |end, list: &Vec<u32>| {
        *end += list.len() as u32;
        Some(*end)
    });
    slices("by the Rust's walks: offsets", &[0].into_iter().chain(ends).collect::<Vec<_>>(), &t.offsets)?;
    slices("by the Rust's walks: items", &lists.concat(), &t.items)?;
    slices("by the Rust's walks: globals", &globals, &t.globals)?;
    Ok(true)
}

/// A build with room to spare.
pub fn ample(lines: Vec<Line>, sizing: Sizing) -> Case {
    let [offsets, items, globals] = [Room::Needed(1); 3];
    Case { lines, sizing: sizing as u32, mode: 0, short: None, offsets, items, globals, scratch: SCRATCH, out: 8 }
}

/// Document 01's builds, its limits of lines, and 500 lines in a cell.
fn fixed_in(sizing: Sizing, r: &mut Random) -> Vec<(&'static str, Case)> {
    let ample = |lines: Vec<Line>| ample(lines, sizing);
    let mut all = vec![
        ("measured points", ample(vec![[0.0, 0.0, 2.0, 2.0]])),
        ("measured points", ample(vec![[0.0; 4]])),
        ("measured points", ample(vec![[0.0, 0.0, 2.0, 0.0], [2.0, 0.0, 2.0, 2.0], [2.0, 2.0, 0.0, 2.0], [0.0, 2.0, 0.0, 0.0]])),
        ("no lines", ample(vec![])),
        ("no lines", Case { offsets: Room::Exactly(0), ..ample(vec![]) }),
        ("no lines", Case { offsets: Room::Exactly(1), items: Room::Exactly(0), globals: Room::Exactly(0), ..ample(vec![]) }),
    ];
    // a sizing that there is not, and an `out` that is short, come before every refusal
    let refused = [
        ample(vec![[0.0, 0.0, 2.0, 2.0]]),
        ample(vec![[0.0, f64::NAN, 2.0, 2.0]]),
        Case { short: Some(2), ..ample(vec![[0.0, 0.0, 2.0, 2.0]]) },
        Case { scratch: SCRATCH - 1, ..ample(vec![[0.0, 0.0, 2.0, 2.0]]) },
        Case { offsets: Room::Exactly(0), ..ample(vec![]) },
        Case { items: Room::Exactly(0), ..ample(vec![[0.0, 0.0, 2.0, 2.0]]) },
    ];
    for case in refused {
        for (number, words) in [(2, 8), (u32::MAX, WORDS), (2, 7), (sizing as u32, 7), (sizing as u32, 0), (sizing as u32, WORDS)] {
            all.push(("answers of the border", Case { sizing: number, out: words, ..case.clone() }));
        }
    }
    // 500 lines in a cell, and 501: only those are too many
    for n in [500, 501] {
        all.push(("500 and 501 in a cell", ample(vec![[0.25, 0.25, 0.75, 0.75]; n])));
        let mut spread: Vec<Line> = vec![[0.1, 0.1, 0.1, 0.1]; n];
        spread.push([100.0, 100.0, 100.0, 100.0]);
        all.push(("500 and 501 in a cell", ample(spread)));
    }
    let most = cases::year(r, MOST_LINES + 1);
    all.push(("65,537 lines", ample(most.clone())));
    all.push(("65,536 lines", ample(most[..MOST_LINES].to_vec())));
    // about n lines in a square, 600 of them in one small place: about n cells, 4 n after one halving
    for n in [62_000, 62_300, 62_400, 62_480] {
        let mut lines = vec![[0.0, 0.0, 1.0, 1.0]];
        lines.extend((1..n).map(|i| {
            let (x, y) = if i < 600 { (0.5, 0.5) } else { (r.unit() * 0.999, r.unit() * 0.999) };
            [x, y, x + 0.0001, y + 0.0001]
        }));
        all.push(("cells x 4 near 1,000,000", ample(lines)));
    }
    all
}

/// Document 01's builds and limits, and areas at which the square sizing turns.
pub fn fixed(seed: u64) -> Vec<(&'static str, Case)> {
    let mut all = fixed_in(Sizing::Square, &mut Random::new(seed));
    // an area of exactly 1e-9 stays
    for w in [1e-9, nudged(1e-9, -1), nudged(1e-9, 1)] {
        all.push(("area near 1e-9", ample(vec![[0.0, 0.0, w, 1.0], [0.0, 0.5, w, 0.25]], Sizing::Square)));
        all.push(("area near 1e-9", ample(vec![[0.0, 0.0, 1.0, 0.0], [0.0, w, 1.0, w]], Sizing::Square)));
    }
    all
}

/// The same by axis; every two of some extents, and what makes a line global by axis.
pub fn fixed_by_axis(seed: u64) -> Vec<(&'static str, Case)> {
    let r = &mut Random::new(seed);
    let ample = |lines: Vec<Line>| ample(lines, Sizing::Axes);
    let mut all = fixed_in(Sizing::Axes, r);
    let extents = [0.0, 5e-324, 1e-9, 1e-6, 2.5e-3, 1.0, 1e3, 1e9, 2e9];
    for (width, height) in extents.into_iter().flat_map(|w| extents.map(|h| (w, h))) {
        for n in [1, 2, 4, 7, 9, 100] {
            let (x, y) = (-width / 2.0, -height / 2.0);
            let mut at = || [x + r.unit() * width, y + r.unit() * height];
            let mut lines: Vec<Line> = (0..n).map(|_| [at(), at()].concat().try_into().unwrap()).collect();
            lines[0] = [x, y, width / 2.0, height / 2.0];
            all.push(("every two extents", ample(lines)));
        }
    }
    // Two halvings, and then more than 2,048 cells of one line: those of a diagonal through the corners of 998 by 998 cells, and those of a level line
    // on a boundary of 1,025 columns, which has two in each.
    let crowd = |lines: &mut Vec<Line>, n: usize, [x, y]: [f64; 2]| lines.extend(vec![[x, y, x, y]; n]);
    let mut diagonals = vec![[0.0, 0.0, 499.0, 499.0], [499.0, 499.0, 0.0, 0.0], [0.0, 499.0, 499.0, 0.0]];
    crowd(&mut diagonals, 600, [100.3, 100.3]);
    while diagonals.len() < 62_001 {
        let (x, y) = (r.unit() * 499.0, r.unit() * 499.0);
        diagonals.push([x, y, x, y]);
    }
    all.push(("globals by axis", ample(diagonals.clone())));
    all.push(("globals by axis", Case { globals: Room::Needed(-1), ..ample(diagonals) }));
    let mut level = vec![[0.0, 1e-6, 256.0, 1e-6], [0.0, 0.0, 256.0, 3e-6]];
    crowd(&mut level, 600, [100.1, 2.1e-6]);
    while level.len() < MOST_LINES {
        let (x, y) = (r.unit() * 256.0, r.unit() * 3e-6);
        level.push([x, y, x, y]);
    }
    all.push(("globals by axis", ample(level)));
    all
}
