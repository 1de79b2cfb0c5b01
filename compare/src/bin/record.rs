//! record [--seed S] OUT: writes a sample of the Rust's answers of every kind, and of the model's where cells are sized by axis. REPLAY.md has the
//! form.

use compare::kinds::build::Columns;
use compare::kinds::{numbers, own, walk};
use compare::model::{self, Standing, Test, SCRATCH};
use compare::oracle::{self, Built, Squared};
use compare::random::{nudged, Random};
use compare::{cases, Grid, Line, Mode, Sizing};

// What the program `replay` has room for.
const OFFSETS: usize = 4096;
const ITEMS: usize = 8192;
const GLOBALS: usize = 64;
const OUTPUT: usize = 4096;
const QUESTION: usize = 16384;
const BYTES: usize = 1_572_864;

/// A float's bit pattern, one for every NaN.
fn bits(v: f64) -> u64 {
    if v.is_nan() { f64::NAN.to_bits() } else { v.to_bits() }
}

/// The words of a question or of an answer, in order.
struct Words(Vec<u64>);

impl Words {
    fn new() -> Self {
        Words(Vec::new())
    }
    fn word(mut self, v: u64) -> Self {
        self.0.push(v);
        self
    }
    fn float(self, v: f64) -> Self {
        self.word(bits(v))
    }
    /// A slice that is read: how many entries it has, and the entries.
    fn list(mut self, entries: impl ExactSizeIterator<Item = u64>) -> Self {
        self.0.push(entries.len() as u64);
        self.0.extend(entries);
        self
    }
    fn entries(self, entries: &[u32]) -> Self {
        self.list(entries.iter().map(|&v| v as u64))
    }
    fn grid(self, g: &Grid) -> Self {
        let floats = [g.min_x, g.min_y, g.cell_width, g.cell_height].map(bits);
        self.list(floats.into_iter().chain([g.cols as u64, g.rows as u64]).collect::<Vec<_>>().into_iter())
    }
    /// Start x of all lines, start y, end x, end y.
    fn lines(self, lines: &[Line]) -> Self {
        (0..4).fold(self, |words, k| words.list(lines.iter().map(|line| bits(line[k]))))
    }
    /// The slices of a visit: the grid, the lines, the tables.
    fn tables(self, lines: &[Line], s: &Standing) -> Self {
        self.grid(&s.grid).lines(lines).entries(s.offsets).entries(s.items).entries(s.globals)
    }
    /// An answer: document 01's number, and the values that are written to `out`: of a refusal its one value and zeros.
    fn answer(number: u32, value: u64, values: &[u64]) -> Self {
        let refused = values.iter().enumerate().map(|(i, _)| if i == 0 { value } else { 0 });
        let out: Vec<u64> = if number == 0 { values.to_vec() } else { refused.collect() };
        Words([vec![number as u64], out].concat())
    }
    /// A slice that was written: its entries up to the last that is not zero.
    fn written(self, entries: &[u32]) -> Self {
        let to = entries.iter().rposition(|&v| v != 0).map_or(0, |last| last + 1);
        self.entries(&entries[..to])
    }
}

/// How a set of lines is drawn.
type Draw = fn(&mut Random, usize) -> (&'static str, Vec<Line>);

struct File {
    words: Vec<u64>,
    records: u32,
    kinds: [(u32, usize); 12],
}

impl File {
    fn put(&mut self, kind: usize, question: Words, answer: Words) {
        assert!(question.0.len() <= QUESTION);
        self.words.extend([kind as u64, question.0.len() as u64, answer.0.len() as u64]);
        self.words.extend(&question.0);
        self.words.extend(&answer.0);
        self.records += 1;
        self.kinds[kind].0 += 1;
        self.kinds[kind].1 += 8 * (3 + question.0.len() + answer.0.len());
    }

    fn numbers(&mut self, r: &mut Random) {
        for i in 0..400 {
            for function in 1..=8 {
                let v = numbers::pattern(r, i % 9);
                let other = match r.below(3) {
                    0 => -v,
                    1 => nudged(v, 1),
                    _ => numbers::pattern(r, i % 9),
                };
                let count = r.pick(&[1, 2, 3, 1001, 4004, u32::MAX]);
                let (second, answer) = match function {
                    // where the sign of a zero is open, nothing can be compared
                    1 | 2 if v == 0.0 && other == 0.0 => (bits(1.0), bits(if function == 1 { v.min(1.0) } else { v.max(1.0) })),
                    1 => (bits(other), bits(v.min(other))),
                    2 => (bits(other), bits(v.max(other))),
                    3 => (0, bits(v.abs())),
                    4 => (0, bits(v.floor())),
                    5 => (count as u64, (v.floor() as isize).clamp(0, count as isize - 1) as u64),
                    6 => (0, v.ceil() as usize as u64),
                    7 => (0, bits(v.round())),
                    _ => (0, bits(v.sqrt())),
                };
                self.put(1, Words::new().word(function).float(v).word(second), Words::new().word(answer));
            }
        }
    }

    fn walk(&mut self, grid: &Grid, line: &Line, scratch: usize) {
        let mut out = [0; 8];
        let mut left = vec![0; scratch];
        let number = model::segment_cells(grid, line, Mode::Rust as u32, &mut left, &mut out);
        let cells = match Squared::of(grid) {
            _ if number != 0 => Vec::new(),
            Some(squared) => oracle::segment_cells(squared.grid(), &squared.line(line)),
            None => left[..out[0] as usize].to_vec(),
        };
        let question = line.iter().fold(Words::new(), |words, &v| words.float(v)).word(scratch as u64).grid(grid);
        self.put(2, question, Words::answer(number, out[0], &[cells.len() as u64]).written(&cells));
    }

    fn walks(&mut self, r: &mut Random) {
        use compare::kinds::Kind;
        for (_, c) in walk::fixed() {
            self.walk(&c.grid, &c.line, c.scratch);
        }
        self.drawn_walks(r, 420, walk::Walk::<false>::draw);
        let four = Grid { min_x: 0.0, min_y: 0.0, cell_width: 1.0, cell_height: 1.0, cols: 4, rows: 4 };
        for scratch in [0, SCRATCH - 1, SCRATCH] {
            self.walk(&four, &[0.5, 0.5, 2.5, 0.5], scratch);
        }
        for line in [[f64::NAN, 0.0, 0.0, 0.0], [0.0, nudged(1e9, 1), 0.0, 0.0], [0.0, 0.0, f64::INFINITY, 0.0], [0.0, 0.0, 0.0, -1e9]] {
            self.walk(&four, &line, SCRATCH);
        }
        for (cols, rows) in [(0, 0), (0, 1), (4005, 1), (1002, 1001), (1001, 1001)] {
            self.walk(&Grid { cols, rows, ..four }, &[0.5, 0.5, 2.5, 0.5], SCRATCH);
        }
    }

    /// So many drawn walks, few of them long.
    fn drawn_walks(&mut self, r: &mut Random, count: u32, draw: fn(&mut Random) -> (&'static str, walk::Case)) {
        let (mut short, mut long) = (0, 0);
        while short < count {
            let (_, c) = draw(r);
            let mut cells = Vec::new();
            let turns = if model::grid_fits(&c.grid) { model::walk(Mode::Rust, &c.grid, &c.line, &mut cells) } else { None };
            // few walks of many cells: they are long to write
            if cells.len() > 60 {
                if long == 6 || cells.len() > 2500 {
                    continue;
                }
                long += 1;
            } else if turns.is_none() && short % 10 != 0 {
                continue;
            }
            self.walk(&c.grid, &c.line, c.scratch);
            short += 1;
        }
    }

    /// A build into `room` entries by the sizing of a number, and visits of its tables: none, the whole one, or that and more.
    fn build(&mut self, r: &mut Random, sizing: u32, lines: &[Line], room: [usize; 3], visits: usize) {
        let columns = Columns::new(lines);
        let [mut offsets, mut items, mut globals, mut scratch] = [room[0], room[1], room[2], SCRATCH].map(|n| vec![0; n]);
        let mut out = [0; 8];
        let number = model::build(columns.coordinates(), sizing, Mode::Rust as u32, &mut offsets, &mut items, &mut globals, &mut scratch, &mut out);
        let lent = room.iter().fold(Words::new().word(sizing as u64), |words, &n| words.word(n as u64));
        let question = lent.word(SCRATCH as u64).lines(lines);
        if number != 0 {
            // what is lent is zero before the call, and after a refusal
            let answer = (0..4).fold(Words::answer(number, out[0], &[0; 8]), |words, _| words.written(&[]));
            return self.put(3, question, answer);
        }
        let rust_lines = oracle::Lines::new(lines);
        let (grid, built) = if sizing == Sizing::Square as u32 {
            let built = oracle::build(&rust_lines);
            (built.grid(), built)
        } else {
            let t = model::tables(columns.coordinates(), Sizing::Axes, Mode::Rust, usize::MAX).unwrap();
            (t.grid, Built::standing(&t.grid, &t.offsets, &t.items, &t.globals))
        };
        let (offsets, items, globals) = (built.offsets(), built.items(), built.globals());
        // the sign of a zero minimum is open in the Rust: document 01's stands for it
        let minimum = |v: f64, open: u64| if v == 0.0 && f64::from_bits(open) == 0.0 { open } else { v.to_bits() };
        let values = [
            minimum(grid.min_x, out[0]),
            minimum(grid.min_y, out[1]),
            grid.cell_width.to_bits(),
            grid.cell_height.to_bits(),
            grid.cols as u64,
            grid.rows as u64,
            items.len() as u64,
            globals.len() as u64,
        ];
        self.put(3, question, Words::answer(0, 0, &values).written(&offsets).written(items).written(&globals).written(&[]));

        let (tests, pairs) = built.visit(&rust_lines);
        let s = Standing { grid, lines: columns.coordinates(), offsets: &offsets, items, globals: &globals, global_count: globals.len() as u64 };
        let all = s.tests();
        assert_eq!(all.len() as u64, tests);
        assert!(all.iter().filter(|t| t.overlap).map(|t| (t.first, t.second)).eq(pairs.iter().copied()), "the model's tests are the Rust's");
        if visits == 0 {
            return;
        }
        self.batch(lines, &s, &all, 0, pairs.len() + 1);
        if visits == 1 {
            return;
        }
        let mut at = 0;
        for _ in 1..visits {
            at = self.batch(lines, &s, &all, at, r.below(40) as usize);
            self.batch(lines, &s, &all, r.below(tests + 1), r.below(8) as usize);
        }
        self.batch(lines, &s, &all, tests, 3);
        self.batch(lines, &s, &all, tests + 1, 3);
        for k in 0..2 + visits {
            let bookmark = [tests, tests + 1, 0].get(k).copied().unwrap_or_else(|| r.below(tests + 1));
            let mut out = [0; 8];
            let number = model::test_at(&s, &all, bookmark, &mut out);
            let question = Words::new().word(s.global_count).word(bookmark).tables(lines, &s);
            self.put(5, question, Words::answer(number, out[0], &out[..6]));
        }
    }

    /// A batch, and the bookmark after it.
    fn batch(&mut self, lines: &[Line], s: &Standing, all: &[Test], bookmark: u64, room: usize) -> u64 {
        assert!(room <= OUTPUT);
        let (mut first, mut second, mut out) = (vec![0; room], vec![0; room], [0; 8]);
        let number = model::batch(s, all, bookmark, &mut first, &mut second, &mut out);
        let question = Words::new().word(s.global_count).word(bookmark).word(room as u64).word(room as u64).tables(lines, s);
        self.put(4, question, Words::answer(number, out[0], &out[..3]).written(&first).written(&second));
        out[2]
    }

    /// Document 01's builds, and so many drawn ones, of so many lines and so many entries at most, in one sizing.
    fn sized(&mut self, r: &mut Random, sizing: Sizing, count: u32, most: (usize, usize), visits: usize, draw: Draw) {
        let ample = [OFFSETS, ITEMS, GLOBALS];
        let number = sizing as u32;
        let square = [[0.0, 0.0, 2.0, 0.0], [2.0, 0.0, 2.0, 2.0], [2.0, 2.0, 0.0, 2.0], [0.0, 2.0, 0.0, 0.0]];
        self.build(r, number, &square, ample, 3 * visits);
        self.build(r, number, &[[0.0, 0.0, 2.0, 2.0]], ample, visits);
        self.build(r, number, &[[0.0; 4]], ample, visits);
        self.build(r, number, &[], ample, visits);
        self.build(r, number, &[], [0, 0, 0], 0);
        let mut made = 0;
        while made < count {
            let (_, lines) = draw(r, most.0);
            let Ok(t) = model::tables(Columns::new(&lines).coordinates(), sizing, Mode::Rust, usize::MAX) else { continue };
            if lines.len() > most.0 || t.most_offsets > most.1 || t.items.len() > most.1 {
                continue;
            }
            made += 1;
            let needed = [t.most_offsets, t.items.len(), t.globals.len()];
            match made % 11 {
                0 => self.build(r, number, &lines, [needed[0] - 1, ITEMS, GLOBALS], 0),
                1 => self.build(r, number, &lines, [OFFSETS, needed[1] - 1, GLOBALS], 0),
                2 => self.build(r, number, &lines, needed, visits),
                3 => {
                    let mut lines = lines;
                    let k = r.below(lines.len() as u64) as usize;
                    lines[k][r.below(4) as usize] = cases::bad(r);
                    self.build(r, number, &lines, ample, 0);
                }
                _ => self.build(r, number, &lines, ample, visits),
            }
        }
    }

    fn builds(&mut self, r: &mut Random) {
        self.sized(r, Sizing::Square, 48, (40, 300), 2, cases::lines);
        let ample = [OFFSETS, ITEMS, GLOBALS];
        // two halvings, two global lines, and lines of 2,048 and 2,049 cells on the last grid of 4,001 columns
        let mut lines = vec![[0.0, 0.0, 4000.0, 0.0], [3000.0, 0.0, 0.0, 0.0], [0.5, 0.0, 2047.5, 0.0], [2048.5, 0.0, 0.5, 0.0]];
        lines.extend((0..505).map(|i| [i as f64 / 512.0, 0.0, (i as f64 + 0.5) / 512.0, 0.0]));
        self.build(r, Sizing::Square as u32, &lines, ample, 1);
        self.build(r, Sizing::Square as u32, &lines, [OFFSETS, ITEMS, 1], 0);
    }

    /// What turns on a width and a height that are kept apart: walks, builds, visits and owners.
    fn axes(&mut self, r: &mut Random) {
        use compare::kinds::Kind;
        self.drawn_walks(r, 60, walk::Walk::<true>::draw);
        self.sized(r, Sizing::Axes, 16, (12, 60), 1, cases::apart);
        let ample = [OFFSETS, ITEMS, GLOBALS];
        // two halvings: 91 columns and 1 row
        let mut lines = vec![[100.1, 0.0, 100.1, 0.0]; 505];
        lines.extend([[100.1, 0.0, 0.0, 0.0], [0.0, 0.0, 1000.0, 0.0], [1000.0, 0.0, 0.0, 0.0]]);
        self.build(r, Sizing::Axes as u32, &lines, ample, 0);
        // a sizing that there is not
        for number in [2, u32::MAX] {
            self.build(r, number, &[[0.0, 0.0, 2.0, 2.0]], ample, 0);
            self.build(r, number, &[[0.0, f64::NAN, 2.0, 2.0]], [0, 0, 0], 0);
        }
        self.drawn_owners(r, 40, own::Own::<true>::draw);
    }

    /// Lines that meet and that the Rust never tests (docs/FINDINGS.md).
    fn findings(&mut self, r: &mut Random) {
        let ample = [OFFSETS, ITEMS, GLOBALS];
        for points in [
            [
                0x4090028f5c28f5c3, 0x40900028f5c28f5c, 0x409000b851eb851f, 0x409001147ae147ae,
                0x4090000000000000, 0x4090000000000000, 0x409000f5c28f5c29, 0x409000f5c28f5c29,
            ],
            [
                0x4071e2f844108dde, 0x40425a0001321cba, 0x4071a16ba0110cea, 0x40434a9db5a3d80e,
                0x4071900000000000, 0x4042000000000000, 0x4071b1cec910ed27, 0x40430e7648876939,
            ],
            [
                0x41c000000000000b, 0x41c0000000000140, 0x41c00000000000dc, 0x41c000000000004a,
                0x41c0000000000000, 0x41c0000000000000, 0x41c0000000000099, 0x41c0000000000099,
            ],
        ] {
            let lines: Vec<Line> = points.windows(4).step_by(2).map(|w| [w[0], w[1], w[2], w[3]].map(f64::from_bits)).collect();
            self.build(r, Sizing::Square as u32, &lines, ample, 2);
        }
        let point = |x: f64, y: f64| [x, y, x, y];
        let mut lines = vec![
            [0x3fe1980000000000, 0x3ff7c00000000000, 0x408f3aa800000000, 0x3febfd2560d2889e].map(f64::from_bits),
            [0x4088cc0000000000, 0x3fd0000000000000, 0x4088cfffffffffff, 0x3fefffffffffffff].map(f64::from_bits),
            point(0.0, 0.0),
        ];
        lines.extend((1..1597).map(|k| point(1000.0 * k as f64 / 1597.0, 1.25)));
        lines.push(point(1000.0, 1.5));
        assert_eq!(lines.len(), 1600);
        self.build(r, Sizing::Square as u32, &lines, ample, 1);
        // a walk that the Rust never ends
        let grid = Grid { min_x: -70.00000000000001, min_y: 1.0553831621433073e-7, cell_width: 1.0, cell_height: 1.0, cols: 15, rows: 2 };
        self.walk(&grid, &[0.0, 0.6036785153383751, 5e-324, 1.639504059742847], SCRATCH);
    }

    fn owners(&mut self, r: &mut Random) {
        use compare::kinds::Kind;
        self.drawn_owners(r, 220, own::Own::<false>::draw);
    }

    /// So many drawn points with a cell of each, by the Rust where it can be asked.
    fn drawn_owners(&mut self, r: &mut Random, count: u32, draw: fn(&mut Random) -> (&'static str, own::Case)) {
        for _ in 0..count {
            let (_, c) = draw(r);
            let mut rust = own::by_rust(&c.grid);
            let mut out = [0; 8];
            let number = model::point_owned(&c.grid, c.row, c.col, c.x, c.y, &mut out);
            let owned = rust.as_mut().filter(|_| number == 0).map_or(out[0], |rust| rust.point(c.row, c.col, c.x, c.y) as u64);
            let cell = || Words::new().word(c.row as u64).word(c.col as u64).float(c.x).float(c.y);
            self.put(6, cell().grid(&c.grid), Words::answer(number, out[0], &[owned]));

            let number = model::overlap_owned(&c.grid, c.row, c.col, c.x, c.y, c.size, c.strategy, &mut out);
            let asked = rust.as_mut().filter(|_| number == 0);
            let owned = asked.map_or(out[0], |rust| rust.overlap(c.row, c.col, c.x, c.y, c.size) as u64);
            let question = cell().float(c.size).word(c.strategy as u64).grid(&c.grid);
            self.put(7, question, Words::answer(number, out[0], &[owned]));

            let number = model::owner(&c.grid, c.x, c.y, &mut out);
            let owner = if number == 0 { own::scan(&c.grid, c.x, c.y) } else { [0; 3] };
            self.put(8, Words::new().float(c.x).float(c.y).grid(&c.grid), Words::answer(number, out[0], &owner));
        }
    }

    /// Points in seams and beside them, every cell asked.
    fn seams(&mut self, r: &mut Random) {
        use compare::kinds::{seams, Kind};
        let tenths = |cols| Grid { min_x: 0.0, min_y: 0.0, cell_width: 0.1, cell_height: 0.1, cols, rows: 7 };
        let fixed = [(7, 0.6, 0.05), (7, 0.6, 0.6), (7, 0.6, 0.0), (7, 0.6, 0.8), (7, 0.6, -5e-324), (6, 0.6, 0.05), (6, 0.6000000000000001, 0.05)];
        let fixed = fixed.map(|(cols, x, y)| seams::Case { grid: tenths(cols), x, y });
        let none = seams::Case { grid: Grid { cols: 0, rows: 0, ..tenths(7) }, x: 0.0, y: 0.0 };
        // the seam of docs/FINDINGS.md
        let near = Grid { min_x: 281.0, min_y: 36.0, cell_width: 0.4, cell_height: 0.05, cols: 5, rows: 5 };
        let near = seams::Case { grid: near, x: f64::from_bits(0x40719ccccccccccc), y: 36.02 };
        let drawn: Vec<_> = (0..40).map(|_| seams::Seams::draw(r).1).collect();
        for c in fixed.into_iter().chain([none, near]).chain(drawn) {
            assert_eq!(model::owner(&c.grid, c.x, c.y, &mut [0; 3]), 0);
            let owner = own::scan_all(&c.grid, c.x, c.y);
            self.put(8, Words::new().float(c.x).float(c.y).grid(&c.grid), Words::answer(0, 0, &owner));
        }
    }

    /// The owners of many points in one call, refused ones among them: each answer is the single one's.
    fn many(&mut self, r: &mut Random) {
        let tenths = Grid { min_x: 0.0, min_y: 0.0, cell_width: 0.1, cell_height: 0.1, cols: 7, rows: 7 };
        let fixed = (tenths, vec![0.25, 0.6, 0.6, 0.7, 0.8, 0.0], vec![0.25, 0.05, 0.8, 0.7, 0.05, 0.0], 6);
        let none = (tenths, vec![], vec![], 0);
        let drawn = (0..16).map(|i| {
            let mut grid = if i % 2 == 0 { cases::grid(r) } else { cases::oblong(r) };
            let mut along = |low: f64, size: f64, count: u32| -> Vec<f64> { (0..30).map(|_| cases::coordinate(r, low, size, count)).collect() };
            let mut x = along(grid.min_x, grid.cell_width, grid.cols);
            let mut y = along(grid.min_y, grid.cell_height, grid.rows);
            // one of each refusal, and two at once
            match i {
                10 => x[7] = f64::NAN,
                11 => (y[0], x[29]) = (2e9, 2e9),
                12 => grid.rows = 0,
                13 => drop(x.pop()),
                14 => (y[29], grid.cell_width) = (f64::INFINITY, 0.0),
                _ => {}
            }
            (grid, x, y, if i == 15 { 29 } else { 30 })
        });
        for (grid, x, y, room) in [fixed, none].into_iter().chain(drawn.collect::<Vec<_>>()) {
            let (mut answers, mut out) = (vec![0; room], [0; 1]);
            let number = model::owners(&grid, &x, &y, &mut answers, &mut out);
            if number == 0 {
                for (answer, (&x, &y)) in answers.iter_mut().zip(x.iter().zip(&y)) {
                    *answer = match own::scan(&grid, x, y) {
                        [1, row, col] => row as u32 * grid.cols + col as u32,
                        [2, ..] => u32::MAX - 1,
                        _ => u32::MAX,
                    };
                }
            }
            let floats = |words: Words, v: &[f64]| words.list(v.iter().map(|&v| bits(v)).collect::<Vec<_>>().into_iter());
            let question = floats(floats(Words::new().word(room as u64).grid(&grid), &x), &y);
            self.put(11, question, Words::answer(number, out[0], &[0]).written(&answers));
        }
    }

    fn snaps(&mut self, r: &mut Random) {
        use compare::kinds::{snap, Kind};
        let fixed = [(0.49999999999999994, -2.5, 1.0, 0), (0.49999999999999994, -2.5, 1.0, 1), (-0.0, 0.0, 1.0, 0), (-0.0, 0.0, 1.0, 2)];
        let drawn: Vec<_> = (0..300).map(|_| snap::Snap::draw(r).1).map(|c| (c.x, c.y, c.size, c.strategy)).collect();
        for (x, y, size, strategy) in fixed.into_iter().chain(drawn) {
            let mut out = [0; 8];
            let number = model::snap(x, y, size, strategy, &mut out);
            let (a, b) = if number == 0 { oracle::snap(x, y, size) } else { (0.0, 0.0) };
            let question = Words::new().float(x).float(y).float(size).word(strategy as u64);
            self.put(9, question, Words::answer(number, out[0], &[bits(a), bits(b)]));
        }
    }

    /// Whether the Rust's two strategies agree.
    fn strategies(&mut self, r: &mut Random) {
        use compare::kinds::{strategies, Kind};
        let fixed = [0.0, 1.0].iter().flat_map(|&size| {
            [0.0, -0.0, 0.49999999999999994, -0.49999999999999994, 0.5, -0.5, 2.5, -2.5].map(|v| strategies::Case { v, size })
        });
        let drawn: Vec<_> = (0..200).map(|_| strategies::Strategies::draw(r).1).collect();
        for c in fixed.chain(drawn) {
            let mut out = [0; 8];
            let number = model::strategies_agree(c.v, c.size, &mut out);
            let same = number == 0 && strategies::by_rust(&c);
            self.put(10, Words::new().float(c.v).float(c.size), Words::answer(number, out[0], &[same as u64]));
        }
    }
}

fn main() {
    let mut words = std::env::args().skip(1);
    let (mut seed, mut path) = (1, None);
    while let Some(word) = words.next() {
        if word == "--seed" {
            seed = words.next().and_then(|w| w.parse().ok()).expect("--seed needs a number");
        } else {
            path = Some(word);
        }
    }
    let path = path.expect("record [--seed S] OUT");
    let r = &mut Random::new(seed);
    let mut file = File { words: Vec::new(), records: 0, kinds: [(0, 0); 12] };
    file.numbers(r);
    file.walks(r);
    file.builds(r);
    file.findings(r);
    file.owners(r);
    file.snaps(r);
    file.axes(r);
    file.strategies(r);
    file.seams(r);
    file.many(r);
    let records = file.records;
    let bytes: Vec<u8> = file.words.iter().flat_map(|w| w.to_le_bytes()).collect();
    std::fs::write(&path, &bytes).unwrap_or_else(|e| panic!("{path}: {e}"));
    println!("{records} records, {} bytes, seed {seed}", bytes.len());
    let names = ["", "numbers", "walks", "builds", "batches", "tests", "points owned", "overlaps owned", "owners", "snaps", "strategies", "owners of many"];
    for (name, (count, bytes)) in names.iter().zip(file.kinds).skip(1) {
        println!("  {name}: {count}, {bytes} bytes");
    }
    assert!(bytes.len() < BYTES, "too long for the program");
}
