//! Builds and visits of data in the shape of a year's chain, on square cells, and the bytes that they use.

use super::clock::Clock;
use super::heap;
use super::geos::Geos;
use super::legs::{LEGS, LINES};
use compare::kinds::build::Columns;
use compare::model::{OnceLent, Standing, SCRATCH};
use compare::oracle::{self, Built, Lines};
use compare::random::Random;
use compare::{cases, plain, port, Line, Mode, Sizing};
use std::hint::black_box;

const BAR: Option<f64> = Some(1.0);
const MEMORY_BAR: Option<f64> = Some(0.5);
/// Of a visit that hands out each pair once: by a Rust that looks back in the same way, and by one that takes the repeats out of what it is handed, which is
/// what a caller does without it.
const BACK_BAR: Option<f64> = Some(0.8);
const ONCE_BAR: Option<f64> = Some(0.5);

/// Of a visit that pays for its checks once, by the Rust's callback.
const VISIT_BAR: Option<f64> = Some(0.6);

/// Outputs of so many pairs. The bar of a visit speaks of the last, that of the memory of the first.
const ROOMS: [usize; 3] = [4096, 65536, 1 << 20];

/// Each number of legs an orbit with each number of lines.
fn points() -> impl Iterator<Item = (f64, usize)> {
    LEGS.into_iter().flat_map(|legs| LINES.map(|n| (legs, n)))
}

/// The same lines for both sides, and the tables that stand after a build.
pub struct Year {
    n: usize,
    rust_lines: Lines,
    built: Built,
    columns: Columns,
    offsets: Vec<u32>,
    items: Vec<u32>,
    globals: Vec<u32>,
    tests: u64,
    overlaps: u64,
}

impl Year {
    pub fn new(r: &mut Random, n: usize) -> Self {
        Year::of(&cases::year(r, n))
    }

    fn of(lines: &[Line]) -> Self {
        let n = lines.len();
        let rust_lines = Lines::new(lines);
        let built = oracle::build(&rust_lines);
        let (offsets, items, globals) = (built.offsets(), built.items().to_vec(), built.globals());
        let mut y = Year { n, columns: Columns::new(lines), rust_lines, built, offsets, items, globals, tests: 0, overlaps: 0 };
        y.tests = y.standing().total();
        y.overlaps = rust_counted(&y);
        y
    }

    fn standing(&self) -> Standing<'_> {
        Standing {
            grid: self.built.grid(),
            lines: self.columns.coordinates(),
            offsets: &self.offsets,
            items: &self.items,
            globals: &self.globals,
            global_count: self.globals.len() as u64,
        }
    }
}

/// What the port is lent for a build.
struct Lent {
    offsets: Vec<u32>,
    items: Vec<u32>,
    globals: Vec<u32>,
    scratch: Vec<u32>,
}

impl Lent {
    fn new(y: &Year) -> Self {
        let [offsets, items, globals, scratch] = [y.offsets.len(), y.items.len(), y.globals.len(), SCRATCH].map(|n| vec![0; n]);
        Lent { offsets, items, globals, scratch }
    }
}

fn port_build(y: &Year, lent: &mut Lent) {
    let mut out = [0u64; 8];
    let (square, mode) = (Sizing::Square as u32, Mode::Rust as u32);
    let number = port::build(y.columns.coordinates(), square, mode, &mut lent.offsets, &mut lent.items, &mut lent.globals, &mut lent.scratch, &mut out);
    assert_eq!(number, 0);
    black_box((&*lent, &out));
}

fn rust_build(y: &Year) {
    black_box(oracle::build(&y.rust_lines));
}

pub fn builds(clock: &Clock, years: &[Year]) {
    clock.head("Build: the port clears what it is lent, the Rust allocates cleared tables. The port also checks every coordinate.");
    for y in years {
        let g = y.built.grid();
        println!("  {} lines: {} by {} cells, {} items, {} globals", y.n, g.cols, g.rows, y.items.len(), y.globals.len());
        let mut lent = Lent::new(y);
        clock.both(&format!("{} lines", y.n), "line", y.n, BAR, &mut || port_build(y, &mut lent), &mut || rust_build(y));
        assert!(lent.offsets == y.offsets && lent.items == y.items && lent.globals == y.globals, "the tables of {} lines", y.n);
    }
    for pair in years.windows(2) {
        let (few, many) = (&pair[0], &pair[1]);
        let (mut a, mut b) = (Lent::new(few), Lent::new(many));
        clock.growth(
            &format!("growth, {} to {} lines", few.n, many.n), &format!("{:.2} times the lines", many.n as f64 / few.n as f64),
            [&mut || port_build(few, &mut a), &mut || port_build(many, &mut b)],
            [&mut || rust_build(few), &mut || rust_build(many)],
        );
    }
}

/// A pair of output slices.
struct Pairs {
    first: Vec<u32>,
    second: Vec<u32>,
}

impl Pairs {
    fn new(room: usize) -> Self {
        Pairs { first: vec![0; room], second: vec![0; room] }
    }
}

/// All batches of the port from the first bookmark to the end. Answers the overlaps.
fn port_visit(y: &Year, pairs: &mut Pairs) -> u64 {
    let standing = y.standing();
    let (mut at, mut overlaps, mut out) = (0, 0, [0u64; 3]);
    while at < y.tests {
        assert_eq!(port::batch(&standing, at, &mut pairs.first, &mut pairs.second, &mut out), 0);
        black_box(&*pairs);
        overlaps += out[1];
        at = out[2];
    }
    overlaps
}

/// A visit of the Rust that only counts the pairs.
fn rust_counted(y: &Year) -> u64 {
    let mut count = 0;
    y.built.visit_each(&y.rust_lines, |_, _| count += 1);
    count
}

/// A visit of the Rust that stores the pairs, and begins again where the output is full. Cleared, the output holds zero beyond the last pairs,
/// as the port's does.
fn rust_stored(y: &Year, pairs: &mut Pairs, cleared: bool) {
    let (first, second) = (&mut pairs.first[..], &mut pairs.second[..]);
    let mut k = 0;
    y.built.visit_each(&y.rust_lines, |i, j| {
        if k == first.len() {
            black_box((&*first, &*second));
            k = 0;
        }
        first[k] = i as u32;
        second[k] = j as u32;
        k += 1;
    });
    if cleared {
        first[k..].fill(0);
        second[k..].fill(0);
    }
    black_box((&*first, &*second));
}

pub fn visits(clock: &Clock, years: &[Year]) {
    clock.head(
        "Visit: each call of the port checks lines, grid and tables, seeks its bookmark, and leaves zero beyond its pairs. The Rust makes its boxes \
         once and checks nothing.\n  \
         Outputs cleared on both sides: the Rust, too, stores the pairs and leaves zero beyond the last; the bar speaks of this. In brackets the same \
         time of the port\n  \
         against a Rust that leaves what stood beyond its pairs (stored), and against one that only counts them (counted).",
    );
    for y in years {
        println!("  {} lines: {} tests, {} overlaps", y.n, y.tests, y.overlaps);
        for room in ROOMS {
            let [mut of_port, mut cleared, mut stored] = [(); 3].map(|_| Pairs::new(room));
            let times = clock.turns(&mut [
                &mut || assert_eq!(port_visit(y, &mut of_port), y.overlaps),
                &mut || rust_stored(y, &mut cleared, true),
                &mut || rust_stored(y, &mut stored, false),
                &mut || { black_box(rust_counted(y)); },
            ]);
            if y.overlaps <= room as u64 {
                assert!(of_port.first == cleared.first && of_port.second == cleared.second, "the pairs of {} lines", y.n);
            }
            let bar = if room == ROOMS[2] && y.n >= 8192 { BAR } else { None };
            clock.show(&format!("{} lines, output of {room}", y.n), "test", y.tests as usize, bar, &times, &["stored", "counted"]);
        }
    }
    for pair in years.windows(2) {
        let (few, many) = (&pair[0], &pair[1]);
        // outputs that just hold the pairs: one call, and nothing to clear
        let [mut a, mut b, mut c, mut d] = [few, many, few, many].map(|y| Pairs::new(y.overlaps as usize));
        clock.growth(
            &format!("growth, {} to {} lines, output full", few.n, many.n), &format!("{:.2} times the tests", many.tests as f64 / few.tests as f64),
            [&mut || { port_visit(few, &mut a); }, &mut || { port_visit(many, &mut b); }],
            [&mut || rust_stored(few, &mut c, true), &mut || rust_stored(many, &mut d, true)],
        );
    }
}

/// The pairs of a visit of the Rust, the lower line first, each once: collected, sorted, and repeats taken out. Answers how many.
fn rust_once(y: &Year) -> usize {
    let mut pairs = Vec::new();
    y.built.visit_each(&y.rust_lines, |i, j| pairs.push((i.min(j) as u64) << 32 | i.max(j) as u64));
    pairs.sort_unstable();
    pairs.dedup();
    black_box(&pairs).len()
}

/// A visit that hands out each pair once, beside a Rust that looks back for each test whether it is the first, beside the plain visit in one batch, beside
/// the Rust's callback that only counts, and beside a Rust that takes the repeats out of what it is handed. The port's outputs just hold the pairs, so there is
/// nothing to clear in them. Where that last Rust would hold more than 2^24 pairs it is left out.
pub fn once(clock: &Clock, years: &[Year], seed: u64) {
    clock.head(
        "Each pair once: lists by line, the visit, and zero in the scratch. Back: a Rust that makes boxes and lists by line, and looks back for each test whose \
         boxes overlap.\n  Plain: one batch of the port that hands out every test's pair. Counted: the Rust's callback, which only counts every test's pair. Sorted: \
         the Rust's visit, whose\n  pairs are collected, sorted and rid of repeats. The last two: 12 legs an orbit. Nanoseconds a test.",
    );
    let long = [8192, 65536].map(|n| Year::of(&cases::orbits(&mut Random::new(seed), n, 12.0)));
    for y in years.iter().chain(&long) {
        let standing = y.standing();
        assert!(y.globals.is_empty(), "the plain Rust has no globals");
        let lent = |room: usize| OnceLent {
            first: vec![0; room], second: vec![0; room], starts: vec![0; y.n + 1], listing: vec![0; y.items.len()], counts: vec![0; y.n],
        };
        let mut out = [0u64];
        // with no room the refusal says how many pairs there are
        port::pairs_once(&standing, &mut lent(0), &mut out);
        let (mut each, mut looked, mut all) = (lent(out[0] as usize), Pairs::new(out[0] as usize), Pairs::new(y.overlaps as usize));
        let mut once = || assert_eq!(port::pairs_once(&standing, &mut each, &mut [0]), 0);
        let mut back = || assert_eq!(plain::pairs_once(&standing, &mut looked.first, &mut looked.second) as u64, out[0]);
        let mut batch = || assert_eq!(port_visit(y, &mut all), y.overlaps);
        let mut counted = || assert_eq!(black_box(rust_counted(y)), y.overlaps);
        let mut sorted = || assert_eq!(rust_once(y) as u64, out[0]);
        let held = y.overlaps <= 1 << 24;
        let others: &[(&str, Option<f64>)] = &[("back", BACK_BAR), ("plain", None), ("counted", None), ("sorted", ONCE_BAR)][..if held { 4 } else { 3 }];
        let parties: &mut [&mut dyn FnMut()] =
            if held { &mut [&mut once, &mut back, &mut batch, &mut counted, &mut sorted] } else { &mut [&mut once, &mut back, &mut batch, &mut counted] };
        let times = clock.turns(parties);
        assert!(each.first == looked.first && each.second == looked.second, "the pairs of {} lines", y.n);
        let of_a_test = |party: usize| times.of(party) * 1e9 / y.tests as f64;
        print!("  {:<64} once {:>6.2}", format!("{} lines: {} tests, {} overlaps, {} pairs", y.n, y.tests, y.overlaps, out[0]), of_a_test(0));
        for (&(name, bar), party) in others.iter().zip(1..) {
            let ratio = times.ratio(0, party);
            print!("  {name} {:>6.2} once/{name} {ratio:.3}{}", of_a_test(party), clock.held(ratio, bar));
        }
        println!();
    }
}

/// A visit of the port that is checked once, from its start to the end. Answers the overlaps.
fn port_resumed(y: &Year, pairs: &mut Pairs) -> u64 {
    let standing = y.standing();
    let (mut at, mut overlaps, mut out) = ([0u64; 3], 0, [0u64; 5]);
    assert_eq!(port::start(&standing, 0, &mut at), 0);
    loop {
        assert_eq!(port::next(&standing, at, &mut pairs.first, &mut pairs.second, &mut out), 0);
        black_box(&*pairs);
        overlaps += out[1];
        at = [out[2], out[3], out[4]];
        if out[1] < pairs.first.len() as u64 {
            return overlaps;
        }
    }
}

/// A visit that pays for its checks once, in outputs of 4,096 pairs and at the most lines also of 2^20, beside the Rust's callback that only counts.
pub fn resumed(clock: &Clock, seed: u64) {
    clock.head(
        "A visit that pays for its checks once: one start, and then call after call, each with zero beyond its pairs. The Rust makes its boxes once, checks \
         nothing, and only counts.",
    );
    for (legs, n) in points() {
        let y = &Year::of(&cases::orbits(&mut Random::new(seed), n, legs));
        println!("  {n} lines, {legs} legs an orbit: {} items, {} tests, {} overlaps", y.items.len(), y.tests, y.overlaps);
        let most = n == LINES[2];
        let [mut few, mut many] = [ROOMS[0], ROOMS[2]].map(|room| Pairs::new(room));
        let mut resumed = || assert_eq!(port_resumed(y, &mut few), y.overlaps);
        let mut counted = || assert_eq!(black_box(rust_counted(y)), y.overlaps);
        let mut wide = || assert_eq!(port_resumed(y, &mut many), y.overlaps);
        let parties: &mut [&mut dyn FnMut()] = if most { &mut [&mut resumed, &mut counted, &mut wide] } else { &mut [&mut resumed, &mut counted] };
        let times = clock.turns(parties);
        let of_a_test = |party: usize| times.of(party) * 1e9 / y.tests as f64;
        let outputs: &[(usize, usize)] = if most { &[(0, ROOMS[0]), (2, ROOMS[2])] } else { &[(0, ROOMS[0])] };
        for &(party, room) in outputs {
            let ratio = times.ratio(party, 1);
            let name = format!("{legs} legs an orbit, output of {room}");
            println!("  {name:<44} port {:>9.2}  Rust {:>9.2} ns a test   port/Rust {ratio:.3}{}", of_a_test(party), of_a_test(1), clock.held(ratio, VISIT_BAR));
        }
    }
}

/// A build and a visit of all its pairs beside GEOS's STRtree, built and asked for the lines over each line.
pub fn trees(clock: &Clock, seed: u64) {
    clock.head(
        "A build and a visit that is checked once, in outputs of 4,096 pairs, beside GEOS's STRtree: the tree of all lines, and a query for each line, whose \
         answers of a higher number are counted.",
    );
    let Some(geos) = Geos::load() else { return };
    for (legs, n) in points() {
        let lines = cases::orbits(&mut Random::new(seed), n, legs);
        let y = &Year::of(&lines);
        let (mut lent, mut pairs) = (Lent::new(y), Pairs::new(ROOMS[0]));
        let mut found = 0;
        let times = clock.turns(&mut [
            &mut || {
                port_build(y, &mut lent);
                assert_eq!(port_resumed(y, &mut pairs), y.overlaps);
            },
            &mut || found = geos.tree(black_box(&lines)).overlaps(),
        ]);
        let ratio = times.ratio(0, 1);
        println!(
            "  {:<32} port {:>9.2} ms, {:>9} pairs   GEOS {:>9.2} ms, {found:>9} pairs   port/GEOS {ratio:.3}{}",
            format!("{n} lines, {legs} legs an orbit"), times.of(0) * 1e3, y.overlaps, times.of(1) * 1e3, clock.held(ratio, BAR),
        );
    }
}

/// Bytes that each side uses for a build and then a visit of all pairs. What the Rust allocates is counted while it runs.
pub fn memory(clock: &Clock, y: &Year) {
    clock.head(&format!("Memory at {} lines, bytes: a build, and then a visit of all pairs", y.n));
    let word = std::mem::size_of::<u32>();
    let coordinates = 4 * y.n * std::mem::size_of::<f64>();
    let tables = word * (y.offsets.len() + y.items.len() + y.globals.len());
    let port_build = coordinates + tables + word * SCRATCH;
    println!("  port: coordinates {coordinates}, tables {tables}, scratch of the build {}; it allocates nothing", word * SCRATCH);
    let lines = y.rust_lines.bytes();
    let (building, built) = heap::peak(|| oracle::build(&y.rust_lines));
    let kept = built.bytes();
    let (boxes, _) = heap::peak(|| rust_counted(y));
    let each = lines / y.n;
    println!("  Rust: lines {lines} ({each} each, with z and an id), {building} more at the peak of the build, tables kept {kept}, boxes of the visit {boxes}");
    let rust_build = lines + building;
    println!("  {:<44} port {port_build:>9}  Rust {rust_build:>9}            port/Rust {:.3}", "build", port_build as f64 / rust_build as f64);
    for room in ROOMS {
        // pairs are stored alike on both sides
        let output = 2 * word * room;
        let (port, rust) = (coordinates + tables + output, lines + kept + boxes + output);
        let name = format!("visit, output of {room} on both sides");
        println!("  {name:<44} port {port:>9}  Rust {rust:>9}            port/Rust {:.3}", port as f64 / rust as f64);
        let (port, rust) = (port.max(port_build), rust.max(rust_build));
        let ratio = port as f64 / rust as f64;
        let bar = if room == ROOMS[0] { MEMORY_BAR } else { None };
        println!("  {:<44} port {port:>9}  Rust {rust:>9}            port/Rust {ratio:.3}{}", "  peak over both stages", clock.held(ratio, bar));
    }
}
