//! Both sizings beside each other: builds and visits of the port, of a year in kelvin and parts per billion, of the same year with its temperatures
//! in a thousandth and in a millionth of a kelvin, and of lines that all lie along one axis.

use super::clock::Clock;
use compare::cases;
use compare::kinds::build::Columns;
use compare::random::Random;
use compare::Line;
use morelturret::{Lines, Sizing, Tables};
use std::hint::black_box;

/// A visit of more tests is not made: they are counted from the lists.
const MOST_TESTS: u64 = 10_000_000_000;

/// A build or a visit is repeated for about so long, in seconds, and made twice at least.
const LONG: f64 = 3.0;

/// The tests of a whole visit, from the lists alone: k(k-1)/2 for each list, and G(n-1) - G(G-1)/2 for the globals.
fn tests_of(tables: &Tables) -> u64 {
    let (rows, cols) = (tables.grid().rows, tables.grid().cols);
    let lists = (0..rows).flat_map(|row| (0..cols).map(move |col| (row, col))).map(|(row, col)| tables.cell(row, col).len() as u64);
    let (n, globals) = (tables.line_count() as u64, tables.globals().len() as u64);
    lists.map(|k| k * k.saturating_sub(1) / 2).sum::<u64>() + globals * n.saturating_sub(1) - globals * globals.saturating_sub(1) / 2
}

/// A whole visit in batches: the tests and the pairs.
fn visit(tables: &Tables, lines: Lines, first: &mut [u32], second: &mut [u32]) -> (u64, u64) {
    let (mut bookmark, mut pairs) = (0, 0);
    loop {
        let batch = tables.batch(lines, bookmark, first, second).expect("the tables that a build left");
        black_box((&*first, &*second));
        bookmark = batch.bookmark;
        pairs += batch.overlaps as u64;
        if batch.overlaps < first.len() {
            return (bookmark, pairs);
        }
    }
}

/// A number with commas between its thousands.
fn commas(n: u64) -> String {
    let digits = n.to_string();
    let places = digits.len();
    digits.chars().enumerate().flat_map(|(i, d)| (i > 0 && (places - i) % 3 == 0).then_some(',').into_iter().chain([d])).collect()
}

const HEAD: &str = "sizing | grid | items | globals | tests | pairs | build, ms | visit, ms |\n  |---|---|---|---|---|---|---|---|---|---|";

/// Two lines of the table, one for each sizing.
fn rows(clock: &Clock, lines: &[Line], data: &str) {
    let columns = Columns::new(lines);
    let c = columns.coordinates();
    let lines = Lines { start_x: c.start_x, start_y: c.start_y, end_x: c.end_x, end_y: c.end_y };
    for sizing in [Sizing::Square, Sizing::Axes] {
        row(clock, lines, data, sizing);
    }
}

/// A build, and a visit where it is made.
fn row(clock: &Clock, lines: Lines, data: &str, sizing: Sizing) {
    let mut tables = Tables::sized(lines, sizing).expect("a year is in the domain");
    let build = clock.alone(LONG, &mut || tables.build(lines, sizing).expect("what was built once"));
    let (grid, tests) = (tables.grid(), tests_of(&tables));
    let (pairs, visiting) = if tests > MOST_TESTS {
        ("not made".into(), String::new())
    } else {
        // an output of as many pairs as there are items, so that few calls check the tables
        let room = tables.items().len().clamp(1 << 16, 1 << 23);
        let (mut first, mut second) = (vec![0; room], vec![0; room]);
        let mut found = (0, 0);
        let seconds = clock.alone(LONG, &mut || found = visit(&tables, lines, &mut first, &mut second));
        assert_eq!(found.0, tests, "the tests that were made are those that were counted");
        (commas(found.1), format!("{:.2}", seconds * 1e3))
    };
    println!(
        "  | {} | {data} | {} | {} by {} | {} | {} | {} | {pairs} | {:.2} | {visiting} |",
        commas(lines.len() as u64), format!("{sizing:?}").to_lowercase(), commas(grid.cols as u64), commas(grid.rows as u64),
        commas(tables.items().len() as u64), commas(tables.globals().len() as u64), commas(tests), build * 1e3,
    );
}

/// A year with its temperatures in each unit.
fn year(clock: &Clock, year: impl Fn(&mut Random, usize) -> Vec<Line>, seed: u64) {
    println!("  | lines | x in | {HEAD}");
    for n in [1023, 8192, 65536] {
        let lines = year(&mut Random::new(seed), n);
        for (unit, factor) in [("K", 1.0), ("mK", 1e3), ("µK", 1e6)] {
            let scaled: Vec<Line> = lines.iter().map(|l| [l[0] * factor, l[1], l[2] * factor, l[3]]).collect();
            rows(clock, &scaled, unit);
        }
    }
}

/// Temperature holds alone: every line at one x, up to a thousandth of the whole height long.
fn holds(clock: &Clock, seed: u64) {
    println!("  | lines | height | {HEAD}");
    for n in [1023, 8192, 65536] {
        for (name, height) in [("5,000", 5000.0), ("1", 1.0)] {
            let r = &mut Random::new(seed);
            let mut hold = || {
                let low = r.unit() * 0.999;
                [281.0, height * low, 281.0, height * (low + r.unit() * 0.001)]
            };
            rows(clock, &(0..n).map(|_| hold()).collect::<Vec<_>>(), name);
        }
    }
}

pub fn times(clock: &Clock, seed: u64) {
    clock.head(
        "Sizings: the port's builds and visits, in milliseconds, the least of the rounds. A visit of more than 10^10 tests is not made: its tests are\n  \
         counted from the lists.",
    );
    println!("  A year as in the stages above: more lines are more orbits, each in shorter legs.");
    year(clock, cases::year, seed);
    println!("\n  A year of 12 legs an orbit.");
    year(clock, |r, n| cases::orbits(r, n, 12.0), seed);
    println!("\n  Temperature holds alone: every line at one x, up to a thousandth of the height long.");
    holds(clock, seed);
}
