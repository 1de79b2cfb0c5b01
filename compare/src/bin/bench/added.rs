//! Lines added to standing tables, beside a build of all lines. What the check of the tables (refusal 10) takes is said apart, and so is the copy by which each
//! round begins with the same tables.

use super::clock::Clock;
use compare::kinds::build::Columns;
use compare::model::{Lists, MOST_LINES, SCRATCH};
use compare::random::Random;
use compare::{cases, port, Grid, Line, Mode, Sizing};
use std::hint::black_box;

/// One line by a build, without the check of the tables and with it.
const BARS: [Option<f64>; 2] = [Some(0.05), Some(0.15)];

struct Held {
    lines: usize,
    offsets: Vec<u32>,
    items: Vec<u32>,
    globals: Vec<u32>,
    global_count: u64,
}

fn build(lines: &Columns, held: &mut Held, scratch: &mut [u32]) -> (u32, [u64; 8]) {
    let mut out = [0; 8];
    let number = port::build(lines.coordinates(), Sizing::Square as u32, Mode::Rust as u32, &mut held.offsets, &mut held.items, &mut held.globals, scratch, &mut out);
    black_box(&*held);
    (number, out)
}

/// So many lines from `at` on, added to the tables of the others.
fn row(clock: &Clock, name: &str, lines: &[Line], at: usize, legs: usize) {
    let all = &[&lines[..at], &lines[at + legs..], &lines[at..at + legs]].concat()[..];
    let scratch = &mut vec![0; SCRATCH];
    let columns = Columns::new(all);
    let mut whole = Held { lines: all.len(), offsets: vec![0; 1_002_002], items: vec![], globals: vec![0; 64], global_count: 0 };
    let items = build(&columns, &mut whole, scratch).1[0] as usize;
    whole.items.resize(items, 0);
    let (number, out) = build(&columns, &mut whole, scratch);
    assert_eq!(number, 0, "a year is in the domain");
    let grid = Grid::from_words(out[..6].try_into().unwrap());
    whole.offsets.truncate(grid.cols as usize * grid.rows as usize + 1);
    // the lines before, on that grid, in slices that fit what they will hold
    let before = Columns::new(&all[..all.len() - legs]);
    let mut held = Held { lines: all.len() - legs, offsets: whole.offsets.clone(), items: whole.items.clone(), globals: whole.globals.clone(), global_count: 0 };
    let mut words = [0; 2];
    let number = port::tables_on(before.coordinates(), &grid, Mode::Rust as u32, &mut held.offsets, &mut held.items, &mut held.globals, scratch, &mut words);
    assert_eq!(number, 0);
    held.global_count = words[1];
    let copy = |to: &mut Held| {
        to.offsets.copy_from_slice(&held.offsets);
        to.items.copy_from_slice(&held.items);
        to.globals.copy_from_slice(&held.globals);
        (to.lines, to.global_count) = (held.lines, held.global_count);
        black_box(&mut *to);
    };
    let room = || Held { lines: 0, offsets: held.offsets.clone(), items: held.items.clone(), globals: held.globals.clone(), global_count: 0 };
    let (mut grown, mut copied, mut built) = (room(), room(), room());
    let (mut of_add, mut of_build) = (vec![0; SCRATCH], vec![0; SCRATCH]);
    let standing = Lists { grid, lines: held.lines, offsets: &held.offsets, items: &held.items, globals: &held.globals, global_count: held.global_count };
    let times = clock.turns(&mut [
        &mut || {
            copy(&mut grown);
            for line in &all[held.lines..] {
                let mut out = [0; 3];
                let slices = [&mut grown.offsets[..], &mut grown.items[..], &mut grown.globals[..], &mut of_add[..]];
                assert_eq!(port::add_line(&grid, Mode::Rust as u32, line, grown.lines, slices, grown.global_count, &mut out), 0);
                (grown.lines, grown.global_count) = (grown.lines + 1, out[1]);
            }
            black_box(&grown.items);
        },
        &mut || copy(&mut copied),
        &mut || assert_eq!(port::check_tables(black_box(&standing), &mut [0]), 0),
        &mut || assert_eq!(build(&columns, &mut built, &mut of_build).0, 0),
    ]);
    assert!(grown.offsets == whole.offsets && grown.items == whole.items && grown.globals == whole.globals, "the tables of all lines");
    let (with, check, rebuild) = (times.beyond(0, 1), times.of(2) * legs as f64, times.of(3));
    let ratios = [(with - check) / rebuild, with / rebuild];
    let bars = if legs == 1 { BARS } else { [None; 2] };
    println!(
        "  {name:<44} {:>8.2} ms without the check {:.3}{}, {:>8.2} ms with it {:.3}{}; the check {:.2} ms, a build {:.2} ms",
        (with - check) * 1e3, ratios[0], clock.held(ratios[0], bars[0]), with * 1e3, ratios[1], clock.held(ratios[1], bars[1]), check * 1e3, rebuild * 1e3,
    );
}

pub fn times(clock: &Clock, r: &mut Random) {
    clock.head("Lines added to the tables of the others, of 65,536 in all, and their time by that of a build of all of them.");
    for (shape, lines) in [("a year", cases::year(r, MOST_LINES)), ("a year of 12 legs an orbit", cases::orbits(r, MOST_LINES, 12.0))] {
        // how many items move is how many stand behind the first list that gets the number
        row(clock, &format!("{shape}, its first line"), &lines, 0, 1);
        row(clock, &format!("{shape}, a line of midsummer"), &lines, MOST_LINES / 2, 1);
        row(clock, &format!("{shape}, a pass of 12 legs"), &lines, MOST_LINES / 2, 12);
    }
}
