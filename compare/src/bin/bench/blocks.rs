//! Counts per block: which blocks are empty, told by the summary beside reading every offset; and making the summary, and keeping it as a line is added, beside
//! a build. What the check of the tables (refusal 10) takes is said apart.

use super::clock::Clock;
use compare::kinds::build::Columns;
use compare::model::{self, Lists, MOST_LINES, SCRATCH};
use compare::random::Random;
use compare::{cases, port, Grid, Line, Mode, Sizing};
use std::hint::black_box;

/// Making by a build, and keeping by a build: without the check of the tables and with it.
const BARS: [f64; 2] = [0.05, 0.15];

/// The blocks that list nothing, from every offset.
fn empty_by_offsets(g: &Grid, offsets: &[u32], empty: &mut [bool]) {
    let across = model::blocks_along(g.cols) as usize;
    empty.fill(true);
    for row in 0..g.rows as usize {
        for col in 0..g.cols as usize {
            let cell = row * g.cols as usize + col;
            if offsets[cell] != offsets[cell + 1] {
                empty[row / 16 * across + col / 16] = false;
            }
        }
    }
}

/// Lines on a grid of 1,001 by 1,001 cells: what the summary spares.
fn emptiness(clock: &Clock, name: &str, lines: &[Line]) {
    let grid = Grid { min_x: 0.0, min_y: 0.0, cell_width: 1.0, cell_height: 1.0, cols: 1_001, rows: 1_001 };
    let columns = Columns::new(lines);
    let (mut offsets, mut items, mut globals, mut scratch) = (vec![0; 1_002_002], vec![0; 1 << 25], vec![0; lines.len()], vec![0; SCRATCH]);
    let mut out = [0; 2];
    assert_eq!(port::tables_on(columns.coordinates(), &grid, Mode::Rust as u32, &mut offsets, &mut items, &mut globals, &mut scratch, &mut out), 0);
    let t = Lists { grid, lines: lines.len(), offsets: &offsets, items: &items[..out[0] as usize], globals: &globals, global_count: out[1] };
    let mut summary = vec![0; 63 * 63];
    assert_eq!(port::block_counts(&t, &mut summary, &mut [0]), 0);
    let (mut by_summary, mut by_offsets) = (vec![false; 63 * 63], vec![false; 63 * 63]);
    let times = clock.turns(&mut [
        &mut || black_box(&summary).iter().zip(&mut by_summary).for_each(|(&n, e)| *e = n == 0),
        &mut || empty_by_offsets(&grid, black_box(&offsets), &mut by_offsets),
    ]);
    assert_eq!(by_summary, by_offsets);
    let empty = by_summary.iter().filter(|&&e| e).count();
    println!("  {name:<44} {:>8.4} ms by the summary, {:>8.2} ms by the offsets: {:.4}; {empty} of 3,969 are empty", times.of(0) * 1e3, times.of(1) * 1e3, times.of(0) / times.of(1));
}

/// Making the summary of a build's tables, and adding the last line to tables and summary, by the time of the build.
fn keeping(clock: &Clock, name: &str, all: &[Line]) {
    let columns = Columns::new(all);
    let (mut offsets, mut items, mut globals, mut scratch) = (vec![0; 1_002_002], vec![0; 1 << 25], vec![0; 64], vec![0; SCRATCH]);
    let mut out = [0; 8];
    let mut build = |offsets: &mut [u32], items: &mut [u32], globals: &mut [u32], scratch: &mut [u32]| {
        let number = port::build(columns.coordinates(), Sizing::Square as u32, Mode::Rust as u32, offsets, items, globals, scratch, &mut out);
        assert_eq!(number, 0, "a year is in the domain");
        (Grid::from_words(out[..6].try_into().unwrap()), out[6] as usize)
    };
    let (grid, total) = build(&mut offsets, &mut items, &mut globals, &mut scratch);
    offsets.truncate(grid.cols as usize * grid.rows as usize + 1);
    items.truncate(total);
    // all lines but the last, on that grid, with their summary
    let before = Columns::new(&all[..all.len() - 1]);
    let (mut held, mut words) = ([offsets.clone(), items.clone(), globals.clone()], [0; 2]);
    {
        let [o, i, g] = &mut held;
        assert_eq!(port::tables_on(before.coordinates(), &grid, Mode::Rust as u32, o, i, g, &mut scratch, &mut words), 0);
    }
    let blocks = (model::blocks_along(grid.cols) * model::blocks_along(grid.rows)) as usize;
    let standing = Lists { grid, lines: all.len() - 1, offsets: &held[0], items: &held[1], globals: &held[2], global_count: words[1] };
    let mut summary = vec![0; blocks];
    assert_eq!(port::block_counts(&standing, &mut summary, &mut [0]), 0);
    let copy = |to: &mut [Vec<u32>; 4]| {
        to.iter_mut().zip([&held[0], &held[1], &held[2], &summary]).for_each(|(a, b)| a.copy_from_slice(b));
        black_box(&mut *to);
    };
    let room = || [held[0].clone(), held[1].clone(), held[2].clone(), summary.clone()];
    let (mut grown, mut alone, mut copied, mut made) = (room(), room(), room(), vec![0; blocks]);
    let [mut of_both, mut of_one, mut of_build] = [0; 3].map(|_| vec![0; SCRATCH]);
    let mut built = (vec![0; offsets.len()], items.clone(), globals.clone());
    let line = &all[all.len() - 1];
    let times = clock.turns(&mut [
        &mut || assert_eq!(port::block_counts(black_box(&standing), &mut made, &mut [0]), 0),
        &mut || {
            copy(&mut grown);
            let [o, i, g, s] = &mut grown;
            assert_eq!(port::add_line_blocks(&grid, Mode::Rust as u32, line, all.len() - 1, [o, i, g, s, &mut of_both], words[1], &mut [0; 3]), 0);
            black_box(&grown);
        },
        &mut || {
            copy(&mut alone);
            let [o, i, g, _] = &mut alone;
            assert_eq!(port::add_line(&grid, Mode::Rust as u32, line, all.len() - 1, [o, i, g, &mut of_one], words[1], &mut [0; 3]), 0);
            black_box(&alone);
        },
        &mut || copy(&mut copied),
        &mut || assert_eq!(port::check_tables(black_box(&standing), &mut [0]), 0),
        &mut || {
            build(&mut built.0, &mut built.1, &mut built.2, &mut of_build);
        },
    ]);
    assert!(grown[0] == offsets && grown[1] == items, "the tables of all lines");
    let (check, rebuild) = (times.of(4), times.of(5));
    let both = times.beyond(1, 3);
    for (what, with) in [("made", times.of(0)), ("kept, with the line", both)] {
        let ratios = [(with - check) / rebuild, with / rebuild];
        println!(
            "  {:<44} {:>8.2} ms without the check {:.3}{}, {:>8.2} ms with it {:.3}{}; the check {:.2} ms, a build {:.2} ms",
            format!("{name}, {what}"), (with - check) * 1e3, ratios[0], clock.held(ratios[0], Some(BARS[0])), with * 1e3, ratios[1], clock.held(ratios[1], Some(BARS[1])), check * 1e3, rebuild * 1e3,
        );
    }
    println!("  {:<44} {:>8.2} ms beside {:.2} ms without the summary", format!("{name}, the line"), both * 1e3, times.beyond(2, 3) * 1e3);
}

pub fn times(clock: &Clock, r: &mut Random) {
    clock.head("Which blocks are empty, at 1,001 by 1,001 cells, and making and keeping the summary of 65,536 lines by the time of a build.");
    let wander: Vec<Line> = (0..20_000).map(|_| {
        let (x, y) = (r.between(100.0, 700.0), r.between(200.0, 600.0));
        [x, y, x + r.between(-4.0, 4.0), y + r.between(-4.0, 4.0)]
    }).collect();
    emptiness(clock, "20,000 short lines in a part of the grid", &wander);
    for (shape, lines) in [("a year", cases::year(r, MOST_LINES)), ("a year of 12 legs an orbit", cases::orbits(r, MOST_LINES, 12.0))] {
        keeping(clock, shape, &lines);
    }
}
