//! Lines counted on the grid of their build, beside that build: a count is its first half on that grid. What several benches do, each with its own lines.

use super::clock::Clock;
use compare::kinds::build::Columns;
use compare::model::{MOST_LINES, SCRATCH};
use compare::random::Random;
use compare::{cases, port, Grid, Line, Mode, Sizing};
use std::hint::black_box;

/// A count by a build of the port.
const BAR: Option<f64> = Some(1.0);

/// A build in a mode, into slices that just hold its tables, and a count of the same lines on its grid.
fn row(clock: &Clock, name: &str, lines: &[Line], mode: Mode) {
    let columns = Columns::new(lines);
    let (mut of_count, mut of_build) = (vec![0; SCRATCH], vec![0; SCRATCH]);
    let mut built = [0; 8];
    let mut build = |offsets: &mut [u32], items: &mut [u32], globals: &mut [u32], out: &mut [u64]| {
        port::build(columns.coordinates(), Sizing::Square as u32, mode as u32, offsets, items, globals, &mut of_build, out)
    };
    let (offsets, globals) = (&mut vec![0; 1_002_002], &mut vec![0; 64]);
    build(offsets, &mut [], globals, &mut built);
    let items = &mut vec![0; built[0] as usize];
    assert_eq!(build(offsets, items, globals, &mut built), 0, "a year is in the domain");
    let grid = Grid::from_words(built[..6].try_into().unwrap());
    offsets.truncate(grid.cols as usize * grid.rows as usize + 1);
    globals.truncate(built[7] as usize);
    let (mut counts, mut counted) = (vec![0; offsets.len()], [0; 2]);
    let times = clock.turns(&mut [
        &mut || {
            assert_eq!(port::count(columns.coordinates(), &grid, mode as u32, &mut counts, &mut of_count, &mut counted), 0);
            black_box(&counts);
        },
        &mut || {
            assert_eq!(build(offsets, items, globals, &mut built), 0);
            black_box((&*offsets, &*items, &*globals));
        },
    ]);
    assert!(offsets.windows(2).zip(&counts).all(|(ends, &count)| ends[1] - ends[0] == count) && counted[..] == built[6..], "the lengths of the lists");
    let ns = |party: usize| times.of(party) * 1e9 / lines.len() as f64;
    let ratio = times.ratio(0, 1);
    println!("  {name:<44} count {:>8.2}  build {:>8.2} ns a line  count/build {ratio:.3}{}", ns(0), ns(1), clock.held(ratio, BAR));
}

pub fn times(clock: &Clock, r: &mut Random) {
    clock.head("Count: 65,536 lines on the grid of their build, and the time by that of the build, which tries grids, counts and places.");
    for (shape, lines) in [("a year", cases::year(r, MOST_LINES)), ("a year of 12 legs an orbit", cases::orbits(r, MOST_LINES, 12.0))] {
        row(clock, shape, &lines, Mode::Rust);
        row(clock, &format!("{shape}, covering"), &lines, Mode::Covering);
    }
}
