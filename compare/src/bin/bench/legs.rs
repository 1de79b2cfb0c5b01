//! Builds of a year in few and in many legs an orbit, in the Rust's mode and in the covering one, beside the Rust's: from lines of two cells and lists of
//! two lines to lines of a hundred cells and lists of fifty.

use super::clock::Clock;
use compare::kinds::build::Columns;
use compare::model::SCRATCH;
use compare::oracle::{self, Lines};
use compare::random::Random;
use compare::{cases, port, Line, Mode, Sizing};
use std::hint::black_box;

/// How many legs an orbit is in.
pub const LEGS: [f64; 3] = [12.0, 60.0, 400.0];
pub const LINES: [usize; 3] = [1023, 8192, 65536];

const BAR: Option<f64> = Some(0.5);
const COVERING_BAR: Option<f64> = Some(0.35);
/// Items of a build in the covering mode by the Rust's items.
const ITEMS_BAR: Option<f64> = Some(1.001);

/// The average length of the lists that have lines, and the greatest.
fn lengths(offsets: &[u32]) -> (f64, u32) {
    let lists: Vec<u32> = offsets.windows(2).map(|ends| ends[1] - ends[0]).filter(|&k| k > 0).collect();
    (lists.iter().sum::<u32>() as f64 / lists.len() as f64, lists.into_iter().max().unwrap_or(0))
}

/// A build in a mode, into slices that just hold its tables.
fn build(clock: &Clock, name: &str, lines: &[Line], mode: Mode) {
    let rust_lines = Lines::new(lines);
    let rust = oracle::build(&rust_lines);
    let columns = Columns::new(lines);
    let mut scratch = vec![0u32; SCRATCH];
    let mut out = [0u64; 8];
    let mut port_build = |offsets: &mut [u32], items: &mut [u32], globals: &mut [u32], out: &mut [u64]| {
        port::build(columns.coordinates(), Sizing::Square as u32, mode as u32, offsets, items, globals, &mut scratch, out)
    };
    let offsets = &mut vec![0; rust.offsets().len()];
    let (items, globals) = (&mut vec![0; 2 * rust.items().len()], &mut vec![0; lines.len()]);
    assert_eq!(port_build(offsets, items, globals, &mut out), 0);
    items.truncate(out[6] as usize);
    globals.truncate(out[7] as usize);
    let covering = matches!(mode, Mode::Covering);
    assert!(covering || (*offsets == rust.offsets() && items[..] == *rust.items() && *globals == rust.globals()), "the tables of {name}");
    let (average, longest) = lengths(offsets);
    let bar = if covering { COVERING_BAR } else { BAR };
    clock.both(
        &format!("{name} ({average:.1}; {longest})"),
        "line",
        lines.len(),
        bar,
        &mut || {
            assert_eq!(port_build(offsets, items, globals, &mut out), 0);
            black_box((&*offsets, &*items, &*globals));
        },
        &mut || {
            black_box(oracle::build(&rust_lines));
        },
    );
    if covering {
        let found = items.len() as f64 / rust.items().len() as f64;
        println!("  {:<44} port {:>9}  Rust {:>9}                 port/Rust {found:.6}{}", "  items", items.len(), rust.items().len(), clock.held(found, ITEMS_BAR));
    }
}

pub fn builds(clock: &Clock, r: &mut Random, mode: Mode) {
    let walk = if matches!(mode, Mode::Covering) { "in the covering mode" } else { "in the Rust's mode" };
    clock.head(&format!("Builds {walk} beside the Rust's. In brackets the lines of a list on average, of those that have any, and of the longest."));
    for legs in LEGS {
        for n in LINES {
            build(clock, &format!("{n} lines, {legs} legs an orbit"), &cases::orbits(r, n, legs), mode);
        }
    }
}
