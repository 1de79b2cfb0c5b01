//! The ordering of a walk's cells beside Rust's `sort_unstable`, of as many numbers as a walk can find, in orders that are hard for one method or
//! another.

use super::clock::Clock;
use compare::port;
use compare::random::Random;
use std::hint::black_box;

const BAR: Option<f64> = Some(1.5);

/// The most cells that a walk finds.
const ENTRIES: u32 = 15_008;

/// The cells of the largest grid that is tried.
const CELLS: u64 = 1_000_000;

/// The numbers with what they are called, and whether the bar speaks of them.
fn rows(r: &mut Random) -> Vec<(&'static str, bool, Vec<u32>)> {
    let n = ENTRIES;
    let by_place = |f: &dyn Fn(u32) -> u32| (0..n).map(f).collect::<Vec<_>>();
    let mut drawn = |f: &mut dyn FnMut(&mut Random) -> u32| (0..n).map(|_| f(r)).collect::<Vec<_>>();
    vec![
        ("in order", true, by_place(&|i| i)),
        ("falling", true, by_place(&|i| n - i)),
        ("all equal", true, by_place(&|_| 7)),
        ("zigzag: a low one and a high one in turn", true, by_place(&|i| if i % 2 == 0 { i } else { 2 * n - i })),
        ("organ pipe: up to the middle, and down", true, by_place(&|i| i.min(n - i))),
        ("1,000 different numbers", true, drawn(&mut |r| (r.below(1000) * CELLS / 1000) as u32)),
        ("random", true, drawn(&mut |r| r.below(CELLS) as u32)),
        ("16 different numbers", true, drawn(&mut |r| (r.below(16) * CELLS / 16) as u32)),
        ("crowded: each power of 2 as likely", false, drawn(&mut |r| r.between(0.0, 32.0).exp2() as u32)),
    ]
}

pub fn times(clock: &Clock, r: &mut Random) {
    clock.head(
        "Ordering (mt_inner_order) of 15,008 numbers, against sort_unstable. Before each turn the numbers are copied to where they are ordered; the\n  \
         time of a copy, which is taken by itself, is left out.",
    );
    for (name, held, numbers) in rows(r) {
        let mut ordered = numbers.clone();
        ordered.sort_unstable();
        let [mut of_port, mut of_rust, mut copied] = [(); 3].map(|_| numbers.clone());
        let times = clock.turns(&mut [
            &mut || {
                of_port.copy_from_slice(&numbers);
                black_box(port::order(black_box(&mut of_port)));
            },
            &mut || {
                of_rust.copy_from_slice(&numbers);
                black_box(&mut of_rust).sort_unstable();
            },
            &mut || {
                copied.copy_from_slice(&numbers);
                black_box(&mut copied);
            },
        ]);
        assert!(of_port == ordered && of_rust == ordered, "the order of: {name}");
        clock.show_beyond(name, "number", ENTRIES as usize, BAR.filter(|_| held), &times);
    }
}
