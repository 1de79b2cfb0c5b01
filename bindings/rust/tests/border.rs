//! The library's functions as they are exported: what a short `out`, too few words, an unknown sizing and an unknown mode of walk are answered by,
//! and what of a grid's words is read.

use morelturret::{sys, Grid, Mode, Sizing, Strategy, SCRATCH};

const JUNK: u64 = 0xdead_beef_dead_beef;
const FOUR: Grid = Grid { min_x: 0.0, min_y: 0.0, cell_width: 1.0, cell_height: 1.0, cols: 4, rows: 4 };

/// A function that takes a grid's words and `out`, and how many words a success writes.
type Asked = (&'static str, fn(&[u64], &mut [u64]) -> u32, usize);

/// Every function that takes a grid, each with arguments that it answers, on a grid of no lines but for the points.
const TAKEN: [Asked; 18] = [
    ("point_owned", |grid, out| sys::point_owned(grid, 0, 0, 0.5, 0.5, out), 1),
    ("overlap_owned", |grid, out| sys::overlap_owned(grid, 0, 0, 0.5, 0.5, 0.0, Strategy::Grid as u32, out), 1),
    ("owner", |grid, out| sys::owner(grid, 0.5, 0.5, out), 3),
    ("owners", |grid, out| sys::owners(grid, &[0.5; 2], &[0.5; 2], &mut [7; 2], out), 1),
    ("segment_cells", |grid, out| sys::segment_cells(grid, 0.5, 0.5, 2.5, 0.5, Mode::Sided as u32, &mut vec![7; SCRATCH], out), 1),
    ("check_tables", |grid, out| sys::check_tables(grid, 0, &[0; 17], &[], &[], 0, out), 1),
    ("cell_list", |grid, out| sys::cell_list(grid, 0, &[0; 17], &[], &[], 0, 0, 0, out), 2),
    ("global_list", |grid, out| sys::global_list(grid, 1, &[0; 17], &[], &[0], 1, 0, out), 2),
    ("visit_cost", |grid, out| sys::visit_cost(grid, 0, &[0; 17], &[], &[], 0, out), 2),
    ("lists_by_line", |grid, out| sys::lists_by_line(grid, 0, &[0; 17], &[], &[], 0, &mut [7], &mut [7], out), 1),
    (
        "pairs_once",
        |grid, out| sys::pairs_once(grid, &[], &[], &[], &[], &[0; 17], &[], &[], 0, &mut [7], &mut [7], &mut [7], &mut [7], &mut [7], out),
        1,
    ),
    ("test_at", |grid, out| sys::test_at(grid, &[], &[], &[], &[], &[0; 17], &[], &[], 0, 0, out), 6),
    ("count", |grid, out| sys::count(&[], &[], &[], &[], grid, 0, &mut [7; 17], &mut vec![7; SCRATCH], out), 2),
    ("tables_on", |grid, out| sys::tables_on(&[], &[], &[], &[], grid, 0, &mut [7; 17], &mut [], &mut [], &mut vec![7; SCRATCH], out), 2),
    ("add_line", |grid, out| sys::add_line(grid, 0, 0.5, 0.5, 0.5, 0.5, 0, &mut [0; 17], &mut [7], &mut [], 0, &mut vec![7; SCRATCH], out), 3),
    ("batch", |grid, out| sys::batch(grid, &[], &[], &[], &[], &[0; 17], &[], &[], 0, 0, &mut [7], &mut [7], out), 3),
    ("start", |grid, out| sys::start(grid, &[], &[], &[], &[], &[0; 17], &[], &[], 0, 0, out), 3),
    ("next_unchecked", |grid, out| sys::next_unchecked(grid, &[], &[], &[], &[], &[0; 17], &[], &[], 0, 0, 0, 0, &mut [7], &mut [7], out), 5),
];

#[test]
fn too_few_words_after_a_short_out() {
    let words = FOUR.words();
    for (name, ask, needed) in TAKEN {
        let mut out = [JUNK; 6];
        for few in 0..6 {
            assert_eq!(ask(&words[..few], &mut out[..needed]), 101, "{name} with {few} words");
            assert_eq!(ask(&words[..few], &mut out[..needed - 1]), 100, "{name}: a short out comes first");
        }
        assert_eq!(ask(&words, &mut out[..needed - 1]), 100, "{name} with a short out");
        assert_eq!(out, [JUNK; 6], "{name} writes nothing");
        assert_eq!(ask(&words, &mut out[..needed]), 0, "{name}");
    }
}

/// The functions that take no grid and no slice but `out`.
#[test]
fn a_short_out_and_words_beyond_a_result() {
    let mut out = [JUNK; 3];
    for words in 0..2 {
        assert_eq!(sys::snap(f64::NAN, 0.5, -1.0, 1, &mut out[..words]), 100, "snap: before every refusal");
    }
    assert_eq!(sys::strategies_agree(f64::NAN, -1.0, &mut []), 100, "strategies_agree: before every refusal");
    assert_eq!(out, [JUNK; 3], "nothing is written");
    assert_eq!((sys::strategies_agree(0.49999999999999994, 1.0, &mut out), out), (0, [0, JUNK, JUNK]));
    assert_eq!((sys::strategies_agree(-2.5, 1.0, &mut out), out), (0, [1, JUNK, JUNK]));
    assert_eq!((sys::snap(-2.5, 0.25, 1.0, 0, &mut out), out), (0, [(-3.0f64).to_bits(), 0, JUNK]));
}

#[test]
fn further_words_are_not_read() {
    let mut words = [JUNK; 8];
    words[..6].copy_from_slice(&FOUR.words());
    for (name, ask, needed) in TAKEN {
        let (mut out, mut again) = ([JUNK; 6], [JUNK; 6]);
        assert_eq!(ask(&FOUR.words(), &mut out[..needed]), 0, "{name}");
        assert_eq!(ask(&words, &mut again[..needed]), 0, "{name} with further words");
        assert_eq!(out, again, "{name}");
    }
}

#[test]
fn counts_beyond_32_bits_are_unfit() {
    for at in [4, 5] {
        for count in [1 << 32, (1 << 32) + 4, u64::MAX] {
            let mut words = FOUR.words();
            words[at] = count;
            for (name, ask, needed) in TAKEN {
                let mut out = [JUNK; 6];
                // the one that checks no grid makes no test
                let number = if name == "next_unchecked" { 0 } else { 8 };
                assert_eq!((ask(&words, &mut out[..needed]), out[0]), (number, 0), "{name} with {count} in word {at}");
            }
        }
    }
}

#[test]
fn a_built_grid_is_handed_on_as_it_comes() {
    let (x, y) = ([0.0, 2.0, 2.0, 0.0, 0.0], [0.0, 0.0, 2.0, 2.0, 0.0]);
    let (mut offsets, mut items, mut globals, mut scratch) = ([0; 16], [0; 32], [0; 4], vec![0; SCRATCH]);
    for (sizing, mode) in [Mode::Rust, Mode::Sided, Mode::Covering].into_iter().flat_map(|mode| [(Sizing::Square, mode), (Sizing::Axes, mode)]) {
        let (mut built, mut out) = ([0; 8], [0; 3]);
        let number =
            sys::build(&x[..4], &y[..4], &x[1..], &y[1..], sizing as u32, mode as u32, &mut offsets, &mut items, &mut globals, &mut scratch, &mut built);
        assert_eq!(number, 0, "{sizing:?} {mode:?}");
        let (mut first, mut second) = ([0; 16], [0; 16]);
        let visit = |first: &mut [u32], second: &mut [u32], out: &mut [u64]| {
            sys::batch(&built, &x[..4], &y[..4], &x[1..], &y[1..], &offsets, &items, &globals, built[7], 0, first, second, out)
        };
        assert_eq!(visit(&mut first, &mut second, &mut out), 0, "{sizing:?} {mode:?}");
        // the covering walk lists a corner in one cell, the others list it in those beside it too
        let tests = if mode == Mode::Covering { 4 } else { 9 };
        assert_eq!(out, [tests; 3], "{sizing:?} {mode:?}");
    }
}

/// Every word of the grid goes to its own place: width before height.
#[test]
fn the_words_of_a_build() {
    let (x, y) = ([0.0, 2000.0, 2000.0, 0.0, 0.0], [0.5, 0.5, 2.5, 2.5, 0.5]);
    let (mut offsets, mut items, mut globals, mut scratch) = ([0; 16], [0; 32], [0; 4], vec![0; SCRATCH]);
    let mut built = [JUNK; 9];
    let number = sys::build(&x[..4], &y[..4], &x[1..], &y[1..], 1, 0, &mut offsets, &mut items, &mut globals, &mut scratch, &mut built);
    let [width, height] = [1000.0f64, 1.0].map(f64::to_bits);
    assert_eq!((number, built), (0, [0, 0.5f64.to_bits(), width, height, 3, 3, 18, 0, JUNK]), "the ninth word stays");
    // row 0 reaches from 0.5 to 1.5, column 0 from 0 to 1000
    for (row, col, x, y) in [(0, 0, 999.0, 1.25), (1, 0, 999.0, 1.5), (0, 1, 1000.0, 1.25), (2, 2, 2500.0, 3.0)] {
        let mut out = [JUNK; 3];
        assert_eq!((sys::owner(&built, x, y, &mut out), out), (0, [1, row, col]), "{x} {y}");
    }
}

/// A build of one line into junk, with so many ends, entries of scratch and words of `out`: its number, and whether nothing at all was written.
fn built(line: [f64; 4], (sizing, mode): (u32, u32), ends: usize, scratch: usize, words: usize) -> (u32, bool) {
    let [start_x, start_y, end_x, end_y] = line.map(|v| [v]);
    let [mut offsets, mut items, mut globals] = [[7; 8]; 3];
    let (mut scratch, mut out) = (vec![7; scratch], [JUNK; 9]);
    let (offsets, items, globals) = (&mut offsets[..], &mut items[..], &mut globals[..]);
    let number = sys::build(&start_x, &start_y, &end_x[..ends], &end_y, sizing, mode, offsets, items, globals, &mut scratch, &mut out[..words]);
    let left = [&*offsets, items, globals, &scratch].iter().all(|slice| slice.iter().all(|&entry| entry == 7));
    (number, left && out == [JUNK; 9])
}

/// Numbers that name a sizing, or a mode of walk, and such as name none.
const NAMES: [u32; 7] = [0, 1, 2, 3, 256, 1 << 31, u32::MAX];

#[test]
fn an_unknown_sizing_after_a_short_out_and_an_unknown_mode_after_that() {
    let line = [0.0, 0.0, 2.0, 2.0];
    for plan in NAMES.into_iter().flat_map(|sizing| NAMES.map(|mode| (sizing, mode))) {
        for words in 0..8 {
            assert_eq!(built(line, plan, 1, SCRATCH, words), (100, true), "{plan:?}, {words} words");
        }
        let wanted = match plan {
            (2.., _) => (102, true),
            (_, 3..) => (103, true),
            _ => (0, false),
        };
        assert_eq!(built(line, plan, 1, SCRATCH, 8), wanted, "{plan:?}");
        if wanted.0 != 0 {
            // before every refusal: lengths, the scratch, a coordinate
            assert_eq!(built(line, plan, 0, SCRATCH, 9), wanted);
            assert_eq!(built(line, plan, 1, SCRATCH - 1, 8), wanted);
            assert_eq!(built([0.0, f64::NAN, 2.0, 2.0], plan, 1, SCRATCH, 8), wanted);
        }
    }
}

/// The walk of one segment into junk, with so many words of its grid, entries of scratch and words of `out`: its number, and whether nothing at all
/// was written.
fn walked(line: [f64; 4], mode: u32, grid: usize, scratch: usize, words: usize) -> (u32, bool) {
    let [x0, y0, x1, y1] = line;
    let (mut scratch, mut out) = (vec![7; scratch], [JUNK; 2]);
    let number = sys::segment_cells(&FOUR.words()[..grid], x0, y0, x1, y1, mode, &mut scratch, &mut out[..words]);
    (number, scratch.iter().all(|&entry| entry == 7) && out == [JUNK; 2])
}

#[test]
fn an_unknown_mode_of_one_walk() {
    let line = [0.5, 0.5, 2.5, 0.5];
    for mode in NAMES {
        let wanted = if mode < 3 { (0, false) } else { (103, true) };
        assert_eq!(walked(line, mode, 6, SCRATCH, 1), wanted, "mode {mode}");
        assert_eq!(walked(line, mode, 6, SCRATCH, 0), (100, true), "a short out comes first");
        assert_eq!(walked(line, mode, 5, SCRATCH, 1), (101, true), "then a grid of too few words");
        if mode > 2 {
            // before every refusal: the scratch, a coordinate
            assert_eq!(walked(line, mode, 6, SCRATCH - 1, 2), wanted);
            assert_eq!(walked([f64::NAN, 0.5, 2.5, 0.5], mode, 6, SCRATCH, 2), wanted);
        }
    }
}

/// Each mode has its own number: 1 is the sided one, and 2 the covering one, which knows no boundaries.
#[test]
fn the_numbers_of_the_modes() {
    let x = 1.0 - 2f64.powi(-41);
    for (mode, count) in [(0, 1), (1, 2), (2, 1)] {
        let (mut scratch, mut out) = (vec![7; SCRATCH], [JUNK]);
        assert_eq!((sys::segment_cells(&FOUR.words(), x, 0.5, x, 0.5, mode, &mut scratch, &mut out), out), (0, [count]), "mode {mode}");
        // the same in a build, on a grid whose cells are 1 by 1
        let (xs, ys) = ([0.0, 2.0, 2.0, 0.0, x], [0.0, 0.0, 2.0, 2.0, 0.5]);
        let (mut offsets, mut items, mut globals, mut built) = ([0; 16], [0; 32], [0; 4], [JUNK; 8]);
        let number = sys::build(&xs[..4], &ys[..4], &xs[1..], &ys[1..], 0, mode, &mut offsets, &mut items, &mut globals, &mut scratch, &mut built);
        assert_eq!((number, built[4], built[5]), (0, 3, 3));
        assert_eq!(items[offsets[1] as usize..offsets[2] as usize].contains(&3), mode == 1, "mode {mode}");
    }
}
