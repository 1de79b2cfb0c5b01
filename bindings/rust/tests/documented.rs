//! Document 01's values: the sample, the measured points, the two small builds, each in both sizings. And what each function leaves in lent slices.

use morelturret::*;

const FOUR: Grid = Grid { min_x: 0.0, min_y: 0.0, cell_width: 1.0, cell_height: 1.0, cols: 4, rows: 4 };

/// Entries that no call writes by itself: one that is left alone shows.
const JUNK: u32 = 0xdead_beef;

fn cells(grid: Grid, line: [f64; 4]) -> Vec<u32> {
    cells_in(Mode::Rust, grid, line)
}

fn cells_in(mode: Mode, grid: Grid, line: [f64; 4]) -> Vec<u32> {
    let (start, end) = ((line[0], line[1]), (line[2], line[3]));
    let mut scratch = vec![JUNK; SCRATCH + 3];
    let found = segment_cells(grid, start, end, mode, &mut scratch).unwrap().to_vec();
    assert_eq!(scratch[..found.len()], found);
    assert!(scratch[found.len()..].iter().all(|&entry| entry == 0), "zero beyond the cells");
    found
}

#[test]
fn walks() {
    assert_eq!(cells(FOUR, [0.5, 0.5, 2.5, 0.5]), [0, 1, 2], "P1");
    assert_eq!(cells(FOUR, [1.0, 0.5, 1.0, 2.5]), [0, 1, 4, 5, 8, 9], "P2");
    assert_eq!(cells(FOUR, [1.0; 4]), [0, 1, 4, 5], "P3");
    let at = |x: f64| cells(FOUR, [x, 0.5, x, 0.5]);
    assert_eq!(at(1.0 + 2f64.powi(-41)), [0, 1], "P4");
    assert_eq!(at(1.0 + 2f64.powi(-39)), [1], "P5");
    assert_eq!(at(1.0 - 2f64.powi(-41)), [0], "P6");
    let row = Grid { cols: 4004, rows: 1, ..FOUR };
    assert_eq!(cells(row, [0.5, 0.5, 2047.5, 0.5]), (0..2048).collect::<Vec<u32>>());
    assert_eq!(cells(row, [0.5, 0.5, 2048.5, 0.5]), (0..2049).collect::<Vec<u32>>());
    assert!(cells(Grid { cols: 0, rows: 0, ..FOUR }, [0.5, 0.5, 2.5, 0.5]).is_empty(), "a grid of 0 columns visits nothing");
}

/// Document 02's second mode: P1 to P5 as before, P6 with the upper cell. A value at a boundary adds the lower cell, a value just below it the upper
/// one, each axis by itself, and none beyond the grid.
#[test]
fn sided_walks() {
    let cells = |line| cells_in(Mode::Sided, FOUR, line);
    let hair = 2f64.powi(-41);
    let at = |x: f64| cells([x, 0.5, x, 0.5]);
    assert_eq!(cells([0.5, 0.5, 2.5, 0.5]), [0, 1, 2], "P1");
    assert_eq!(cells([1.0, 0.5, 1.0, 2.5]), [0, 1, 4, 5, 8, 9], "P2");
    assert_eq!(cells([1.0; 4]), [0, 1, 4, 5], "P3");
    assert_eq!(at(1.0 + hair), [0, 1], "P4");
    assert_eq!(at(1.0 + 4.0 * hair), [1], "P5");
    assert_eq!(at(1.0 - hair), [0, 1], "P6");
    assert_eq!(at(1.0 - 4.0 * hair), [0], "off the boundary");
    assert_eq!(at(2.0 - hair), [1, 2], "the upper one instead of the lower");
    assert_eq!(at(4.0 - hair), [3], "no column is above the last");
    assert_eq!(cells([1.0 - hair, 0.5, 1.0 - hair, 2.5]), [0, 1, 4, 5, 8, 9], "a whole line");
    assert_eq!(cells([0.5, 1.5, 1.0 - hair, 1.0]), [0, 1, 4, 5], "a corner, above in x and below in y");
    assert_eq!(cells([1.0 - hair; 4]), [0, 1, 4, 5], "a corner, above on both axes");
    assert_eq!(Mode::default(), Mode::Rust);
}

/// The covering walk: no neighbours at a boundary, and all cells that a line comes near. The examples whose pairs the Rust's walk drops share a cell.
#[test]
fn covering_walks() {
    let cells = |line| cells_in(Mode::Covering, FOUR, line);
    assert_eq!(cells([0.5, 0.5, 2.5, 0.5]), [0, 1, 2], "P1");
    assert_eq!(cells([1.0, 0.5, 1.0, 2.5]), [1, 5, 9], "P2: column 1 alone, since the ends are in it");
    assert_eq!(cells([1.0; 4]), [5], "P3");
    assert_eq!(cells([1.0 - 2f64.powi(-41), 0.5, 1.0 - 2f64.powi(-41), 0.5]), [0], "P6");
    assert_eq!(cells([0.5, 0.5, 1.5, 1.5]), [0, 1, 4, 5], "through a corner: all four cells");
    assert_eq!(cells([1.5, 0.5, 0.5, 1.5]), [0, 1, 4, 5], "the same, falling");
    assert_eq!(cells([0.5, 3.5, 0.5, 1000.0]), [12], "beyond the grid the last row counts");
    assert!(cells_in(Mode::Covering, Grid { cols: 0, rows: 0, ..FOUR }, [-0.5, 0.5, 2.5, 0.5]).is_empty(), "a grid of 0 columns visits nothing");
    let near_1024 = [(1024.64, 1024.04), (1024.18, 1024.27), (1024.0, 1024.0), (1024.24, 1024.24)];
    let (x, y): (Vec<f64>, Vec<f64>) = near_1024.into_iter().unzip();
    let lines = Lines::chain(&x, &y);
    for (mode, tests) in [(Mode::Rust, 2), (Mode::Covering, 3)] {
        let tables = Tables::planned(lines, mode).unwrap();
        let mut pairs: Vec<(u32, u32)> = tables.pairs(lines, 64).unwrap().collect();
        pairs.sort_unstable();
        pairs.dedup();
        assert_eq!(pairs.len(), tests, "{mode:?}: legs 0 and 2 touch");
    }
}

#[test]
fn who_owns_a_point() {
    assert_eq!(point_owned(FOUR, 0, 1, 1.0, 0.5), Ok(true), "P7");
    assert_eq!(point_owned(FOUR, 0, 0, 1.0, 0.5), Ok(false), "P7");
    assert_eq!(point_owned(FOUR, 3, 3, 4.0, 4.0), Ok(true), "P8");
    assert_eq!(owner(FOUR, 1.0, 0.5), Ok(Owner::Cell { row: 0, col: 1 }));
    assert_eq!(owner(FOUR, 4.0, 4.0), Ok(Owner::Cell { row: 3, col: 3 }));
    assert_eq!(owner(FOUR, 4.5, 4.0), Ok(Owner::Outside));
    assert_eq!(owner(FOUR, -0.5, 0.5), Ok(Owner::Outside));
    // row and column keep their places
    assert_eq!(owner(FOUR, 2.5, 1.5), Ok(Owner::Cell { row: 1, col: 2 }));
    // a collinear overlap: by its snapped end, and the high edge of the last column does not count
    assert_eq!(overlap_owned(FOUR, 1, 2, 1.9, 1.5, 0.5, Strategy::Grid), Ok(true));
    assert_eq!(overlap_owned(FOUR, 1, 1, 1.9, 1.5, 0.5, Strategy::Grid), Ok(false));
    assert_eq!(overlap_owned(FOUR, 1, 1, 1.9, 1.5, 0.0, Strategy::Grid), Ok(true));
    assert_eq!(overlap_owned(FOUR, 3, 3, 4.0, 4.0, 0.0, Strategy::Grid), Ok(false));
    assert_eq!(overlap_owned(FOUR, 0, 0, 4.0, 4.0, 0.0, Strategy::Grid), Ok(true));
    let near_half = 0.49999999999999994;
    assert_eq!(overlap_owned(FOUR, 1, 1, near_half, near_half, 1.0, Strategy::Grid), Ok(false), "snapped to 0");
    assert_eq!(overlap_owned(FOUR, 1, 1, 0.5, 0.5, 1.0, Strategy::Grid), Ok(true), "snapped to 1");
}

/// 0.5 + 0.1 is 0.6, and 6 * 0.1 is 0.6000000000000001: column 5 ends before column 6 begins.
#[test]
fn seams() {
    let tenths = Grid { cell_width: 0.1, cell_height: 0.1, cols: 7, rows: 7, ..FOUR };
    assert_eq!(owner(tenths, 0.6, 0.05), Ok(Owner::Seam), "on one axis");
    assert_eq!(owner(tenths, 0.6, 0.6), Ok(Owner::Seam), "on both");
    assert_eq!(owner(tenths, 0.6, 0.0), Ok(Owner::Seam), "the low end counts");
    assert_eq!(owner(tenths, 0.6, 0.6000000000000001 + 0.1), Ok(Owner::Seam), "the high end counts");
    assert_eq!(owner(tenths, 0.6, 0.7000000000000003), Ok(Owner::Outside), "a seam, and beyond the end of the other axis");
    assert_eq!(owner(tenths, 0.6, -5e-324), Ok(Owner::Outside));
    assert_eq!(owner(tenths, 0.5999999999999999, 0.05), Ok(Owner::Cell { row: 0, col: 5 }));
    assert_eq!(owner(tenths, 0.6000000000000001, 0.05), Ok(Owner::Cell { row: 0, col: 6 }));
    assert_eq!(owner(Grid { cols: 6, ..tenths }, 0.6, 0.05), Ok(Owner::Cell { row: 0, col: 5 }), "the last column ends there");
    assert_eq!(owner(Grid { cols: 6, ..tenths }, 0.6000000000000001, 0.05), Ok(Owner::Outside));
    assert_eq!(owner(Grid { cols: 0, rows: 0, ..tenths }, 0.0, 0.0), Ok(Owner::Outside), "no cells, no seam");
    let near_281 = Grid { min_x: 281.0, min_y: 36.0, cell_width: 0.4, cell_height: 0.05, cols: 5, rows: 5 };
    assert_eq!(owner(near_281, 281.79999999999995, 36.02), Ok(Owner::Seam), "docs/FINDINGS.md, 3");
}

/// Each answer for many points is that for one.
#[test]
fn many_owners() {
    let tenths = Grid { cell_width: 0.1, cell_height: 0.1, cols: 7, rows: 7, ..FOUR };
    let at: Vec<f64> = (-2..20).map(|i| i as f64 * 0.05).chain([0.6000000000000001, 1e9, -1e9, -0.0, 5e-324]).collect();
    for grid in [tenths, FOUR, Grid { cols: 0, rows: 0, ..FOUR }] {
        let (x, y): (Vec<f64>, Vec<f64>) = at.iter().flat_map(|&x| at.iter().map(move |&y| (x, y))).unzip();
        let mut answers = vec![JUNK; x.len()];
        assert_eq!(owners(grid, &x, &y, &mut answers), Ok(()));
        for (i, &number) in answers.iter().enumerate() {
            assert_eq!(owner(grid, x[i], y[i]), Ok(Owner::by_number(number, grid.cols)), "{} {}", x[i], y[i]);
        }
    }
    let mut answers = [JUNK; 4];
    assert_eq!(owners(tenths, &[0.25, 0.6, 0.8, 0.7], &[0.25, 0.05, 0.05, 0.7], &mut answers), Ok(()));
    assert_eq!(answers, [2 * 7 + 2, Owner::SEAM, Owner::OUTSIDE, 6 * 7 + 6]);
    assert_eq!(owners(FOUR, &[], &[], &mut []), Ok(()), "no points");
}

#[test]
fn snaps() {
    let near_half = 0.49999999999999994;
    assert_eq!(snap(near_half, -2.5, 1.0, Strategy::Grid), Ok((0.0, -3.0)), "P9, P10");
    assert_eq!(snap(near_half, -2.5, 0.0, Strategy::Grid), Ok((near_half, -2.5)), "size 0 returns the point");
    assert_eq!(snap(7.3, -7.3, 0.5, Strategy::Grid), Ok((7.5, -7.5)));
    let (x, y) = snap(-0.25, 0.25, 1.0, Strategy::Grid).unwrap();
    assert_eq!((x.to_bits(), y.to_bits()), ((-0.0f64).to_bits(), 0), "a zero has the sign of v / size");
}

#[test]
fn strategies() {
    let near_half = 0.49999999999999994;
    assert_eq!(strategies_agree(near_half, 1.0), Ok(false), "P9");
    assert_eq!(strategies_agree(-2.5, 1.0), Ok(true), "P10");
    // on both sides of zero, at other sizes, and where v is no half of the size but the quotient is rounded to it
    for (v, size) in [(near_half, 1.0), (0.049999999999999996, 0.1), (217.5596896699516, 435.1193793399033), (0.24999999999999997, 0.5)] {
        assert_eq!(v / size, near_half);
        assert_eq!((strategies_agree(v, size), strategies_agree(-v, size)), (Ok(false), Ok(false)), "{v} at {size}");
    }
    for v in [0.4999999999999999, 0.5, 0.5000000000000001, 1.4999999999999998, 1.5, 2.5, 4503599.5, 0.0, 5e-324, 1e9] {
        assert_eq!((strategies_agree(v, 1.0), strategies_agree(-v, 1.0)), (Ok(true), Ok(true)), "{v}");
    }
    for size in [0.0, -0.0] {
        assert_eq!((strategies_agree(near_half, size), strategies_agree(0.0, size)), (Ok(true), Ok(true)), "size 0 returns the coordinate");
    }
}

#[test]
fn numbers_as_std_has_them() {
    use morelturret::numbers::*;
    let samples = [
        0.0,
        -0.0,
        0.5,
        -0.5,
        0.49999999999999994,
        1.0,
        -1.5,
        2.5,
        -2.5,
        1e-300,
        4503599627370497.5,
        1e19,
        -1e19,
        1e300,
        f64::MAX,
        f64::MIN_POSITIVE,
    ];
    for v in samples.into_iter().chain([f64::INFINITY, f64::NEG_INFINITY]) {
        assert_eq!(magnitude(v).to_bits(), v.abs().to_bits(), "{v}");
        assert_eq!(floor(v).to_bits(), v.floor().to_bits(), "{v}");
        assert_eq!(ceiling(v), v.ceil() as u64, "{v}");
        assert_eq!(round_half_away(v).to_bits(), v.round().to_bits(), "{v}");
        for count in [0u32, 1, 4, u32::MAX] {
            let wanted = (v.floor() as i64).clamp(0, (count as i64 - 1).max(0)) as u32;
            assert_eq!(clamped_floor(v, count), wanted, "{v} {count}");
        }
        match v.sqrt() {
            root if root.is_nan() => assert!(square_root(v).is_nan(), "{v}"),
            root => assert_eq!(square_root(v).to_bits(), root.to_bits(), "{v}"),
        }
        for w in samples {
            assert_eq!(least(v, w), v.min(w), "{v} {w}");
            assert_eq!(greatest(v, w), v.max(w), "{v} {w}");
        }
        assert_eq!(least(f64::NAN, v), v);
        assert_eq!(greatest(v, f64::NAN), v);
    }
    assert!(least(f64::NAN, f64::NAN).is_nan() && floor(f64::NAN).is_nan() && round_half_away(f64::NAN).is_nan() && magnitude(f64::NAN).is_nan());
    assert_eq!((ceiling(f64::NAN), clamped_floor(f64::NAN, 4)), (0, 0));
    assert_eq!(least(0.0, -0.0).to_bits(), 0, "the first of two that are equal");
    assert_eq!(greatest(-0.0, 0.0).to_bits(), (-0.0f64).to_bits(), "the first of two that are equal");
}

const SIZINGS: [Sizing; 2] = [Sizing::Square, Sizing::Axes];

/// Document 01's sample, in the program's words: the width of a cell, and then its height.
const SQUARE: &str = "grid 3 3 3ff0000000000000 3ff0000000000000 18 0
cell 0 0 0 3
cell 0 1 0 1
cell 0 2 0 1
cell 1 0 2 3
cell 1 1 1 2
cell 1 2 1 2
cell 2 0 2 3
cell 2 1 1 2
cell 2 2 1 2
visit 9 9
";

fn report(tables: &Tables, lines: Lines) -> String {
    let grid = tables.grid();
    let (width, height) = (grid.cell_width.to_bits(), grid.cell_height.to_bits());
    let (items, globals) = (tables.items().len(), tables.globals().len());
    let mut text = format!("grid {} {} {width:016x} {height:016x} {items} {globals}\n", grid.cols, grid.rows);
    for (row, col) in (0..grid.rows).flat_map(|row| (0..grid.cols).map(move |col| (row, col))) {
        let list = tables.cell(row, col);
        assert_eq!(tables.standing().cell_list(row, col).unwrap(), list);
        if !list.is_empty() {
            let words: String = list.iter().map(|line| format!(" {line}")).collect();
            text += &format!("cell {row} {col}{words}\n");
        }
    }
    let mut pairs = tables.pairs(lines, 7).unwrap();
    let overlaps = pairs.by_ref().count();
    text + &format!("visit {} {overlaps}\n", pairs.bookmark())
}

#[test]
fn the_square() {
    for big in [false, true] {
        let points = [(0.0, 0.0), (2.0, 0.0), (2.0, 2.0), (0.0, 2.0), (0.0, 0.0f64)];
        let float = |v: f64| if big { v.to_be_bytes() } else { v.to_le_bytes() };
        let mut bytes = if big { vec![0, 0, 0, 0, 2, 0, 0, 0, 5] } else { vec![1, 2, 0, 0, 0, 5, 0, 0, 0] };
        points.iter().for_each(|&(x, y)| bytes.extend([float(x), float(y)].concat()));
        let (x, y) = read_points(&bytes).unwrap();
        assert_eq!(x.iter().copied().zip(y.iter().copied()).collect::<Vec<_>>(), points);
        let lines = Lines::chain(&x, &y);
        assert_eq!(report(&Tables::of(lines).unwrap(), lines), SQUARE);
        let mut tables = Tables::with_room(Room::enough_for(lines.len()));
        for sizing in SIZINGS {
            tables.build(lines, sizing).unwrap();
            assert_eq!(report(&tables, lines), SQUARE, "{sizing:?}");
            assert_eq!(report(&Tables::sized(lines, sizing).unwrap(), lines), SQUARE, "{sizing:?}");
        }
    }
}

/// By axis the unit of an axis changes its own size, and no list. In the square sizing it changes the grid.
#[test]
fn another_unit() {
    let (x, y) = ([0.0, 2.0, 2.0, 0.0, 0.0], [0.0, 0.0, 2.0, 2.0, 0.0]);
    let text = |text: &str| text.split_once('\n').unwrap().1.to_string();
    for unit in [1000.0, 1e6, 1024.0, 0.125] {
        let scaled = x.map(|v| v * unit);
        let lines = Lines::chain(&scaled, &y);
        let tables = Tables::sized(lines, Sizing::Axes).unwrap();
        assert_eq!(tables.grid(), Grid { min_x: 0.0, min_y: 0.0, cell_width: unit, cell_height: 1.0, cols: 3, rows: 3 });
        assert_eq!(text(&report(&tables, lines)), text(SQUARE), "{unit}");
        let lines = Lines::chain(&y, &scaled);
        let tables = Tables::sized(lines, Sizing::Axes).unwrap();
        assert_eq!(tables.grid(), Grid { min_x: 0.0, min_y: 0.0, cell_width: 1.0, cell_height: unit, cols: 3, rows: 3 });
        let square = Tables::of(lines).unwrap().grid();
        assert!(square.cell_width == square.cell_height && (square.cols, square.rows) != (3, 3), "{square:?}");
    }
}

/// Walks and owners on cells that are wider than they are high.
#[test]
fn two_sizes() {
    let wide = Grid { cell_width: 1000.0, cell_height: 0.25, ..FOUR };
    let on = |[a, b, c, d]: [f64; 4]| cells(wide, [a * 1000.0, b * 0.25, c * 1000.0, d * 0.25]);
    assert_eq!(on([0.5, 0.5, 2.5, 0.5]), [0, 1, 2], "P1");
    assert_eq!(on([1.0, 0.5, 1.0, 2.5]), [0, 1, 4, 5, 8, 9], "P2");
    assert_eq!(on([1.0; 4]), [0, 1, 4, 5], "P3");
    assert_eq!(on([0.0, 0.0, 2.0, 2.0]), cells(FOUR, [0.0, 0.0, 2.0, 2.0]), "a diagonal through the corners");
    assert_eq!(owner(wide, 2500.0, 0.375), Ok(Owner::Cell { row: 1, col: 2 }));
    assert_eq!(owner(wide, 4000.0, 1.0), Ok(Owner::Cell { row: 3, col: 3 }), "P8");
    assert_eq!(owner(wide, 0.5, 1.5), Ok(Owner::Outside));
    assert_eq!((point_owned(wide, 0, 1, 1000.0, 0.125), point_owned(wide, 0, 0, 1000.0, 0.125)), (Ok(true), Ok(false)), "P7");
    assert_eq!(overlap_owned(wide, 2, 1, 1001.0, 0.6, 0.25, Strategy::Grid), Ok(true), "0.6 is snapped to 0.5");
}

#[test]
fn small_builds() {
    for sizing in SIZINGS {
        let one = |line: [f64; 4]| Tables::sized([line].into_iter().collect::<LineVec>().lines(), sizing).unwrap();
        let diagonal = one([0.0, 0.0, 2.0, 2.0]);
        assert_eq!(diagonal.grid(), Grid { min_x: 0.0, min_y: 0.0, cell_width: 2.0, cell_height: 2.0, cols: 2, rows: 2 });
        assert_eq!(diagonal.items(), [0, 0, 0, 0]);
        assert!((0..2).all(|row| (0..2).all(|col| diagonal.cell(row, col) == [0])));
        assert!(diagonal.cell(2, 0).is_empty() && diagonal.cell(0, 2).is_empty());
        let point = one([0.0; 4]);
        assert_eq!((point.grid().cols, point.grid().rows, point.items()), (1, 1, &[0][..]));
        // an area of 0 counts as the number of lines; by axis there is no such rule
        let size = if sizing == Sizing::Square { 1.0 } else { 1e-6 };
        assert_eq!((point.grid().cell_width, point.grid().cell_height), (size, size));
        let none = Tables::sized(Lines::default(), sizing).unwrap();
        assert_eq!((none.grid(), none.line_count(), none.items().len(), none.globals().len()), (Grid::EMPTY, 0, 0, 0));
    }
    assert_eq!(Sizing::default(), Sizing::Square);
    let none = Tables::of(Lines::default()).unwrap();
    assert_eq!(none.pairs(Lines::default(), 4).unwrap().count(), 0);
    assert_eq!(none.test_at(Lines::default(), 0), Ok(None));
    // one point makes no line
    assert_eq!(Tables::of(Lines::chain(&[281.5], &[36.25])).unwrap().grid(), Grid::EMPTY);
}

#[test]
fn a_build_into_lent_slices() {
    let (x, y) = ([0.0, 2.0, 2.0, 0.0, 0.0], [0.0, 0.0, 2.0, 2.0, 0.0]);
    let lines = Lines::chain(&x, &y);
    for sizing in SIZINGS {
        let (mut offsets, mut items, mut globals, mut scratch) = ([JUNK; 12], [JUNK; 20], [JUNK; 2], [JUNK; SCRATCH]);
        let built = build(lines, sizing, &mut offsets, &mut items, &mut globals, &mut scratch).unwrap();
        let grid = Grid { min_x: 0.0, min_y: 0.0, cell_width: 1.0, cell_height: 1.0, cols: 3, rows: 3 };
        assert_eq!(built, Built { grid, items: 18, globals: 0 }, "{sizing:?}");
        assert_eq!(offsets, [0, 2, 4, 6, 8, 10, 12, 14, 16, 18, 0, 0]);
        assert_eq!(items, [0, 3, 0, 1, 0, 1, 2, 3, 1, 2, 1, 2, 2, 3, 1, 2, 1, 2, 0, 0]);
        assert!(globals.iter().chain(&scratch).all(|&entry| entry == 0));
        let standing = Standing { grid, line_count: 4, offsets: &offsets, items: &items, globals: &globals, global_count: 0 };
        assert_eq!(standing.check_tables(), Ok(()));
        // the list is the very part of the items
        let list = standing.cell_list(1, 0).unwrap();
        assert_eq!((list, list.as_ptr()), (&[2, 3][..], items[6..].as_ptr()));
    }
}

/// A window that is one point of a line, which passes through it: the Rust's walk and the sided one step past the cell of that point, and the query misses the
/// line; by the covering walk it is listed. docs/FINDINGS.md, section 5.
#[test]
fn a_line_through_a_window() {
    let grid = Grid { min_x: 536870542.0, min_y: 536870466.0, cell_width: 370.0 / 6.0, cell_height: 446.0 / 6.0, cols: 7, rows: 7 };
    let line = [536870787.0, 536870613.0, 536870712.0, 536870708.0];
    let lines = Lines { start_x: &line[..1], start_y: &line[1..2], end_x: &line[2..3], end_y: &line[3..] };
    let window = Window { low_x: 536870727.0, low_y: 536870689.0, high_x: 536870727.0, high_y: 536870689.0 };
    let asked = |mode| (cells_in(mode, grid, line), Tables::on(lines, grid, mode).unwrap().window(lines, window).unwrap());
    for mode in [Mode::Rust, Mode::Sided] {
        assert_eq!(asked(mode), (vec![10, 16, 17, 23], vec![]), "{mode:?}");
    }
    assert_eq!(asked(Mode::Covering), (vec![10, 16, 17, 23, 24], vec![0]));
}

#[test]
fn what_the_reader_leaves() {
    let mut bytes = vec![1, 2, 0, 0, 0, 2, 0, 0, 0];
    [281.5f64, 36.25, -0.0, f64::from_bits(0xfff8_0000_0000_0001)].iter().for_each(|v| bytes.extend(v.to_le_bytes()));
    let (mut x, mut y) = (vec![7.0; MAX_POINTS + 2], vec![7.0; MAX_POINTS + 2]);
    assert_eq!(read_line_string(&bytes, &mut x, &mut y), Ok(2));
    assert_eq!((x[0], y[0], x[1].to_bits()), (281.5, 36.25, (-0.0f64).to_bits()));
    assert_eq!(y[1].to_bits(), 0x7ff8_0000_0000_0000, "every NaN becomes the one NaN");
    assert!(x[2..].iter().chain(&y[2..]).all(|v| v.to_bits() == 0));
}
