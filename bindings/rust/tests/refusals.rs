//! Each refusal at least once, with its number and value, and what it leaves in lent slices.

use morelturret::*;

const FOUR: Grid = Grid { min_x: 0.0, min_y: 0.0, cell_width: 1.0, cell_height: 1.0, cols: 4, rows: 4 };
const UNFIT: Grid = Grid { cell_width: 0.0, cell_height: 0.0, ..FOUR };
const JUNK: u32 = 0xdead_beef;

/// The refusal of an answer, as number and value.
fn of<T: std::fmt::Debug>(answer: Result<T, Refusal>) -> (u32, u64) {
    let refusal = answer.unwrap_err();
    (refusal.number, refusal.value)
}

fn square() -> LineVec {
    [[0.0, 0.0, 2.0, 0.0], [2.0, 0.0, 2.0, 2.0], [2.0, 2.0, 0.0, 2.0], [0.0, 2.0, 0.0, 0.0]].into_iter().collect()
}

/// 510 lines at one place, then two that visit 4,001 cells each of the grid that so many lines in one cell lead to.
fn with_globals() -> LineVec {
    let mut lines: LineVec = vec![[100.1, 0.0, 100.1, 0.0]; 510].into_iter().collect();
    lines.extend([[100.1, 0.0, 0.0, 0.0], [0.0, 0.0, 1000.0, 0.0], [1000.0, 0.0, 0.0, 0.0]]);
    lines
}

/// A build into slices full of junk: its refusal, and what the slices hold then, each that holds one value throughout as that value. Both sizings
/// are refused alike, but where cells are counted.
fn refused_build(lines: Lines, room: Room, scratch: usize) -> ((u32, u64), [Option<u32>; 4]) {
    let square = refused_sized(lines, Sizing::Square, room, scratch);
    if square.0 .0 <= Refusal::BAD_LENGTHS {
        assert_eq!(refused_sized(lines, Sizing::Axes, room, scratch), square);
    }
    square
}

fn refused_sized(lines: Lines, sizing: Sizing, room: Room, scratch: usize) -> ((u32, u64), [Option<u32>; 4]) {
    let mut slices = [room.offsets, room.items, room.globals, scratch].map(|length| vec![JUNK; length]);
    let [offsets, items, globals, scratch] = &mut slices;
    let refusal = of(build(lines, sizing, offsets, items, globals, scratch));
    (refusal, slices.map(|s| s.first().copied().filter(|v| s.iter().all(|w| w == v))))
}

const ROOM: Room = Room { offsets: 64, items: 64, globals: 8 };
const LEFT: [Option<u32>; 4] = [Some(JUNK); 4];
const ZEROED: [Option<u32>; 4] = [Some(0); 4];

#[test]
fn one_a_coordinate() {
    for bad in [f64::NAN, f64::INFINITY, -f64::INFINITY, 1.0000000001e9, -1e300] {
        for place in 0..4 {
            let mut lines: Vec<[f64; 4]> = vec![[0.0, 0.0, 2.0, 2.0]; 5];
            lines[3][place] = bad;
            lines[4] = [bad; 4];
            let lines: LineVec = lines.into_iter().collect();
            assert_eq!(refused_build(lines.lines(), ROOM, SCRATCH), ((1, 3), LEFT), "the first such line");
        }
        assert_eq!(of(snap(bad, 0.0, 1.0, Strategy::Grid)), (1, 0));
        assert_eq!(of(strategies_agree(bad, 1.0)), (1, 0));
        assert_eq!(of(strategies_agree(bad, -1.0)), (1, 0), "before 12");
        assert_eq!(of(point_owned(FOUR, 0, 0, 0.0, bad)), (1, 0));
        assert_eq!(of(overlap_owned(FOUR, 0, 0, bad, 0.0, 1.0, Strategy::Grid)), (1, 0));
        assert_eq!(of(owner(FOUR, 0.0, bad)), (1, 0));
        let mut answers = [JUNK; 4];
        assert_eq!(of(owners(FOUR, &[0.5, 0.5, bad, 0.5], &[0.5, 0.5, 0.5, bad], &mut answers)), (1, 2), "the first such point");
        assert_eq!(of(owners(UNFIT, &[0.5, 0.5, 0.5, 0.5], &[0.5, bad, 0.5, bad], &mut answers)), (1, 1), "1 before 8");
        assert_eq!(answers, [JUNK; 4], "one bad point, and nothing is written");
        let mut scratch = vec![JUNK; SCRATCH];
        assert_eq!(of(segment_cells(FOUR, (0.0, 0.0), (bad, 0.0), Mode::Rust, &mut scratch)), (1, 0));
        assert!(scratch.iter().all(|&entry| entry == JUNK));
    }
    let edge: LineVec = [[1e9, -1e9, 1e9, -1e9]].into_iter().collect();
    assert!(Tables::of(edge.lines()).is_ok(), "1e9 itself is taken");
}

#[test]
fn two_too_many_lines() {
    let zeros = vec![0.0; MAX_LINES + 1];
    let lines = |n: usize| Lines { start_x: &zeros[..n], start_y: &zeros[..n], end_x: &zeros[..n], end_y: &zeros[..n] };
    let ((number, value), left) = refused_build(lines(MAX_LINES + 1), ROOM, SCRATCH);
    assert_eq!((number, value, left), (2, 65_537, LEFT));
    let tables = Tables::of(lines(MAX_LINES)).unwrap();
    assert_eq!((tables.line_count(), tables.items().len()), (65_536, 65_536));
    let too_many = Standing { line_count: MAX_LINES + 1, ..tables.standing() };
    assert_eq!(of(too_many.check_tables()), (2, 65_537));
    assert_eq!(of(Standing { grid: UNFIT, ..too_many }.check_tables()), (2, 65_537), "2 before 8");
    assert_eq!(of(too_many.cell_list(0, 0)), (2, 65_537));
    assert_eq!(of(too_many.cost()), (2, 65_537));
    let mut starts = vec![7; 65_538];
    assert_eq!(of(too_many.lists_by_line(&mut starts[..65_537], &mut [])), (3, 0), "3 before 2");
    assert_eq!(of(too_many.lists_by_line(&mut starts, &mut vec![7; too_many.items.len()])), (2, 65_537));
    assert_eq!(starts, [7; 65_538]);
    assert_eq!(of(too_many.global_list(0)), (2, 65_537));
    assert_eq!(of(tables.batch(lines(MAX_LINES + 1), 0, &mut [0], &mut [0])), (2, 65_537));
    assert_eq!(of(tables.start(lines(MAX_LINES + 1), 0)), (2, 65_537));
    assert_eq!(of(tables.pairs_once(lines(MAX_LINES + 1))), (2, 65_537));
}

#[test]
fn three_lengths() {
    let v = [0.0; 4];
    let unequal = [
        Lines { start_x: &v[..3], start_y: &v, end_x: &v, end_y: &v },
        Lines { start_x: &v, start_y: &v[..3], end_x: &v, end_y: &v },
        Lines { start_x: &v, start_y: &v, end_x: &v[..3], end_y: &v },
        Lines { start_x: &v, start_y: &v, end_x: &v, end_y: &v[..3] },
        Lines::chain(&v, &v[..2]),
    ];
    let owned = square();
    let tables = Tables::of(owned.lines()).unwrap();
    for (x, y, n) in [(3, 4, 4), (4, 3, 4), (4, 4, 3), (4, 4, 0), (0, 0, 1), (0, 1, 0)] {
        let mut answers = [JUNK; 4];
        assert_eq!(of(owners(UNFIT, &[f64::NAN; 4][..x], &v[..y], &mut answers[..n])), (3, 0), "3 before 1 and 8");
        assert_eq!(answers, [JUNK; 4]);
    }
    for lines in unequal {
        assert_eq!(refused_build(lines, ROOM, SCRATCH), ((3, 0), LEFT));
        assert_eq!(of(Tables::of(lines)), (3, 0));
        assert_eq!(of(tables.test_at(lines, 0)), (3, 0));
        assert_eq!(of(tables.pairs(lines, 8)), (3, 0));
    }
    assert_eq!(refused_build(owned.lines(), ROOM, SCRATCH - 1), ((3, 0), LEFT));
    let mut short = vec![JUNK; SCRATCH - 1];
    assert_eq!(of(segment_cells(FOUR, (0.5, 0.5), (0.5, 0.5), Mode::Sided, &mut short)), (3, 0));
    let (mut first, mut second) = ([JUNK; 3], [JUNK; 4]);
    assert_eq!(of(tables.batch(owned.lines(), 0, &mut first, &mut second)), (3, 0));
    assert_eq!((first, second), ([JUNK; 3], [JUNK; 4]));
    let mut points = vec![7.0; 2 * MAX_POINTS + 1];
    let (x, y) = points.split_at_mut(MAX_POINTS);
    assert_eq!(of(read_line_string(b"", x, y)), (3, 0), "the lengths are looked at before the bytes");
    assert_eq!(of(read_line_string(b"", &mut x[1..], &mut y[2..])), (3, 0));
    assert!(points.iter().all(|&v| v == 7.0));
}

#[test]
fn four_five_six_room() {
    let owned = square();
    let lines = owned.lines();
    let exact = Room { offsets: 10, items: 18, globals: 0 };
    assert_eq!(refused_build(lines, Room { offsets: 9, ..ROOM }, SCRATCH), ((4, 10), ZEROED));
    assert_eq!(refused_build(lines, Room { items: 17, ..ROOM }, SCRATCH), ((5, 18), ZEROED));
    assert_eq!(refused_build(Lines::default(), Room { offsets: 0, ..ROOM }, SCRATCH), ((4, 1), [None, Some(0), Some(0), Some(0)]));
    for sizing in [Sizing::Square, Sizing::Axes] {
        let mut tables = Tables::with_room(exact);
        assert_eq!((tables.build(lines, sizing), tables.room()), (Ok(()), exact), "just enough is enough");
        assert_eq!(of(Tables::with_room(Room { offsets: 9, ..exact }).build(lines, sizing)), (4, 10));
        assert_eq!(refused_sized(lines, sizing, Room { offsets: 9, ..ROOM }, SCRATCH), ((4, 10), ZEROED));
        assert_eq!(refused_sized(lines, sizing, Room { items: 17, ..ROOM }, SCRATCH), ((5, 18), ZEROED));
    }

    let owned = with_globals();
    let lines = owned.lines();
    let tables = Tables::of(lines).unwrap();
    assert_eq!(tables.globals(), [511, 512]);
    let room = Room { globals: 1, ..Room::enough_for(lines.len()) };
    assert_eq!(refused_build(lines, room, SCRATCH), ((6, 2), ZEROED));
    // tables that stood are those of no lines after such a refusal, and can be built again
    let square = square();
    let mut tables = Tables::with_room(room);
    for _ in 0..2 {
        tables.build(square.lines(), Sizing::Square).unwrap();
        assert_eq!((tables.cell(0, 0), tables.line_count()), (&[0, 3][..], 4));
        assert_eq!(of(tables.build(lines, Sizing::Square)), (6, 2));
        assert_eq!((tables.grid(), tables.line_count(), tables.items().len(), tables.globals().len()), (Grid::EMPTY, 0, 0, 0));
        assert!(tables.cell(0, 0).is_empty());
        assert_eq!(tables.standing().check_tables(), Ok(()));
    }
    tables.build(square.lines(), Sizing::Square).unwrap();
    // refusals 1 to 3 let them stand
    let bad: LineVec = [[0.0, 0.0, f64::NAN, 0.0]].into_iter().collect();
    assert_eq!(of(tables.build(bad.lines(), Sizing::Axes)), (1, 0));
    assert_eq!((tables.cell(0, 0), tables.line_count()), (&[0, 3][..], 4));
}

#[test]
fn seven_a_walk_too_long() {
    // Line 1 is parallel to the y axis but for 1e-300. It starts on a boundary, is taken to be in the column below it, and never comes back.
    let x = [[-18.2, 0.0, 1e-300].as_slice(), &[1.3; 10]].concat();
    let y = [[0.0, 0.0, 4.16].as_slice(), &[0.0; 10]].concat();
    let lines = Lines::chain(&x, &y);
    assert_eq!(of(Tables::of(lines)), (7, 1));
    assert_eq!(refused_build(lines, Room::enough_for(lines.len()), SCRATCH), ((7, 1), ZEROED));
    // The same segment alone, on the grid of the other lines.
    let others: LineVec = (0..lines.len()).map(|i| if i == 1 { [0.0, 0.0, 0.0, 4.16] } else { lines.get(i).unwrap() }).collect();
    let grid = Tables::of(others.lines()).unwrap().grid();
    let mut scratch = vec![JUNK; SCRATCH];
    for mode in [Mode::Rust, Mode::Sided] {
        assert_eq!(of(segment_cells(grid, (0.0, 0.0), (1e-300, 4.16), mode, &mut scratch)), (7, 0), "{mode:?}");
    }
    assert!(scratch.iter().all(|&entry| entry == 0));
}

#[test]
fn eight_an_unfit_grid() {
    let mut scratch = vec![JUNK; SCRATCH];
    let unfit = [
        UNFIT,
        Grid { cell_width: f64::NAN, ..FOUR },
        Grid { cell_height: f64::NAN, ..FOUR },
        Grid { cell_width: 2.5e9, ..FOUR },
        Grid { cell_height: 2000000000.0000002, ..FOUR },
        Grid { cell_width: 2.4999999999999994e-7, ..FOUR },
        Grid { cell_height: -1.0, ..FOUR },
        Grid { min_x: f64::INFINITY, ..FOUR },
        Grid { min_y: -1.5e9, ..FOUR },
        Grid { cols: 0, ..FOUR },
        Grid { rows: 4005, cols: 1, ..FOUR },
        Grid { rows: 1002, cols: 1001, ..FOUR },
    ];
    let owned = square();
    let tables = Tables::of(owned.lines()).unwrap();
    for grid in unfit {
        assert_eq!(of(segment_cells(grid, (0.5, 0.5), (0.5, 0.5), Mode::Sided, &mut scratch)), (8, 0), "{grid:?}");
        assert_eq!(of(point_owned(grid, 0, 0, 0.5, 0.5)), (8, 0));
        assert_eq!(of(overlap_owned(grid, 0, 0, 0.5, 0.5, 1.0, Strategy::Grid)), (8, 0));
        assert_eq!(of(owner(grid, 0.5, 0.5)), (8, 0));
        let mut answers = [JUNK; 2];
        assert_eq!(of(owners(grid, &[0.5; 2], &[0.5; 2], &mut answers)), (8, 0));
        assert_eq!(of(owners(grid, &[], &[], &mut [])), (8, 0), "8 where there are no points too");
        assert_eq!(answers, [JUNK; 2]);
        let standing = Standing { grid, ..tables.standing() };
        assert_eq!(of(standing.check_tables()), (8, 0));
        assert_eq!(of(Standing { offsets: &[], ..standing }.check_tables()), (8, 0), "8 before 10");
        assert_eq!(of(standing.cell_list(0, 0)), (8, 0));
        assert_eq!(of(standing.cost()), (8, 0));
        assert_eq!(of(standing.lists_by_line(&mut vec![7; standing.line_count + 1], &mut vec![7; standing.items.len()])), (8, 0));
        assert_eq!(of(standing.global_list(0)), (8, 0));
        assert_eq!(of(standing.test_at(owned.lines(), 0)), (8, 0));
        assert_eq!(of(standing.pairs(owned.lines(), 4)), (8, 0));
        assert_eq!(of(standing.pairs_once(owned.lines())), (8, 0));
    }
    let widest = Grid { cell_width: 2e9, cell_height: 2.5e-7, ..FOUR };
    assert_eq!(owner(widest, 0.5, 6e-7), Ok(Owner::Cell { row: 2, col: 0 }), "the ends of the range are fit, each for itself");
}

#[test]
fn nine_beyond_the_end() {
    assert_eq!(of(point_owned(FOUR, 4, 0, 0.5, 0.5)), (9, 4));
    assert_eq!(of(point_owned(FOUR, 2, 4, 0.5, 0.5)), (9, 2), "the row, also where the column is beyond");
    assert_eq!(of(overlap_owned(FOUR, 7, 0, 0.5, 0.5, 1.0, Strategy::Grid)), (9, 7));
    let owned = square();
    let lines = owned.lines();
    let tables = Tables::of(lines).unwrap();
    let standing = tables.standing();
    assert_eq!(of(standing.cell_list(3, 0)), (9, 3));
    assert_eq!(of(standing.cell_list(1, u32::MAX)), (9, 1));
    assert_eq!(of(standing.global_list(0)), (9, 0));
    assert_eq!(tables.test_at(lines, 9), Ok(None), "the end mark stands at the total");
    assert_eq!(of(tables.test_at(lines, 10)), (9, 10));
    assert_eq!(of(tables.batch(lines, u64::MAX, &mut [0], &mut [0])), (9, u64::MAX));
    assert_eq!(of(tables.start(lines, u64::MAX)), (9, u64::MAX));
    let owned = with_globals();
    let tables = Tables::of(owned.lines()).unwrap();
    assert_eq!(tables.standing().global_list(0).unwrap(), [511, 512]);
    assert_eq!(tables.standing().global_list(1).unwrap(), [512]);
    assert_eq!(of(tables.standing().global_list(2)), (9, 2));
}

#[test]
fn ten_tables_that_do_not_fit() {
    let owned = square();
    let lines = owned.lines();
    let tables = Tables::of(lines).unwrap();
    let fit = tables.standing();
    assert_eq!(fit.check_tables(), Ok(()));
    let mut falling = fit.offsets.to_vec();
    falling[4] = 1;
    let mut not_from_zero = fit.offsets.to_vec();
    not_from_zero[0] = 1;
    let mut repeat = fit.items.to_vec();
    repeat[1] = repeat[0];
    let mut no_such_line = fit.items.to_vec();
    no_such_line[17] = 4;
    let damaged = [
        Standing { offsets: &fit.offsets[..9], ..fit },
        Standing { offsets: &falling, ..fit },
        Standing { offsets: &not_from_zero, ..fit },
        Standing { items: &fit.items[..17], ..fit },
        Standing { items: &repeat, ..fit },
        Standing { items: &no_such_line, ..fit },
        Standing { globals: &[4], global_count: 1, ..fit },
        Standing { globals: &[1, 1], global_count: 2, ..fit },
        Standing { globals: &[1], global_count: 2, ..fit },
        Standing { globals: &[1], global_count: u64::MAX, ..fit },
        Standing { offsets: &[], items: &[], globals: &[], ..fit },
    ];
    for (i, standing) in damaged.iter().enumerate() {
        assert_eq!(of(standing.check_tables()), (10, 0), "damage {i}");
        assert_eq!(of(standing.cell_list(0, 0)), (10, 0), "damage {i}");
        assert_eq!(of(standing.cost()), (10, 0), "damage {i}");
        let (mut starts, mut listing) = (vec![7; standing.line_count + 1], vec![7; standing.items.len()]);
        assert_eq!(of(standing.lists_by_line(&mut starts, &mut listing)), (10, 0), "damage {i}");
        assert!(starts.iter().chain(&listing).all(|&v| v == 7), "damage {i}: a refusal changes nothing");
        assert_eq!(of(standing.global_list(0)), (10, 0), "damage {i}");
        assert_eq!(of(standing.test_at(lines, 0)), (10, 0), "damage {i}");
        assert_eq!(of(standing.pairs(lines, 4)), (10, 0), "damage {i}");
        assert_eq!(of(standing.pairs_once(lines)), (10, 0), "damage {i}");
        assert_eq!(of(standing.start(lines, 0)), (10, 0), "damage {i}");
        let (mut first, mut second) = ([JUNK; 4], [JUNK; 4]);
        assert_eq!(of(standing.batch(lines, 0, &mut first, &mut second)), (10, 0), "damage {i}");
        assert_eq!((first, second), ([JUNK; 4], [JUNK; 4]));
    }
    assert_eq!(of(Standing { line_count: 3, ..fit }.check_tables()), (10, 0), "a list has line 3");
    let fewer: LineVec = (0..3).map(|i| lines.get(i).unwrap()).collect();
    assert_eq!(of(tables.pairs(fewer.lines(), 4)), (10, 0));
}

#[test]
fn eleven_bytes() {
    let point = |bytes: &mut Vec<u8>| bytes.extend([281.5f64.to_le_bytes(), 36.25f64.to_le_bytes()].concat());
    let mut fine = vec![1, 2, 0, 0, 0, 2, 0, 0, 0];
    point(&mut fine);
    point(&mut fine);
    let changed = |at: usize, byte: u8| {
        let mut bytes = fine.clone();
        bytes[at] = byte;
        bytes
    };
    let mut longer = fine.clone();
    longer.push(b'\n');
    let mut too_many = vec![1, 2, 0, 0, 0, 1, 4, 0, 0];
    (0..1025).for_each(|_| point(&mut too_many));
    for (what, bytes, position) in [
        ("empty", vec![], 0),
        ("no byte order", changed(0, 2), 0),
        ("a point", changed(1, 1), 1),
        ("no points", changed(5, 0), 5),
        ("too many points", too_many, 5),
        ("cut in the count", fine[..7].to_vec(), 7),
        ("cut in a point", fine[..40].to_vec(), 40),
        ("a byte after it", longer, 41),
    ] {
        let (mut x, mut y) = (vec![7.0; MAX_POINTS], vec![7.0; MAX_POINTS]);
        assert_eq!(of(read_line_string(&bytes, &mut x, &mut y)), (11, position), "{what}");
        assert!(x.iter().chain(&y).all(|&v| v == 7.0), "{what}: nothing is written");
        assert_eq!(of(read_points(&bytes)), (11, position), "{what}");
    }
    assert_eq!(read_points(&fine), Ok((vec![281.5; 2], vec![36.25; 2])));
}

#[test]
fn twelve_a_snap_size() {
    for size in [9.9e-7, 1.1e6, -1.0, f64::NAN, f64::INFINITY] {
        assert_eq!(of(snap(0.5, 0.5, size, Strategy::Grid)), (12, 0));
        assert_eq!(of(overlap_owned(FOUR, 9, 9, 0.5, 0.5, size, Strategy::Grid)), (12, 0), "before 9");
        assert_eq!(of(strategies_agree(0.5, size)), (12, 0));
    }
    for size in [1e-6, 1e6] {
        assert!(snap(0.5, 0.5, size, Strategy::Grid).is_ok() && strategies_agree(0.5, size).is_ok());
    }
}

/// Software that was built against a retired strategy's number, or names one that there never was.
#[test]
fn twelve_a_strategy() {
    let words = FOUR.words();
    for strategy in [1, 2, 256, 1 << 31, u32::MAX] {
        for size in [0.0, 1.0] {
            let mut out = [77, 77];
            assert_eq!((sys::snap(0.5, 0.5, size, strategy, &mut out), out), (12, [0, 77]), "strategy {strategy}, size {size}");
            let mut out = [77, 77];
            assert_eq!(sys::overlap_owned(&words, 0, 0, 0.5, 0.5, size, strategy, &mut out), 12, "strategy {strategy}, size {size}");
            assert_eq!(out, [0, 77]);
        }
        let mut out = [77];
        assert_eq!(sys::snap(f64::NAN, 0.5, 1.0, strategy, &mut out.repeat(2)), 1, "1 before 12");
        assert_eq!(sys::overlap_owned(&words, 9, 9, 0.5, 0.5, 1.0, strategy, &mut out), 12, "12 before 9");
        assert_eq!(sys::overlap_owned(&Grid { cols: 0, ..FOUR }.words(), 0, 0, 0.5, 0.5, 1.0, strategy, &mut out), 8, "8 before 12");
    }
}

#[test]
fn thirteen_a_sum() {
    let mut table = [0, 65535, 65536];
    assert_eq!(of(add(&mut table, &[0, 2, 1])), (13, 1), "the first such entry");
    assert_eq!(of(add(&mut table, &[0, 0, u32::MAX])), (13, 2), "in 64 bits");
    assert_eq!(of(add(&mut table, &[0, 0])), (3, 0));
    assert_eq!(table, [0, 65535, 65536], "nothing is changed");
    assert_eq!(add(&mut table, &[65536, 1, 0]), Ok(()));
    assert_eq!(table, [65536; 3]);
}

#[test]
fn counting_on_a_grid() {
    let lines = square();
    let counted = |lines: Lines, grid, room: usize, length: usize| {
        let (mut counts, mut scratch) = (vec![JUNK; room], vec![JUNK; length]);
        let refusal = of(count(lines, grid, Mode::Rust, &mut counts, &mut scratch));
        (refusal, counts.iter().chain(&scratch).all(|&v| v == JUNK), counts.iter().chain(&scratch).all(|&v| v == 0))
    };
    assert_eq!(counted(lines.lines(), FOUR, 17, SCRATCH - 1), ((3, 0), true, false));
    assert_eq!(counted(Lines { end_x: &[], ..lines.lines() }, UNFIT, 1, SCRATCH), ((3, 0), true, false), "before 8 and 4");
    assert_eq!(counted(lines.lines(), UNFIT, 1, SCRATCH), ((8, 0), true, false), "before 4");
    assert_eq!(counted(lines.lines(), FOUR, 16, SCRATCH), ((4, 17), false, true));
    let bad: LineVec = [[0.0; 4], [0.0, 0.0, f64::NAN, 0.0]].into_iter().collect();
    assert_eq!(counted(bad.lines(), UNFIT, 1, SCRATCH), ((1, 1), true, false), "before 8");
    assert_eq!(of(Counts::of(lines.lines(), UNFIT, Mode::Rust)), (8, 0));
    assert_eq!(of(Tables::on(lines.lines(), UNFIT, Mode::Rust)), (8, 0));
    assert_eq!(of(Counts::none(Grid { cols: u32::MAX, rows: u32::MAX, ..FOUR }, Mode::Rust)), (8, 0));
    let mut sum = Counts::none(FOUR, Mode::Rust).unwrap();
    assert_eq!(of(sum.add(&Counts::none(FOUR, Mode::Sided).unwrap())), (3, 0), "another mode");
    assert_eq!(of(sum.add(&Counts::none(Grid { min_x: 1.0, ..FOUR }, Mode::Rust).unwrap())), (3, 0), "another grid");
    assert_eq!(of(agreed_grid((0.0, 0.0), (0.0, 1.0000000001e9), 1, Sizing::Axes)), (1, 0));
    assert_eq!(agreed_grid((0.0, 0.0), (2.0, 2.0), 0, Sizing::Axes), Ok(Grid::EMPTY));
}

#[test]
fn fourteen_an_end_outside_the_grid() {
    let lines = square();
    let standing = Tables::on(lines.lines(), FOUR, Mode::Rust).unwrap();
    let offsets = [&standing.standing().offsets[..17], &[JUNK]].concat();
    let items = [standing.items(), &[JUNK; 4]].concat();
    // a call on junk beyond the tables: its refusal, whether the tables are as they were, and what the scratch holds throughout
    let added = |grid: Grid, start, end, n: usize, room: usize, globals: usize, length: usize| {
        let (mut o, mut t, mut g, mut s) = (offsets.clone(), items[..room].to_vec(), vec![JUNK; globals], vec![JUNK; length]);
        let refusal = of(add_line(grid, Mode::Rust, start, end, n, &mut o, &mut t, &mut g, 0, &mut s));
        assert!(o == offsets && t == items[..room] && g.iter().all(|&v| v == JUNK), "no refusal changes the tables");
        (refusal, s.first().copied().filter(|v| s.iter().all(|w| w == v)))
    };
    let (n, room) = (lines.lines().len(), items.len());
    let (inside, outside) = ((0.5, 0.5), (4.5, 0.5));
    assert_eq!(added(FOUR, inside, outside, n, room, 0, SCRATCH), ((14, 0), Some(JUNK)));
    assert_eq!(added(FOUR, (0.5, -5e-324), inside, n, room, 0, SCRATCH), ((14, 0), Some(JUNK)), "below min by one unit");
    assert_eq!(added(FOUR, inside, outside, n, room, 0, SCRATCH - 1), ((3, 0), Some(JUNK)));
    assert_eq!(added(FOUR, inside, outside, MAX_LINES, room, 0, SCRATCH), ((2, 65536), Some(JUNK)));
    assert_eq!(added(UNFIT, (f64::NAN, 0.0), outside, n, room, 0, SCRATCH), ((1, 0), Some(JUNK)), "before 8");
    assert_eq!(added(UNFIT, inside, outside, 0, room, 0, SCRATCH), ((8, 0), Some(JUNK)), "before 10");
    assert_eq!(added(Grid::EMPTY, inside, inside, 0, room, 0, SCRATCH), ((8, 0), Some(JUNK)), "0 by 0 too");
    assert_eq!(added(FOUR, inside, outside, n - 1, room, 0, SCRATCH), ((10, 0), Some(JUNK)), "before 14");
    let total = standing.items().len();
    assert_eq!(added(FOUR, inside, (1.5, 0.5), n, total + 1, 0, SCRATCH), ((5, total as u64 + 2), Some(0)));
    let mut tables = standing.clone();
    assert_eq!(of(tables.push(inside, outside, Mode::Rust)), (14, 0));
    assert_eq!(of(Tables::with_room(Room { offsets: 0, items: 0, globals: 0 }).push(inside, inside, Mode::Rust)), (8, 0));
    assert_eq!((tables.line_count(), tables.items()), (n, standing.items()));
    // on the far edge an end is inside
    assert_eq!(tables.push((0.0, 0.0), (4.0, 4.0), Mode::Rust), Ok(n));
    assert_eq!(tables.cell(3, 3), [n as u32]);
}

#[test]
fn six_of_an_added_line() {
    let grid = Grid { cols: 4004, rows: 1, ..FOUR };
    let (mut offsets, mut scratch) = (vec![0; 4005], vec![JUNK; SCRATCH]);
    let mut add = |globals: &mut [u32]| add_line(grid, Mode::Rust, (0.5, 0.5), (2048.5, 0.5), 0, &mut offsets, &mut [], globals, 0, &mut scratch);
    assert_eq!(of(add(&mut [])), (6, 1));
    assert_eq!(add(&mut [7]), Ok(Added { items: 0, globals: 1, cells: 0 }));
    assert!(scratch.iter().all(|&v| v == 0));
}

#[test]
fn sixteen_an_end_off_the_grid() {
    let mut scratch = vec![JUNK; SCRATCH];
    let large = Grid { cols: 683, rows: 3, ..FOUR };
    for grid in [FOUR, large] {
        for (start, end) in [((-1.0, 0.5), (2.5, 0.5)), ((0.5, 0.5), (0.5, -5e-324)), ((4095.0, 0.5), (0.5, 0.5)), ((0.5, 1e9), (0.5, 0.5))] {
            assert_eq!(of(segment_cells(grid, start, end, Mode::Covering, &mut scratch)), (16, 0), "{start:?}-{end:?} on {grid:?}");
            assert!(scratch.iter().all(|&entry| entry == JUNK), "16 changes nothing");
        }
    }
    // behind 3, 1 and 8
    assert_eq!(of(segment_cells(FOUR, (-1.0, 0.5), (2.5, 0.5), Mode::Covering, &mut scratch[..SCRATCH - 1])), (3, 0));
    assert_eq!(of(segment_cells(FOUR, (-1.0, 0.5), (f64::NAN, 0.5), Mode::Covering, &mut scratch)), (1, 0));
    assert_eq!(of(segment_cells(UNFIT, (-1.0, 0.5), (2.5, 0.5), Mode::Covering, &mut scratch)), (8, 0));
    // the guard is at 4,095 cells, and not at the grid's edge
    assert_eq!(segment_cells(FOUR, (4094.9, 0.5), (3.5, 0.5), Mode::Covering, &mut scratch).unwrap(), [3]);
    assert_eq!(segment_cells(FOUR, (-0.0, 0.5), (0.5, 0.5), Mode::Covering, &mut scratch).unwrap(), [0]);
    // the other modes know no such refusal
    for mode in [Mode::Rust, Mode::Sided] {
        assert_eq!(segment_cells(FOUR, (-1.0, 0.5), (2.5, 0.5), mode, &mut scratch).unwrap(), [0, 1, 2]);
    }
}

#[test]
fn words() {
    for number in 1..=16 {
        let text = Refusal { number, value: 77 }.to_string();
        assert!(text.starts_with(&format!("refused {number}: ")), "{text}");
        // those whose value says something say it
        assert_eq!(text.contains("77"), [1, 2, 4, 5, 6, 7, 9, 11, 13, 15].contains(&number), "{text}");
        assert!(!text.contains("value"), "{text} has words of its own");
        assert_ne!(Refusal { number, value: 77 }.reason(), Reason::Other, "{number} has a name of its own");
    }
    for number in [0, 17, u32::MAX] {
        assert_eq!(Refusal { number, value: 77 }.reason(), Reason::Other, "{number} is no refusal");
    }
    let reasons: std::collections::HashSet<Reason> = (1..=16).map(|number| Refusal { number, value: 77 }.reason()).collect();
    assert_eq!(reasons.len(), 16, "no two share one");
    let error: Box<dyn std::error::Error> = Box::new(Refusal { number: Refusal::MISFIT_TABLES, value: 0 });
    assert_eq!(error.to_string(), "refused 10: tables misfit");
}
