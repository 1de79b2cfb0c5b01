//! The visit: in batches of any size, test by test, and by the lists themselves.

use morelturret::*;

/// Numbers from 0 up to 1, the same ones in each run.
struct Random(u64);

impl Random {
    fn next(&mut self) -> f64 {
        self.0 = self.0.wrapping_mul(6364136223846793005).wrapping_add(1442695040888963407);
        (self.0 >> 11) as f64 / (1u64 << 53) as f64
    }
}

/// Lines to visit: short ones spread about, a chain, lines on boundaries, and lines among which some are global.
fn samples() -> Vec<(&'static str, LineVec)> {
    let mut r = Random(7);
    let spread = (0..300).map(|_| {
        let (x, y) = (r.next() * 50.0, r.next() * 20.0);
        [x, y, x + r.next() * 3.0 - 1.5, y + r.next() * 3.0 - 1.5]
    });
    let spread = spread.collect();
    let mut at = (280.0, 36.0);
    let chain = (0..200).map(|_| {
        let from = at;
        at = (at.0 + r.next() - 0.5, at.1 + r.next() - 0.5);
        [from.0, from.1, at.0, at.1]
    });
    let chain = chain.collect();
    let lattice = (0..20).flat_map(|i| [[i as f64, 0.0, i as f64, 19.0], [0.0, i as f64, 19.0, i as f64]]).collect();
    let mut globals: LineVec = vec![[100.1, 0.0, 100.1, 0.0]; 505].into_iter().collect();
    globals.extend([[0.0, 0.0, 1000.0, 0.0], [300.0, 0.0, 301.0, 0.0], [1000.0, 0.0, 0.0, 0.0]]);
    vec![("spread", spread), ("chain", chain), ("lattice", lattice), ("globals", globals), ("none", LineVec::new())]
}

/// The samples in both sizings, with the tables of each.
fn built() -> Vec<(&'static str, Sizing, LineVec, Tables)> {
    let sized = |(name, lines): (&'static str, LineVec)| {
        [Sizing::Square, Sizing::Axes].map(|sizing| (name, sizing, lines.clone(), Tables::sized(lines.lines(), sizing).unwrap()))
    };
    samples().into_iter().flat_map(sized).collect()
}

fn boxes_overlap(a: [f64; 4], b: [f64; 4]) -> bool {
    let span = |p: f64, q: f64| (p.min(q), p.max(q));
    let meet = |(low, high): (f64, f64), (other_low, other_high): (f64, f64)| low <= other_high && other_low <= high;
    meet(span(a[0], a[2]), span(b[0], b[2])) && meet(span(a[1], a[3]), span(b[1], b[3]))
}

/// All tests, from the lists alone: the cells in row order and in a list entry i with each later j; then each global with every line, but not itself
/// and not a lower global.
fn tests_of(tables: &Tables, lines: Lines) -> Vec<Test> {
    let mut all = Vec::new();
    let mut test = |place, first: u32, second: u32| {
        let overlap = boxes_overlap(lines.get(first as usize).unwrap(), lines.get(second as usize).unwrap());
        all.push(Test { place, first, second, overlap });
    };
    for row in 0..tables.grid().rows {
        for col in 0..tables.grid().cols {
            let list = tables.cell(row, col);
            for i in 0..list.len() {
                list[i + 1..].iter().for_each(|&second| test(Place::Cell { row, col }, list[i], second));
            }
        }
    }
    for (position, &first) in tables.globals().iter().enumerate() {
        for second in 0..lines.len() as u32 {
            if second != first && !tables.globals()[..position].contains(&second) {
                test(Place::Global { position: position as u64 }, first, second);
            }
        }
    }
    all
}

#[test]
fn batches_end_to_end_are_the_visit() {
    for (name, sizing, owned, tables) in built() {
        let lines = owned.lines();
        let tests = tests_of(&tables, lines);
        let wanted: Vec<(u32, u32)> = tests.iter().filter(|t| t.overlap).map(|t| (t.first, t.second)).collect();
        if name != "none" {
            let (found, all) = (wanted.len(), tests.len());
            assert!(found > 100 && (name == "globals" || found < all), "{name} {sizing:?}: {found} of {all}");
        }
        // batches of one are many: they are made of the shorter visits alone
        for room in [1, 2, 3, 7, 256, wanted.len(), wanted.len() + 1, 200_000] {
            if room == 0 || wanted.len() / room > 5_000 {
                continue;
            }
            let (mut bookmark, mut joined, mut made) = (0, Vec::new(), 0);
            loop {
                let (mut first, mut second) = (vec![u32::MAX; room], vec![u32::MAX; room]);
                let batch = tables.batch(lines, bookmark, &mut first, &mut second).unwrap();
                assert_eq!(batch.bookmark, bookmark + batch.tests, "{name} {room}");
                let of_batch = &tests[bookmark as usize..batch.bookmark as usize];
                assert_eq!(of_batch.iter().filter(|t| t.overlap).count(), batch.overlaps, "{name} {room}");
                joined.extend(first.iter().copied().zip(second.iter().copied()).take(batch.overlaps));
                assert!(first[batch.overlaps..].iter().chain(&second[batch.overlaps..]).all(|&entry| entry == 0), "zero beyond the pairs");
                made += batch.tests;
                bookmark = batch.bookmark;
                if batch.tests == 0 {
                    break;
                }
            }
            assert!(joined == wanted, "{name} {sizing:?}: batches of {room} joined");
            // a visit that was checked once makes the same batches
            let (mut visit, mut of_visit) = (tables.start(lines, 0).unwrap(), Vec::new());
            loop {
                let (mut first, mut second) = (vec![u32::MAX; room], vec![u32::MAX; room]);
                let (mut first_of, mut second_of) = (first.clone(), second.clone());
                let wanted = tables.batch(lines, visit.bookmark(), &mut first_of, &mut second_of);
                let batch = visit.next(&mut first, &mut second);
                assert_eq!((&batch, &first, &second), (&wanted, &first_of, &second_of), "{name} {room}");
                let batch = batch.unwrap();
                // one that starts at the bookmark stands where this one does
                assert_eq!(tables.start(lines, visit.bookmark()).as_ref(), Ok(&visit), "{name} {room} at {}", visit.bookmark());
                of_visit.extend(first.into_iter().zip(second).take(batch.overlaps));
                if batch.overlaps < room {
                    break;
                }
            }
            assert!(of_visit == wanted, "{name} {sizing:?}: a visit in batches of {room}");
            assert_eq!(made, tests.len() as u64, "{name} {room}");
            let mut pairs = tables.pairs(lines, room).unwrap();
            assert!(pairs.by_ref().eq(wanted.iter().copied()), "{name}: pairs in batches of {room}");
            assert_eq!((pairs.bookmark(), pairs.next()), (tests.len() as u64, None), "{name} {room}");
        }
        assert!(tables.pairs(lines, 0).unwrap().take(500).eq(wanted.iter().copied().take(500)), "room 0 is taken as 1");
    }
}

#[test]
fn each_pair_with_its_place() {
    for (name, sizing, owned, tables) in built() {
        let lines = owned.lines();
        let tests = tests_of(&tables, lines);
        let wanted: Vec<(Place, u32, u32)> = tests.iter().filter(|t| t.overlap).map(|t| (t.place, t.first, t.second)).collect();
        for room in [1, 3, 256, wanted.len() + 1] {
            if wanted.len() / room > 5_000 {
                continue;
            }
            let (mut bookmark, mut joined) = (0, Vec::new());
            loop {
                let mut lent = [(); 3].map(|()| vec![u32::MAX; room]);
                let [first, second, places] = &mut lent;
                let batch = tables.batch_places(lines, bookmark, first, second, places).unwrap();
                let (mut plain_first, mut plain_second) = (vec![u32::MAX; room], vec![u32::MAX; room]);
                assert_eq!(tables.batch(lines, bookmark, &mut plain_first, &mut plain_second), Ok(batch), "{name} {room}");
                assert!(*first == plain_first && *second == plain_second, "{name} {room}: the pairs are those of a batch without places");
                joined.extend((0..batch.overlaps).map(|k| (Place::by_number(places[k], tables.grid()), first[k], second[k])));
                assert!(places[batch.overlaps..].iter().all(|&entry| entry == 0), "zero beyond the pairs");
                bookmark = batch.bookmark;
                if batch.tests == 0 {
                    break;
                }
            }
            assert!(joined == wanted, "{name} {sizing:?}: batches of {room} joined");
        }
        // a slice of places of another length is refused, and nothing is written
        let (mut first, mut second, mut places) = ([7; 4], [7; 4], [7; 3]);
        assert_eq!(tables.batch_places(lines, 0, &mut first, &mut second, &mut places), Err(Refusal { number: Refusal::BAD_LENGTHS, value: 0 }));
        assert_eq!((first, second, places), ([7; 4], [7; 4], [7; 3]));
    }
}

#[test]
fn each_test_by_its_bookmark() {
    for (name, sizing, owned, tables) in built() {
        let lines = owned.lines();
        let tests = tests_of(&tables, lines);
        // every one of the first and the last, where the globals are, and some between
        let some = (0..tests.len()).filter(|k| *k < 500 || k + 1500 > tests.len() || k % 997 == 0);
        for k in some {
            assert_eq!(tables.test_at(lines, k as u64), Ok(Some(tests[k])), "{name} {sizing:?}: test {k}");
        }
        let total = tests.len() as u64;
        assert_eq!(tables.test_at(lines, total), Ok(None), "{name}: the end mark");
        assert_eq!(tables.test_at(lines, total + 1), Err(Refusal { number: Refusal::BEYOND_END, value: total + 1 }), "{name}");
    }
}

#[test]
fn outputs_of_length_0_make_no_test() {
    let (_, owned) = samples().remove(0);
    let tables = Tables::of(owned.lines()).unwrap();
    assert_eq!(tables.batch(owned.lines(), 5, &mut [], &mut []), Ok(Batch { tests: 0, overlaps: 0, bookmark: 5 }));
    let mut visit = tables.start(owned.lines(), 5).unwrap();
    assert_eq!(visit.next(&mut [], &mut []), Ok(Batch { tests: 0, overlaps: 0, bookmark: 5 }));
}

#[test]
fn outputs_of_two_lengths_leave_a_visit_where_it_stood() {
    let (_, owned) = samples().remove(0);
    let tables = Tables::of(owned.lines()).unwrap();
    let mut visit = tables.start(owned.lines(), 5).unwrap();
    let before = visit.clone();
    let (mut first, mut second) = ([7; 3], [7; 4]);
    assert_eq!(visit.next(&mut first, &mut second), Err(Refusal { number: Refusal::BAD_LENGTHS, value: 0 }));
    assert_eq!((visit, first, second), (before, [7; 3], [7; 4]));
}

#[test]
fn some_samples_have_globals() {
    let (name, owned) = samples().remove(3);
    let tables = Tables::of(owned.lines()).unwrap();
    assert_eq!((name, tables.globals()), ("globals", &[505, 507][..]));
    assert!(tests_of(&tables, owned.lines()).iter().any(|t| t.place == Place::Global { position: 1 } && t.first == 507 && t.second == 506));
}

#[test]
fn empty_slices() {
    // every slice that may be empty is: what goes over the boundary is an address all the same
    let standing = Standing { grid: Grid::EMPTY, line_count: 0, offsets: &[0], items: &[], globals: &[], global_count: 0 };
    assert_eq!(standing.check_tables(), Ok(()));
    assert_eq!(standing.test_at(Lines::default(), 0), Ok(None));
    assert_eq!(standing.batch(Lines::default(), 0, &mut [], &mut []), Ok(Batch { tests: 0, overlaps: 0, bookmark: 0 }));
    assert_eq!(standing.cell_list(0, 0), Err(Refusal { number: 9, value: 0 }));
    let mut scratch = vec![7; SCRATCH];
    for sizing in [Sizing::Square, Sizing::Axes] {
        let built = build(Lines::default(), sizing, &mut [9], &mut [], &mut [], &mut scratch);
        assert_eq!(built, Ok(Built { grid: Grid::EMPTY, items: 0, globals: 0 }));
    }
    assert_eq!(segment_cells(Grid::EMPTY, (0.0, 0.0), (1.0, 1.0), Mode::Sided, &mut []), Err(Refusal { number: 3, value: 0 }));
    assert_eq!(read_line_string(&[], &mut [], &mut []), Err(Refusal { number: 3, value: 0 }));
}

/// Tables of some lines grown line by line are those of all lines on their grid, in every mode, and are visited alike.
#[test]
fn grown_line_by_line() {
    for (name, lines) in samples().into_iter().filter(|(_, lines)| lines.lines().len() > 1) {
        for mode in [Mode::Rust, Mode::Sided, Mode::Covering] {
            let all = lines.lines();
            let grid = Tables::planned(all, mode).unwrap().grid();
            let half = all.len() / 2;
            let first = Lines { start_x: &all.start_x[..half], start_y: &all.start_y[..half], end_x: &all.end_x[..half], end_y: &all.end_y[..half] };
            let mut tables = Tables::on(first, grid, mode).unwrap();
            let mut blocks = tables.blocks();
            for i in half..all.len() {
                let (start, end) = ((all.start_x[i], all.start_y[i]), (all.end_x[i], all.end_y[i]));
                // the first two without the summary, which is then refused, and made anew
                if i < half + 2 {
                    assert_eq!(tables.push(start, end, mode), Ok(i), "{name}");
                    let anew = tables.blocks();
                    if anew != blocks {
                        assert_eq!(tables.push_with(start, end, mode, &mut blocks).unwrap_err().number, 10, "{name}");
                    }
                    blocks = anew;
                } else {
                    assert_eq!(tables.push_with(start, end, mode, &mut blocks), Ok(i), "{name}");
                }
            }
            assert_eq!(blocks, tables.blocks(), "{name}, {mode:?}");
            let whole = Tables::on(all, grid, mode).unwrap();
            assert_eq!((tables.items(), tables.globals()), (whole.items(), whole.globals()), "{name}, {mode:?}");
            assert!(tables.pairs(all, 64).unwrap().eq(whole.pairs(all, 64).unwrap()), "{name}, {mode:?}");
        }
    }
}

/// Blocks by the lists themselves: each number, all of them, and rectangles of them.
#[test]
fn blocks_count_the_items_of_their_cells() {
    for (name, sizing, _, tables) in built() {
        let (blocks, grid) = (tables.blocks(), tables.grid());
        assert_eq!((blocks.cols(), blocks.rows()), (grid.cols.div_ceil(16), grid.rows.div_ceil(16)), "{name} {sizing:?}");
        let items = |low: Block, high: Block| -> u64 {
            let inside = |row: u32, col: u32| (low.row..=high.row).contains(&(row / 16)) && (low.col..=high.col).contains(&(col / 16));
            let cells = (0..grid.rows).flat_map(|row| (0..grid.cols).map(move |col| (row, col))).filter(|&(row, col)| inside(row, col));
            cells.map(|(row, col)| tables.cell(row, col).len() as u64).sum()
        };
        assert_eq!(blocks.counts().iter().map(|&n| n as usize).sum::<usize>(), tables.items().len(), "{name} {sizing:?}");
        for k in 0..blocks.counts().len() as u32 {
            let one = Block { row: k / blocks.cols(), col: k % blocks.cols() };
            assert_eq!(blocks.counts()[k as usize] as u64, items(one, one), "{name} {sizing:?}: block {k}");
            let last = Block { row: blocks.rows() - 1, col: blocks.cols() - 1 };
            assert_eq!(blocks.items_in(one, last), Ok(items(one, last)), "{name} {sizing:?}: from block {k} on");
            let before = if one.row > 0 { Block { row: one.row - 1, ..one } } else { Block { row: 0, col: 0 } };
            if before != one {
                assert_eq!(blocks.items_in(one, before), Ok(0), "{name} {sizing:?}: out of order");
            }
        }
        let beyond = Block { row: blocks.rows(), col: 0 };
        let refused = |low, high| blocks.items_in(low, high).unwrap_err();
        let first = Block { row: 0, col: 0 };
        let lower = refused(Block { row: 7, col: blocks.cols() }, beyond);
        assert_eq!((lower.number, lower.value), (9, 7), "{name} {sizing:?}");
        if !blocks.counts().is_empty() {
            let upper = refused(first, beyond);
            assert_eq!((upper.number, upper.value), (9, blocks.rows() as u64), "{name} {sizing:?}");
            let short = items_in(&grid, &blocks.counts()[1..], first, first).unwrap_err();
            assert_eq!((short.number, short.value), (3, 0), "{name} {sizing:?}");
        }
    }
}
