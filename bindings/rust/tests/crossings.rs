//! Crossings of samples: what is listed, each refusal, and what the lent slices hold afterwards.

use morelturret::{Grid, Mode, Plan, Refusal, Samples, Sizing, Standing, Tables, MAX_LINES, MAX_SAMPLE};

fn plans() -> impl Iterator<Item = Plan> {
    [Sizing::Square, Sizing::Axes].into_iter().flat_map(|sizing| [Mode::Rust, Mode::Sided, Mode::Covering].map(|mode| Plan { sizing, mode }))
}

fn of<T: std::fmt::Debug>(answer: Result<T, Refusal>) -> (u32, u64) {
    let refusal = answer.unwrap_err();
    (refusal.number, refusal.value)
}

/// The pairs, lower line first, in increasing order.
fn sorted(pairs: Vec<(u32, u32)>) -> Vec<(u32, u32)> {
    let mut pairs: Vec<_> = pairs.into_iter().map(|(a, b)| (a.min(b), a.max(b))).collect();
    pairs.sort();
    pairs
}

#[test]
fn ways_to_meet() {
    // a level line; one with its end, one through it, one that stands on it, one on its line that overlaps, one there that is apart, itself, a point on
    // it, a point beside it
    let legs = [[0, 0, 8, 0], [8, 0, 9, 5], [2, -1, 3, 1], [5, 0, 5, 4], [6, 0, 12, 0], [20, 0, 24, 0], [8, 0, 0, 0], [1, 0, 1, 0], [1, 1, 1, 1]];
    let column = |k: usize| legs.iter().map(|leg| leg[k]).collect::<Vec<i32>>();
    let columns = [0, 1, 2, 3].map(column);
    let samples = Samples { start_x: &columns[0], start_y: &columns[1], end_x: &columns[2], end_y: &columns[3] };
    for plan in plans() {
        let tables = Tables::planned(samples.to_lines().lines(), plan).unwrap();
        let pairs = sorted(tables.crossings(samples).unwrap());
        assert_eq!(pairs, [(0, 1), (0, 2), (0, 3), (0, 4), (0, 6), (0, 7), (1, 4), (1, 6), (2, 6), (3, 6), (4, 6), (6, 7)], "{plan:?}");
    }
}

#[test]
fn dropped_by_the_rusts_walk() {
    // legs 0 and 2 share their point (536870733, 536870733), and no cell by the Rust's walk
    let (mut x, mut y) = (vec![536870733, 536870708, 536870658, 536870763, 536870554], vec![536870733, 536870678, 536870818, 536870699, 536870554]);
    x.extend([MAX_SAMPLE; 32]);
    y.extend([MAX_SAMPLE; 32]);
    let samples = Samples::chain(&x, &y);
    let listed = |mode| {
        let tables = Tables::planned(samples.to_lines().lines(), mode).unwrap();
        (tables.grid(), sorted(tables.crossings(samples).unwrap()))
    };
    let (grid, by_rust) = listed(Mode::Rust);
    assert_eq!((grid.cols, grid.rows, grid.cell_width.to_bits()), (7, 7, 0x404dd55555555556));
    assert!(!by_rust.contains(&(0, 2)));
    let (_, covering) = listed(Mode::Covering);
    assert!(covering.contains(&(0, 2)));
    assert!(by_rust.iter().all(|pair| covering.contains(pair)));
}

#[test]
fn refusals() {
    let (x, y) = ([0, 4, 4, 0, 0, 4], [0, 0, 4, 4, 0, 4]);
    let samples = Samples::chain(&x, &y);
    let tables = Tables::planned(samples.to_lines().lines(), Mode::Covering).unwrap();
    let standing = tables.standing();
    let (n, items) = (samples.len(), standing.items.len());
    let count = tables.crossings(samples).unwrap().len();
    let sizes = [count, count, n + 1, items, n];
    let lent = |sizes: [usize; 5]| sizes.map(|size| vec![7; size]);
    let ask = |standing: Standing, samples: Samples, slices: &mut [Vec<u32>; 5]| {
        let [first, second, starts, listing, counts] = slices;
        standing.crossings_into(samples, first, second, starts, listing, counts)
    };

    let mut slices = lent(sizes);
    assert_eq!(ask(standing, samples, &mut slices).unwrap(), count);
    assert!(slices[2..].iter().flatten().all(|&v| v == 0), "the scratch is zeroed");

    // 3: paired outputs differ, or scratch is short; nothing changes
    for k in 0..5 {
        let mut short = sizes;
        short[k] -= 1;
        let mut slices = lent(short);
        assert_eq!(of(ask(standing, samples, &mut slices)), (3, 0), "slice {k}");
        assert!(slices.iter().flatten().all(|&v| v == 7));
    }
    let uneven = Samples { end_y: &samples.end_y[1..], ..samples };
    assert_eq!(of(ask(standing, uneven, &mut lent(sizes))), (3, 0));

    // 2, before 15
    let many = vec![MAX_SAMPLE + 1; MAX_LINES + 1];
    let too_many = Samples { start_x: &many, start_y: &many, end_x: &many, end_y: &many };
    assert_eq!(of(ask(standing, too_many, &mut lent([0, 0, MAX_LINES + 2, items, MAX_LINES + 1]))), (2, MAX_LINES as u64 + 1));

    // 15, the first such line, before 8; 2^29 of either sign is a sample
    let unfit = Standing { grid: Grid { cols: 4005, ..standing.grid }, ..standing };
    for beyond in [MAX_SAMPLE + 1, -MAX_SAMPLE - 1, i32::MAX, i32::MIN] {
        let x = [0, MAX_SAMPLE, -MAX_SAMPLE, beyond, 0, 0];
        let mut slices = lent(sizes);
        assert_eq!(of(ask(unfit, Samples::chain(&x, &y), &mut slices)), (15, 2));
        assert!(slices.iter().flatten().all(|&v| v == 7));
    }
    assert_eq!(of(ask(unfit, samples, &mut lent(sizes))), (8, 0));
    assert_eq!(of(ask(Standing { offsets: &[], ..standing }, samples, &mut lent(sizes))), (10, 0));

    // 5 says how many there are, and leaves zero in all five
    let mut slices = lent([count - 1, count - 1, n + 1, items, n]);
    assert_eq!(of(ask(standing, samples, &mut slices)), (5, count as u64));
    assert!(slices.iter().flatten().all(|&v| v == 0));

    // no lines: no crossings, and no room is needed but one start
    let empty = Standing { grid: Grid { cols: 0, rows: 0, ..standing.grid }, line_count: 0, offsets: &[0], items: &[], globals: &[], global_count: 0 };
    assert_eq!(ask(empty, Samples::default(), &mut lent([0, 0, 1, 0, 0])).unwrap(), 0);
}
