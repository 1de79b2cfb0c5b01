//! The crossings of samples beside GEOS: the port's build by the covering walk and its list, and GEOS's STRtree with a prepared test of every two lines whose
//! boxes overlap. Both sides store the same pairs. Without GEOS the port is timed alone.

use super::clock::{Clock, Times};
use super::geos::Geos;
use super::legs::LEGS;
use compare::{cases, random::Random};
use morelturret::{Mode, Refusal, Room, Samples, Standing, Tables};
use std::hint::black_box;

const LINES: usize = 65536;

/// A year's coordinates have 3 and 4 decimals: so many parts of one are whole numbers, and far below 2^29.
const PARTS: f64 = 10_000.0;

/// What a list is lent: first, second, starts, listing and counts.
struct Lent([Vec<u32>; 5]);

impl Lent {
    fn new(pairs: usize, items: usize) -> Self {
        Lent([pairs, pairs, LINES + 1, items, LINES].map(|n| vec![0; n]))
    }

    fn list(&mut self, standing: Standing, samples: Samples) -> Result<usize, Refusal> {
        let [first, second, starts, listing, counts] = &mut self.0;
        standing.crossings_into(black_box(samples), first, second, starts, listing, counts)
    }

    /// The pairs, the lower line first, in increasing order.
    fn sorted(&self) -> Vec<(u32, u32)> {
        let mut pairs: Vec<_> = self.0[0].iter().zip(&self.0[1]).map(|(&a, &b)| (a.min(b), a.max(b))).collect();
        pairs.sort_unstable();
        pairs
    }
}

fn milli(seconds: f64) -> String {
    format!("{:.1}", seconds * 1e3)
}

/// Thousands of pairs a second.
fn rate(pairs: usize, seconds: f64) -> String {
    format!("{:.0}", pairs as f64 / seconds * 1e-3)
}

pub fn times(clock: &Clock, seed: u64) {
    clock.head(
        "Crossings of samples, 65,536 lines, by the covering walk: all pairs of lines that share a point, stored. Processor milliseconds, medians; thousands of\n  \
         pairs a second of the whole. GEOS: geometries and an STRtree; then for each line GEOSPrepare, a query, and GEOSPreparedIntersects with each later line.",
    );
    let geos = Geos::load();
    println!(
        "  | legs an orbit | pairs | build | list | pairs a second | list alone | GEOS tests | tree | queries and tests | pairs a second | without the tree | port / GEOS | \
         list / queries |\n  |---|---|---|---|---|---|---|---|---|---|---|---|---|"
    );
    // GEOS takes a minute with the fewest legs: the others come first
    for legs in LEGS.into_iter().rev() {
        let drawn = cases::orbits(&mut Random::new(seed), LINES, legs).into_iter().map(|line| line.map(|z| (z * PARTS).round())).collect::<Vec<_>>();
        let columns = [0, 1, 2, 3].map(|k| drawn.iter().map(|line| line[k] as i32).collect::<Vec<i32>>());
        let samples = Samples { start_x: &columns[0], start_y: &columns[1], end_x: &columns[2], end_y: &columns[3] };
        let floats = samples.to_lines();
        // just the room that is needed: with none for pairs the refusal says how many there are
        let found = Tables::planned(floats.lines(), Mode::Covering).expect("a year is in the domain");
        let (items, globals) = (found.items().len(), found.globals().len());
        let mut tables = Tables::with_room(Room { offsets: found.room().offsets, items, globals });
        let pairs = Lent::new(0, found.room().items).list(found.standing(), samples).expect_err("there are joints").value as usize;
        let mut standing = Tables::with_room(tables.room());
        standing.build(floats.lines(), Mode::Covering).expect("there is room");
        let (mut each, mut alone) = (Lent::new(pairs, items), Lent::new(pairs, items));
        let mut whole = || {
            tables.build(black_box(floats.lines()), Mode::Covering).expect("there is room");
            assert_eq!(each.list(tables.standing(), samples), Ok(pairs));
        };
        let mut list = || assert_eq!(alone.list(standing.standing(), samples), Ok(pairs));
        let ours = |times: &Times| {
            format!(
                "  | {legs} | {pairs} | {} | {} | {} | {} |",
                milli(times.beyond(0, 1)), milli(times.of(1)), rate(pairs, times.of(0)), rate(pairs, times.of(1)),
            )
        };
        let Some(g) = &geos else {
            println!("{} | | | | | | |", ours(&clock.turns(&mut [&mut whole, &mut list])));
            continue;
        };
        let (mut by_geos, mut tested) = (Vec::new(), 0);
        let times = clock.turns(&mut [
            &mut whole,
            &mut list,
            &mut || {
                tested = g.tree(black_box(&drawn)).crossings(&mut by_geos);
                black_box(&mut by_geos);
            },
            &mut || {
                // one query, which orders the tree
                let tree = g.tree(black_box(&drawn));
                tree.ask(tree.line(0), &mut Vec::new());
            },
        ]);
        println!(
            "{} {tested} | {} | {} | {} | {} | {:.2} | {:.2} |",
            ours(&times), milli(times.of(3)), milli(times.beyond(2, 3)), rate(pairs, times.of(2)), rate(pairs, times.beyond(2, 3)), times.ratio(0, 2),
            times.of(1) / times.beyond(2, 3),
        );
        by_geos.sort_unstable();
        assert!(each.sorted() == by_geos && alone.sorted() == by_geos, "both sides find the same pairs");
    }
}
