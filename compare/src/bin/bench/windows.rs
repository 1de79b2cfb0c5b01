//! The lines in a window beside GEOS's STRtree, which is built once and then asked; and what the check of the tables is of a query. Without GEOS the port is
//! timed alone.

use super::clock::Clock;
use super::geos::Geos;
use compare::cases;
use compare::kinds::build::Columns;
use compare::random::Random;
use morelturret::{Lines, Mode, Tables, Window};
use std::hint::black_box;

pub fn times(clock: &Clock, seed: u64) {
    clock.head(
        "The lines in a window, 65,536 lines, tables of the covering walk. Microseconds a query, medians; a window has its share of the area of all lines, in the\n  \
         middle. The check: what mt_check_tables takes, which every query does too. GEOS: an STRtree of the lines' boxes, built once, queries timed alone.",
    );
    let geos = Geos::load();
    println!("  | legs an orbit | share | found | query | check | of it | GEOS found | GEOS query | port / GEOS |\n  |---|---|---|---|---|---|---|---|---|");
    for legs in [12.0, 179.0] {
        let drawn = cases::orbits(&mut Random::new(seed), 65536, legs);
        let columns = Columns::new(&drawn);
        let c = columns.coordinates();
        let lines = Lines { start_x: c.start_x, start_y: c.start_y, end_x: c.end_x, end_y: c.end_y };
        let tables = Tables::planned(lines, Mode::Covering).expect("a year is in the domain");
        let standing = tables.standing();
        let tree = geos.as_ref().map(|g| (g, g.tree(&drawn)));
        let bound = |axis: usize, pick: fn(f64, f64) -> f64, from: f64| drawn.iter().flat_map(|l| [l[axis], l[axis + 2]]).fold(from, pick);
        let (low, high) = ([0, 1].map(|k| bound(k, f64::min, f64::INFINITY)), [0, 1].map(|k| bound(k, f64::max, f64::NEG_INFINITY)));
        for share in [0.01, 0.1, 1.0f64] {
            let half = share.sqrt() / 2.0;
            let side = |k: usize, way: f64| (low[k] + high[k]) / 2.0 + way * half * (high[k] - low[k]);
            let w = if share == 1.0 { [low[0], low[1], high[0], high[1]] } else { [side(0, -1.0), side(1, -1.0), side(0, 1.0), side(1, 1.0)] };
            let window = Window { low_x: w[0], low_y: w[1], high_x: w[2], high_y: w[3] };
            let (mut found, mut boxes) = (vec![0; drawn.len()], Vec::new());
            let mut count = 0;
            let mut query = || {
                count = standing.window_into(black_box(lines), window, &mut found).expect("the tables that a build left");
                black_box(&mut found);
            };
            let mut check = || standing.check_tables().expect("the tables that a build left");
            let micro = |seconds: f64| format!("{:.0}", seconds * 1e6);
            let (times, of_geos) = match &tree {
                None => (clock.turns(&mut [&mut query, &mut check]), String::from("| | |")),
                Some((g, tree)) => {
                    let frame = g.segment(w);
                    // the first query builds the tree
                    tree.ask(frame, &mut boxes);
                    let times = clock.turns(&mut [&mut query, &mut check, &mut || {
                        black_box(tree).ask(frame, &mut boxes);
                        black_box(&mut boxes);
                    }]);
                    let text = format!("{} | {} | {:.1} |", boxes.len(), micro(times.of(2)), times.ratio(0, 2));
                    (times, text)
                }
            };
            println!("  | {legs} | {:.0} % | {count} | {} | {} | {:.2} | {of_geos}", share * 100.0, micro(times.of(0)), micro(times.of(1)), times.ratio(1, 0));
            // what the port finds has boxes that overlap; by the covering walk only lines that stay away from the window are left out
            if !boxes.is_empty() {
                boxes.sort_unstable();
                assert!(found[..count].iter().all(|i| boxes.binary_search(i).is_ok()), "every line that is found has a box that overlaps");
            }
        }
    }
}
