//! Any number of lines by parts: every two that share a point, none twice, and a year of 70,080 lines.

use morelturret::*;
use std::collections::HashSet;

/// A line by whole numbers: start x, start y, end x, end y. As coordinates they are divided by powers of two, so both are exact.
type Whole = [i64; 4];

const X_UNIT: f64 = 1024.0;
const Y_UNIT: f64 = 8192.0;

fn owned(lines: &[Whole]) -> LineVec {
    lines.iter().map(|l| [l[0] as f64 / X_UNIT, l[1] as f64 / Y_UNIT, l[2] as f64 / X_UNIT, l[3] as f64 / Y_UNIT]).collect()
}

/// Orbits of so many legs that loop through temperature and frequency, and drift; the recipe of tools/make_year.py with a noise of its own.
fn year(lines: usize, legs: f64) -> Vec<Whole> {
    let (mut seed, tau, noise) = (1u64, std::f64::consts::TAU, 4.0 / (lines as f64).sqrt().max(8.0));
    let mut draw = || {
        seed = seed.wrapping_mul(6364136223846793005).wrapping_add(1442695040888963407);
        ((seed >> 11) as f64 / (1u64 << 52) as f64 - 1.0) * noise
    };
    let mut points = Vec::new();
    for i in 0..=lines {
        let (phase, season) = (i as f64 / legs * tau, i as f64 / lines as f64 * tau);
        let kelvin = 281.0 + (8.0 + 2.0 * season.cos()) * phase.cos() + 3.0 * season.sin() + draw();
        let ppb = 36.0 + 6.0 * (phase - 0.35 - 0.1 * season.sin()).cos() + 14.0 * i as f64 / lines as f64 + draw();
        points.push([(kelvin * X_UNIT).round() as i64, (ppb * Y_UNIT).round() as i64]);
    }
    points.windows(2).map(|two| [two[0][0], two[0][1], two[1][0], two[1][1]]).collect()
}

fn boxes_overlap(a: Whole, b: Whole) -> bool {
    let meet = |k: usize| a[k].min(a[k + 2]) <= b[k].max(b[k + 2]) && b[k].min(b[k + 2]) <= a[k].max(a[k + 2]);
    meet(0) && meet(1)
}

/// The sign of the turn from the line to a point.
fn turn(l: Whole, x: i64, y: i64) -> i128 {
    let wide = |a: i64, b: i64| a as i128 * b as i128;
    (wide(l[2] - l[0], y - l[1]) - wide(l[3] - l[1], x - l[0])).signum()
}

/// Whether two lines whose boxes overlap share a point.
fn meet(a: Whole, b: Whole) -> bool {
    turn(a, b[0], b[1]) * turn(a, b[2], b[3]) <= 0 && turn(b, a[0], a[1]) * turn(b, a[2], a[3]) <= 0
}

/// Every two lines that share a point, the lower first: all pairs are looked at whose extents in x overlap.
fn meeting(lines: &[Whole]) -> Vec<(usize, usize)> {
    let low = |i: usize| lines[i][0].min(lines[i][2]);
    let mut order: Vec<usize> = (0..lines.len()).collect();
    order.sort_by_key(|&i| low(i));
    let mut found = Vec::new();
    for (at, &i) in order.iter().enumerate() {
        let high = lines[i][0].max(lines[i][2]);
        for &j in order[at + 1..].iter().take_while(|&&j| low(j) <= high) {
            if boxes_overlap(lines[i], lines[j]) && meet(lines[i], lines[j]) {
                found.push((i.min(j), i.max(j)));
            }
        }
    }
    found
}

/// Holds what parts hand out to the lines: the builds are as many as was said, no pair comes twice, the boxes of each overlap, and every two that share
/// a point are there. Answers how many pairs there are.
fn hold(lines: &[Whole], parts: &Parts, must: &[(usize, usize)]) -> usize {
    let (mut pairs, mut builds) = (HashSet::new(), 0);
    for of_build in parts.pairs() {
        builds += 1;
        for (first, second) in of_build.unwrap() {
            assert!(boxes_overlap(lines[first], lines[second]), "the boxes of {first} and {second} are apart");
            assert!(first != second && pairs.insert((first.min(second), first.max(second))), "{first} and {second} come twice");
        }
    }
    assert_eq!(builds, parts.builds());
    must.iter().for_each(|pair| assert!(pairs.contains(pair), "{pair:?} share a point and do not come"));
    pairs.len()
}

#[test]
fn a_year_of_70_080_lines() {
    let lines = year(70_080, 240.0);
    let (owned, must) = (owned(&lines), meeting(&lines));
    assert_eq!(Tables::planned(owned.lines(), Mode::Covering).unwrap_err(), Refusal { number: Refusal::TOO_MANY_LINES, value: 70_080 });
    let parts = Parts::of(owned.lines()).unwrap();
    assert_eq!(parts.builds(), 3);
    // more than the joints of the chain
    assert!(must.len() > 75_000, "{}", must.len());
    assert!(hold(&lines, &parts, &must) >= must.len());
}

#[test]
fn parts_of_every_size() {
    let lines = year(150, 9.0);
    let (owned, must) = (owned(&lines), meeting(&lines));
    for sizing in [Sizing::Square, Sizing::Axes] {
        let parts = Parts::planned(owned.lines(), Plan { sizing, mode: Mode::Covering }).unwrap();
        for most in [1, 2, 7, 49, 50, 51, 74, 75, 149, 150] {
            hold(&lines, &parts.clone().of_at_most(most), &must);
        }
        let builds = |most| parts.clone().of_at_most(most).builds();
        assert_eq!([0, 1, 50, 74, 75, 150, usize::MAX].map(builds), [150 * 149 / 2, 150 * 149 / 2, 3, 3, 1, 1, 1]);
    }
}

#[test]
fn where_one_build_is_enough_it_is_that_of_all_lines() {
    let owned = owned(&year(500, 20.0));
    for plan in [Plan::from(Mode::Covering), Plan::from(Mode::Rust), Plan { sizing: Sizing::Axes, mode: Mode::Sided }] {
        let of_all = Tables::planned(owned.lines(), plan).unwrap().pairs_once(owned.lines()).unwrap();
        let of_parts = Parts::planned(owned.lines(), plan).unwrap().pairs().next().unwrap().unwrap();
        assert_eq!(of_parts, of_all.iter().map(|&(first, second)| (first as usize, second as usize)).collect::<Vec<_>>());
    }
}

#[test]
fn no_lines_and_one() {
    for count in [0, 1] {
        let owned = owned(&year(1, 4.0)[..count]);
        let parts = Parts::of(owned.lines()).unwrap();
        assert_eq!((parts.builds(), parts.pairs().collect::<Vec<_>>()), (1, vec![Ok(vec![])]));
    }
}

#[test]
fn a_refusal_names_the_line_among_all() {
    let mut lines: Vec<[f64; 4]> = (0..40).map(|i| [i as f64, 0.0, i as f64 + 1.0, 1.0]).collect();
    for bad in [39, 25, 11, 3] {
        lines[bad][2] = f64::NAN;
        let owned: LineVec = lines.iter().copied().collect();
        let refusal = Parts::of(owned.lines()).unwrap().of_at_most(10).pairs().find_map(Result::err).unwrap();
        assert_eq!(refusal, Refusal { number: Refusal::BAD_COORDINATE, value: bad as u64 });
    }
    let short = Lines { start_x: &[0.0, 1.0], start_y: &[0.0], end_x: &[0.0], end_y: &[0.0] };
    assert_eq!(Parts::of(short).unwrap_err(), Refusal { number: Refusal::BAD_LENGTHS, value: 0 });
}
