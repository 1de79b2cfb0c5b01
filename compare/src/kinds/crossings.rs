//! Crossings of samples: on the tables of builds of the same numbers as floats, in every sizing and mode of walk, on tables that fit and that no build made,
//! and on damaged ones. Every entry of the five slices that are lent is compared, with room to spare, exactly full and one short. What is listed is held to
//! all pairs, decided in 128 bits: in the covering mode none may be missing.

use super::build::Columns;
use super::visit::Owned;
use super::{answers, slices, word, Kind, JUNK};
use crate::model::{self, Standing, MOST_LINES};
use crate::port::{self, Sampled};
use crate::random::Random;
use crate::{Line, Mode, Sizing};

/// start x, start y, end x, end y
type Leg = [i32; 4];

const MOST: i32 = 1 << 29;

#[derive(Clone)]
pub struct Case {
    legs: Vec<Leg>,
    sizing: Sizing,
    mode: Mode,
    /// For lists that no walk made, damage, and how much is lent.
    seed: u64,
    made_up: bool,
    damage: bool,
    spoil: Spoil,
}

/// What is wrong with the samples that are lent; the tables are of the right ones.
#[derive(Clone, Copy, PartialEq)]
enum Spoil {
    Nothing,
    Sample,
    Lengths,
    Number,
}

// ---- all pairs, in 128 bits

/// The sign of the turn from a to b to c.
fn turn(a: [i128; 2], b: [i128; 2], c: [i128; 2]) -> i128 {
    ((b[0] - a[0]) * (c[1] - a[1]) - (b[1] - a[1]) * (c[0] - a[0])).signum()
}

/// Whether b, which lies on the line through a and c, or c is a itself, lies between them.
fn between(a: [i128; 2], b: [i128; 2], c: [i128; 2]) -> bool {
    (0..2).all(|k| a[k].min(c[k]) <= b[k] && b[k] <= a[k].max(c[k]))
}

/// Whether two closed segments share a point, case by case: a proper crossing, or an end of one on the other.
fn share(s: &Leg, t: &Leg) -> bool {
    let point = |x: i32, y: i32| [x as i128, y as i128];
    let (a, b, c, d) = (point(s[0], s[1]), point(s[2], s[3]), point(t[0], t[1]), point(t[2], t[3]));
    let (e, f, g, h) = (turn(a, b, c), turn(a, b, d), turn(c, d, a), turn(c, d, b));
    e * f < 0 && g * h < 0
        || (turn(a, b, c) == 0 && between(a, c, b))
        || (turn(a, b, d) == 0 && between(a, d, b))
        || (turn(c, d, a) == 0 && between(c, a, d))
        || (turn(c, d, b) == 0 && between(c, b, d))
}

// ---- what is asked

/// What a call is lent, and leaves: first, second, starts, listing, counts.
struct Lent {
    slices: [Vec<u32>; 5],
    out: [u64; 2],
}

impl Lent {
    fn new(sizes: [usize; 5]) -> Lent {
        Lent { slices: sizes.map(|n| vec![JUNK; n]), out: [u64::MAX; 2] }
    }
}

/// Document 02, 7, by its words. The tests are those of the tables, where they fit.
fn model(s: &Standing, samples: &Sampled, l: &mut Lent) -> u32 {
    let n = samples.start_x.len();
    let [first, second, starts, listing, counts] = &mut l.slices;
    let uneven = [samples.start_y, samples.end_x, samples.end_y].iter().any(|v| v.len() != n);
    let short = first.len() != second.len() || starts.len() <= n || listing.len() < s.items.len() || counts.len() < n;
    let legs = || (0..n).map(|i| [samples.start_x[i], samples.start_y[i], samples.end_x[i], samples.end_y[i]]);
    let bad = || legs().position(|leg| leg.iter().any(|z| z.unsigned_abs() > MOST as u32));
    let refusal = if uneven || short {
        Some((3, 0))
    } else if n > MOST_LINES {
        Some((2, n as u64))
    } else if let Some(i) = bad() {
        Some((15, i as u64))
    } else if !model::grid_fits(&s.grid) {
        Some((8, 0))
    } else {
        (!s.fits()).then_some((10, 0))
    };
    if let Some((number, value)) = refusal {
        l.out[0] = value;
        return number;
    }
    let (legs, mut listed): (Vec<Leg>, Vec<(u32, u32)>) = (legs().collect(), Vec::new());
    let mut seen = std::collections::HashSet::new();
    for t in s.tests() {
        if seen.insert((t.first.min(t.second), t.first.max(t.second))) && share(&legs[t.first as usize], &legs[t.second as usize]) {
            listed.push((t.first, t.second));
        }
    }
    l.slices.iter_mut().for_each(|slice| slice.fill(0));
    l.out[0] = listed.len() as u64;
    if listed.len() > l.slices[0].len() {
        return 5;
    }
    for (k, pair) in listed.into_iter().enumerate() {
        (l.slices[0][k], l.slices[1][k]) = pair;
    }
    0
}

/// The port and the model with outputs of `room` entries; the answer, and the pairs.
fn ask(s: &Standing, samples: &Sampled, sizes: [usize; 5]) -> Result<(u32, u64, Vec<(u32, u32)>), String> {
    let (mut wanted, mut got) = (Lent::new(sizes), Lent::new(sizes));
    let number = model(s, samples, &mut wanted);
    let by_port = port::crossings(s, samples, &mut got.slices, &mut got.out);
    answers(&format!("port: crossings with {sizes:?}"), (number, &wanted.out), (by_port, &got.out))?;
    for (k, name) in ["first", "second", "starts", "listing", "counts"].iter().enumerate() {
        slices(name, &wanted.slices[k], &got.slices[k])?;
    }
    let pairs = got.slices[0].iter().copied().zip(got.slices[1].iter().copied()).take(got.out[0] as usize).collect();
    Ok((number, wanted.out[0], if number == 0 { pairs } else { Vec::new() }))
}

pub struct Crossings;

impl Kind for Crossings {
    type Case = Case;
    const NAME: &'static str = "crossings";
    const SIDES: &'static str = "port and model";

    fn draw(r: &mut Random) -> (&'static str, Case) {
        let n = 2 + r.below(30) as usize;
        // a lattice so small that lines touch, overlap and repeat; or a corner of the range; or the whole of it
        let (shape, low, wide) = match r.below(6) {
            0..=2 => ("a small lattice", [0, 0], 1 + r.below(6) as i64),
            3 => ("a lattice near 2^29", [0, 1].map(|_| r.pick(&[-(MOST as i64), MOST as i64 - 9])), 9),
            4 => ("a wider one near 2^29", [0, 1].map(|_| r.pick(&[-(MOST as i64), MOST as i64 - 400])), 400),
            _ => ("the whole range", [-(MOST as i64); 2], 2 * MOST as i64),
        };
        let point = |r: &mut Random| [0, 1].map(|k| (low[k] + r.below(wide as u64 + 1) as i64) as i32);
        let chain = r.once_in(2);
        let mut legs: Vec<Leg> = Vec::new();
        let mut at = point(r);
        for _ in 0..n {
            let (from, to) = (if chain { at } else { point(r) }, if r.once_in(8) { at } else { point(r) });
            legs.push(if r.once_in(10) && !legs.is_empty() { r.pick(&legs) } else { [from[0], from[1], to[0], to[1]] });
            at = to;
        }
        let spoil = match r.below(100) {
            0..=3 => Spoil::Sample,
            4..=6 => Spoil::Lengths,
            7 if n < 8 => Spoil::Number,
            _ => Spoil::Nothing,
        };
        let (sizing, mode) = (r.pick(&[Sizing::Square, Sizing::Axes]), r.pick(&[Mode::Rust, Mode::Sided, Mode::Covering]));
        let made_up = r.once_in(6);
        let shape = if made_up { "tables that no build made" } else { shape };
        (shape, Case { legs, sizing, mode, seed: r.below(u64::MAX), made_up, damage: r.once_in(12), spoil })
    }

    fn check(case: &Case) -> Result<&'static str, String> {
        let floats: Vec<Line> = case.legs.iter().map(|leg| leg.map(|z| z as f64)).collect();
        let columns = Columns::new(&floats);
        let lines = columns.coordinates();
        let Ok(t) = model::tables(lines, case.sizing, case.mode, usize::MAX) else { return Ok("not built") };
        let r = &mut Random::new(case.seed);
        let mut t = Owned { grid: t.grid, offsets: t.offsets, items: t.items, global_count: t.globals.len() as u64, globals: t.globals };
        if case.made_up {
            t.make_up(case.legs.len() as u32, r);
        }
        if case.damage {
            t.damage(case.legs.len() as u32, r);
        }
        let mut legs = case.legs.clone();
        match case.spoil {
            Spoil::Sample => {
                let k = r.below(legs.len() as u64) as usize;
                legs[k][r.below(4) as usize] = r.pick(&[MOST + 1, -MOST - 1, i32::MAX, i32::MIN]);
            }
            Spoil::Number => legs = legs.iter().copied().cycle().take(MOST_LINES + 1).collect(),
            _ => {}
        }
        let columns: [Vec<i32>; 4] = [0, 1, 2, 3].map(|k| legs.iter().map(|leg| leg[k]).collect());
        let cut = (case.spoil == Spoil::Lengths) as usize;
        let samples = Sampled { start_x: &columns[0], start_y: &columns[1], end_x: &columns[2], end_y: &columns[3][cut..] };
        let s = Standing { grid: t.grid, lines, offsets: &t.offsets, items: &t.items, globals: &t.globals, global_count: t.global_count };
        let n = legs.len();
        // now and then a slice that is short
        let room = case.legs.len() * case.legs.len();
        let mut sizes = [room, room, n + 1, t.items.len(), n].map(|k| k + r.below(2) as usize);
        sizes[1] = sizes[0];
        if r.once_in(10) {
            let k = r.below(5) as usize;
            sizes[k] = [sizes[0] - 1, sizes[0] - 1, n, t.items.len().saturating_sub(1), n - 1][k];
        }
        let (number, count, listed) = ask(&s, &samples, sizes)?;
        if number != 0 {
            return Ok(word(number));
        }
        for room in [count as usize, (count as usize).saturating_sub(1)] {
            ask(&s, &samples, [room, room, n + 1, t.items.len(), n])?;
        }
        let all = (0..n).flat_map(|a| (a + 1..n).map(move |b| (a, b))).filter(|&(a, b)| share(&legs[a], &legs[b])).count();
        if case.made_up || case.damage {
            return Ok("listed");
        }
        if case.mode == Mode::Covering && listed.len() != all {
            return Err(format!("{} of {all} crossings are listed in the covering mode", listed.len()));
        }
        Ok(match (all, listed.len() == all, case.mode) {
            (0, _, _) => "no crossing",
            (_, true, Mode::Covering) => "every crossing, covering",
            (_, true, _) => "every crossing",
            (_, false, Mode::Rust) => "one or more missed, in the Rust's mode",
            _ => "one or more missed, in the sided mode",
        })
    }

    fn smaller(case: &Case) -> Vec<Case> {
        let n = case.legs.len();
        (0..n).filter(|_| n > 1).map(|k| Case { legs: [&case.legs[..k], &case.legs[k + 1..]].concat(), ..case.clone() }).collect()
    }

    fn show(c: &Case) -> String {
        let legs: Vec<String> = c.legs.iter().map(|leg| format!("{leg:?}")).collect();
        format!("{:?} {:?}, seed {}, made up {}, damage {}\n{}\n", c.sizing, c.mode, c.seed, c.made_up, c.damage, legs.join("\n"))
    }
}

/// The chain whose legs 0 and 2 share a point that the Rust's walk steps past, in each sizing and mode.
pub fn fixed() -> Vec<(&'static str, Case)> {
    let mut points = vec![[536870733, 536870733], [536870708, 536870678], [536870658, 536870818], [536870763, 536870699], [536870554, 536870554]];
    points.extend([[MOST, MOST]; 32]);
    let legs: Vec<Leg> = points.windows(2).map(|w| [w[0][0], w[0][1], w[1][0], w[1][1]]).collect();
    let plans = [Sizing::Square, Sizing::Axes].into_iter().flat_map(|sizing| [Mode::Rust, Mode::Sided, Mode::Covering].map(|mode| (sizing, mode)));
    plans.map(|(sizing, mode)| ("a chain with a dropped pair", Case { legs: legs.clone(), sizing, mode, seed: 1, made_up: false, damage: false, spoil: Spoil::Nothing })).collect()
}
