//! Each number function against Rust's std, on bit patterns that seek the edges.
//! Differences are counted by function. The sign of a zero that min or max answers is counted apart: Rust leaves it open.

use crate::model;
use crate::port::numbers as port;
use crate::random::{nudged, Random};

struct Functions {
    who: &'static str,
    least: fn(f64, f64) -> f64,
    greatest: fn(f64, f64) -> f64,
    magnitude: fn(f64) -> f64,
    floor: fn(f64) -> f64,
    clamped_floor: fn(f64, u32) -> u32,
    ceiling: fn(f64) -> u64,
    round_half_away: fn(f64) -> f64,
    square_root: fn(f64) -> f64,
}

const MODEL: Functions = Functions {
    who: "model",
    least: model::least,
    greatest: model::greatest,
    magnitude: model::magnitude,
    floor: model::floor,
    clamped_floor: model::clamped_floor,
    ceiling: model::ceiling,
    round_half_away: model::round_half_away,
    square_root: model::square_root,
};

const PORT: Functions = Functions {
    who: "port",
    least: port::least,
    greatest: port::greatest,
    magnitude: port::magnitude,
    floor: port::floor,
    clamped_floor: port::clamped_floor,
    ceiling: port::ceiling,
    round_half_away: port::round_half_away,
    square_root: port::square_root,
};

const FAMILIES: [&str; 9] = [
    "random patterns", "halves", "powers of two", "near 2^52 and 2^53", "subnormals", "squares", "special", "limits of whole numbers", "decimals",
];

/// The i-th pattern of a run.
pub fn pattern(r: &mut Random, family: usize) -> f64 {
    let near = |r: &mut Random, v: f64| nudged(v, r.below(5) as i64 - 2);
    let v = match family {
        0 => f64::from_bits(r.bits()),
        1 => {
            let k = r.bits() >> (11 + r.below(53)) as u32;
            near(r, k as f64 + 0.5)
        }
        2 => {
            let e = r.below(2098) as i32 - 1074;
            let v = if e < -1022 { f64::from_bits(1 << (e + 1074)) } else { f64::from_bits(((e + 1023) as u64) << 52) };
            near(r, v)
        }
        3 => {
            let v = (1u64 << (51 + r.below(3))) as f64 + r.between(-1000.0, 1000.0);
            if r.once_in(2) {
                v
            } else {
                (v * 2.0).round() / 2.0
            }
        }
        4 => f64::from_bits(r.bits() >> (12 + r.below(52))),
        5 => {
            let k = (r.bits() >> (37 + r.below(26))) as f64;
            let scale = 4f64.powi(r.below(300) as i32 - 150);
            near(r, k * k * scale)
        }
        6 => r.pick(&[0.0, -0.0, f64::INFINITY, f64::NEG_INFINITY, f64::NAN, f64::MAX, f64::MIN, f64::MIN_POSITIVE, 5e-324, 0.49999999999999994]),
        7 => {
            let v = 2f64.powi(r.pick(&[31, 32, 62, 63, 64, 65, 11, 12]));
            near(r, v)
        }
        _ => (r.between(-1e6, 1e6) * 1000.0).round() / 1000.0,
    };
    if r.once_in(3) {
        -v
    } else {
        v
    }
}

fn same(a: f64, b: f64) -> bool {
    a.to_bits() == b.to_bits() || (a.is_nan() && b.is_nan())
}

/// A signalling NaN as a quiet one: Rust's min and max pass over every NaN alike, but compiled for Arm they answer a signalling one.
fn quiet(v: f64) -> f64 {
    if v.is_nan() {
        f64::NAN
    } else {
        v
    }
}

struct Count {
    name: &'static str,
    differ: u64,
    zeros: u64,
    first: String,
}

/// Answers whether nothing differs but the sign of a zero of min and max.
pub fn run(seed: u64, cases: u64) -> bool {
    let mut right = true;
    for f in [MODEL, PORT] {
        let names = ["least", "greatest", "magnitude", "floor", "clamped_floor", "ceiling", "round_half_away", "square_root"];
        let mut counts: Vec<Count> = names.map(|name| Count { name, differ: 0, zeros: 0, first: String::new() }).into();
        let mut r = Random::new(seed);
        let mut last = 1.0;
        for i in 0..cases {
            let v = pattern(&mut r, i as usize % FAMILIES.len());
            let other = match i % 4 {
                0 => last,
                1 => nudged(v, 1),
                2 => -v,
                _ => {
                    let family = r.below(FAMILIES.len() as u64) as usize;
                    pattern(&mut r, family)
                }
            };
            last = v;
            let count = match i % 3 {
                0 => 1 + r.below(4004) as u32,
                1 => (r.bits() >> (32 + r.below(32))) as u32,
                _ => r.pick(&[1, 2, u32::MAX, 4004, 1001]),
            };
            let mut note = |k: usize, ok: bool, zero: bool, text: &dyn Fn() -> String| {
                let c = &mut counts[k];
                if zero {
                    c.zeros += 1;
                } else if !ok {
                    if c.differ == 0 {
                        c.first = text();
                    }
                    c.differ += 1;
                }
            };
            let (a, b) = (quiet(v), quiet(other));
            for (k, wanted, got) in [(0, a.min(b), (f.least)(v, other)), (1, a.max(b), (f.greatest)(v, other))] {
                let zero = !same(wanted, got) && wanted == 0.0 && got == 0.0;
                note(k, same(wanted, got), zero, &|| format!("{v:?}, {other:?}: {got:?}, {wanted:?} wanted"));
            }
            for (k, wanted, got) in [
                (2, v.abs(), (f.magnitude)(v)),
                (3, v.floor(), (f.floor)(v)),
                (6, v.round(), (f.round_half_away)(v)),
                (7, v.sqrt(), (f.square_root)(v)),
            ] {
                note(k, same(wanted, got), false, &|| format!("{v:?} ({:016x}): {got:?}, {wanted:?} wanted", v.to_bits()));
            }
            let wanted = if count == 0 { 0 } else { (v.floor() as isize).clamp(0, count as isize - 1) as u32 };
            let got = (f.clamped_floor)(v, count);
            note(4, wanted == got, false, &|| format!("{v:?} in {count}: {got}, {wanted} wanted"));
            let (wanted, got) = (v.ceil() as usize as u64, (f.ceiling)(v));
            note(5, wanted == got, false, &|| format!("{v:?}: {got}, {wanted} wanted"));
        }
        println!("numbers: {cases} patterns ({}), Rust's std and {}:", FAMILIES.join(", "), f.who);
        for c in counts {
            let zeros = if c.zeros > 0 { format!(", {} in the sign of a zero alone", c.zeros) } else { String::new() };
            let first = if c.differ > 0 { format!("; first {}", c.first) } else { String::new() };
            println!("  {}: {} differences{zeros}{first}", c.name, c.differ);
            right &= c.differ == 0;
        }
    }
    right
}
