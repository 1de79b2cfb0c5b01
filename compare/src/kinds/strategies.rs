//! Whether document 01's two strategies give a coordinate the same bits: against the Rust's own two, both asked.

use super::own::snap_size;
use super::{answers, float, rounder, word, Kind};
use crate::cases;
use crate::model;
use crate::oracle;
use crate::random::{decimals, nudged, Random};

/// The largest float below one half.
const BELOW_HALF: f64 = 0.49999999999999994;

#[derive(Clone)]
pub struct Case {
    pub v: f64,
    pub size: f64,
}

type Entry = fn(f64, f64, &mut [u64]) -> u32;

fn entries() -> Vec<(&'static str, Entry)> {
    vec![("model", model::strategies_agree), ("port", crate::port::strategies_agree)]
}

pub struct Strategies;

/// The halves and their neighbours, zeros and ends, at sizes of both ends, of zero and between, on both sides of zero.
pub fn fixed() -> Vec<(&'static str, Case)> {
    let sizes = [0.0, -0.0, 1e-6, nudged(1e-6, 1), 0.1, 1.0, 435.1193793399033, nudged(1e6, -1), 1e6];
    let mut all = Vec::new();
    for size in sizes {
        for scaled in [0.0, 5e-324, BELOW_HALF, 0.5, 1.0, 1.5, 2.5, 1e9] {
            for by in -3..=3 {
                for sign in [1.0, -1.0] {
                    let v = nudged(if size == 0.0 { scaled } else { scaled * size }, by) * sign;
                    all.push(("fixed", Case { v, size }));
                }
            }
        }
    }
    all
}

impl Kind for Strategies {
    type Case = Case;
    const NAME: &'static str = "strategies";

    fn draw(r: &mut Random) -> (&'static str, Case) {
        let size = match r.below(10) {
            0 => r.pick(&[1e-6, nudged(1e-6, 1), 1e6, nudged(1e6, -1)]),
            1 => decimals(r.between(1e-3, 1e3), r.below(4) as u32),
            _ => snap_size(r),
        };
        let (shape, v) = match r.below(10) {
            // a quotient just under one half, and its neighbours
            0..=3 => ("just under one half", nudged(size * BELOW_HALF, r.below(9) as i64 - 4)),
            4 | 5 => {
                let digits = r.below(50);
                ("halves", nudged((r.below(1 << digits) as f64 + 0.5) * size, r.below(7) as i64 - 3))
            }
            6 => {
                let digits = r.below(50);
                ("whole", nudged(r.below(1 << digits) as f64 * size, r.below(7) as i64 - 3))
            }
            7 => ("zeros and ends", r.pick(&[0.0, 5e-324, 2.2250738585072014e-308, BELOW_HALF, 0.5, 1e9, nudged(1e9, -1)])),
            8 => ("free", if r.once_in(30) { cases::bad(r) } else { r.size(1e-12, 1e9) }),
            _ => ("free", r.between(0.0, 1e9)),
        };
        // what is too large becomes smaller by a power of two, which keeps its digits
        let v = if v.is_finite() && v > 1e9 && v < 1e30 { v / 2f64.powi((v / 1e9).log2().ceil() as i32) } else { v };
        (shape, Case { v: r.sign() * v, size })
    }

    fn check(c: &Case) -> Result<&'static str, String> {
        let mut wanted = None;
        for (who, entry) in entries() {
            let mut out = [u64::MAX; 2];
            let number = entry(c.v, c.size, &mut out);
            let wanted = *wanted.get_or_insert_with(|| match number {
                0 => (0, [by_rust(c) as u64, u64::MAX]),
                n => (n, out),
            });
            answers(who, (wanted.0, &wanted.1), (number, &out))?;
        }
        Ok(match wanted.unwrap() {
            (0, [1, _]) => "the same bits",
            (0, _) => "other bits",
            (number, _) => word(number),
        })
    }

    fn smaller(case: &Case) -> Vec<Case> {
        let mut all = Vec::new();
        all.extend(rounder(case.v).into_iter().map(|v| Case { v, ..*case }));
        all.extend(rounder(case.size).into_iter().map(|size| Case { size, ..*case }));
        all
    }

    fn show(c: &Case) -> String {
        format!("coordinate {}, size {}\n", float(c.v), float(c.size))
    }
}

/// Whether the Rust's two strategies give the same bits, on both axes.
pub fn by_rust(c: &Case) -> bool {
    let ((x, y), (p, q)) = (oracle::snap(c.v, c.v, c.size), oracle::snap_by_geos(c.v, c.v, c.size));
    assert_eq!((x.to_bits(), p.to_bits()), (y.to_bits(), q.to_bits()), "the Rust snaps both axes alike");
    x.to_bits() == p.to_bits()
}
