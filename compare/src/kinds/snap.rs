//! Snapping, bit for bit.

use super::own::snapping;
use super::{answers, float, rounder, word, Kind};
use crate::cases;
use crate::model;
use crate::oracle;
use crate::random::{decimals, nudged, Random};

#[derive(Clone)]
pub struct Case {
    pub x: f64,
    pub y: f64,
    pub size: f64,
    pub strategy: u32,
}

type Entry = fn(f64, f64, f64, u32, &mut [u64]) -> u32;

fn entries() -> Vec<(&'static str, Entry)> {
    vec![("model", model::snap), ("port", crate::port::snap)]
}

pub struct Snap;

impl Kind for Snap {
    type Case = Case;
    const NAME: &'static str = "snap";

    fn draw(r: &mut Random) -> (&'static str, Case) {
        let (size, strategy) = snapping(r);
        let mut shape = "free";
        let mut value = || {
            let v = match r.below(8) {
                0 => r.between(-1e9, 1e9),
                1 => {
                    shape = "halves";
                    let digits = r.below(31);
                    let k = r.below(1 << digits) as f64 + 0.5;
                    r.sign() * nudged(k * size, r.below(5) as i64 - 2)
                }
                2 => r.pick(&[0.0, -0.0, 0.49999999999999994, -2.5, 5e-324, -5e-324, 1e9, -1e9]),
                3 => r.sign() * nudged(size * r.below(1000) as f64, r.below(5) as i64 - 2),
                4 => decimals(r.between(-1000.0, 1000.0), 3),
                5 => r.sign() * size * 0.49999999999999994,
                6 if r.once_in(20) => cases::bad(r),
                _ => r.sign() * r.size(1e-12, 1e9),
            };
            if v.abs() > 1.1e9 && v.is_finite() && v < 1e299 {
                v / 1e9
            } else {
                v
            }
        };
        let (x, y) = (value(), value());
        (shape, Case { x, y, size, strategy })
    }

    fn check(c: &Case) -> Result<&'static str, String> {
        let mut wanted = None;
        for (who, entry) in entries() {
            let mut out = [u64::MAX; 8];
            let number = entry(c.x, c.y, c.size, c.strategy, &mut out);
            let got = (number, if number == 0 { [out[0], out[1]] } else { [out[0], 0] });
            let wanted = wanted.get_or_insert_with(|| match number {
                0 => {
                    let (x, y) = oracle::snap(c.x, c.y, c.size);
                    (0, [x.to_bits(), y.to_bits()])
                }
                _ => got,
            });
            answers(who, (wanted.0, &wanted.1), (got.0, &got.1))?;
        }
        Ok(match (wanted.unwrap().0, c.strategy) {
            (12, 1) => "refused 12, strategy 1",
            (number, _) => word(number),
        })
    }

    fn smaller(case: &Case) -> Vec<Case> {
        let mut all = Vec::new();
        all.extend(rounder(case.x).into_iter().map(|x| Case { x, ..*case }));
        all.extend(rounder(case.y).into_iter().map(|y| Case { y, ..*case }));
        all.extend(rounder(case.size).into_iter().map(|size| Case { size, ..*case }));
        all
    }

    fn show(c: &Case) -> String {
        format!("point {}, {}, size {}, strategy {}\n", float(c.x), float(c.y), float(c.size), c.strategy)
    }
}
