//! The reader: the model and the port. The Rust has none.

use super::{answers, word, Kind};
use crate::model;
use crate::random::Random;

#[derive(Clone)]
pub struct Case {
    pub bytes: Vec<u8>,
    pub x: usize,
    pub y: usize,
}

type Entry = fn(&[u8], &mut [f64], &mut [f64], &mut [u64]) -> u32;

fn entries() -> Vec<(&'static str, Entry)> {
    vec![("model", model::read_line_string), ("port", crate::port::read_line_string)]
}

/// A LineString in bytes.
pub fn written(points: &[(f64, f64)], little: bool) -> Vec<u8> {
    let mut bytes = vec![little as u8];
    let mut put = |b: &[u8]| {
        if little {
            bytes.extend(b);
        } else {
            bytes.extend(b.iter().rev());
        }
    };
    put(&2u32.to_le_bytes());
    put(&(points.len() as u32).to_le_bytes());
    for p in points {
        put(&p.0.to_bits().to_le_bytes());
        put(&p.1.to_bits().to_le_bytes());
    }
    bytes
}

pub struct Wkb;

impl Kind for Wkb {
    type Case = Case;
    const NAME: &'static str = "wkb";
    const SIDES: &'static str = "port and model";

    fn draw(r: &mut Random) -> (&'static str, Case) {
        let n = match r.below(8) {
            0 => r.pick(&[0, 1, 2, 1023, 1024, 1025]),
            _ => r.below(40) as usize,
        };
        let points: Vec<_> = (0..n).map(|_| (f64::from_bits(r.bits()), r.between(-1e9, 1e9))).collect();
        let mut bytes = written(&points, r.once_in(2));
        let mut shape = "whole";
        match r.below(8) {
            0 => {
                shape = "cut";
                bytes.truncate(r.below(bytes.len() as u64 + 1) as usize);
            }
            1 => {
                shape = "longer";
                bytes.extend((0..1 + r.below(20)).map(|k| k as u8));
            }
            2..=3 => {
                shape = "one byte changed";
                let k = r.below(bytes.len().min(10) as u64) as usize;
                bytes[k] = r.pick(&[0, 1, 2, 4, 255, r.clone().bits() as u8]);
            }
            _ => {}
        }
        let (x, y) = if r.once_in(20) { r.pick(&[(1024, 1023), (1023, 1023), (1025, 1024), (0, 0), (2000, 2000)]) } else { (1024, 1024) };
        (shape, Case { bytes, x, y })
    }

    fn check(c: &Case) -> Result<&'static str, String> {
        let mut wanted = None;
        for (who, entry) in entries() {
            let junk = f64::from_bits(0x1234_5678_9abc_def0);
            let (mut x, mut y) = (vec![junk; c.x], vec![junk; c.y]);
            let mut out = [u64::MAX; 8];
            let number = entry(&c.bytes, &mut x, &mut y, &mut out);
            // every pattern of a NaN is the one NaN
            let bits = |v: &[f64]| v.iter().map(|v| if v.is_nan() { u64::MAX } else { v.to_bits() }).collect::<Vec<_>>();
            let got = (number, vec![out[0]], bits(&x), bits(&y));
            let w = wanted.get_or_insert_with(|| got.clone());
            answers(who, (w.0, &w.1), (got.0, &got.1))?;
            answers(&format!("{who}: x"), (0, &w.2), (0, &got.2))?;
            answers(&format!("{who}: y"), (0, &w.3), (0, &got.3))?;
        }
        Ok(word(wanted.unwrap().0))
    }

    fn smaller(case: &Case) -> Vec<Case> {
        let mut all = Vec::new();
        for k in 0..case.bytes.len().min(64) {
            if case.bytes[k] > 1 {
                let mut c = case.clone();
                c.bytes[k] = 0;
                all.push(c);
            }
        }
        for n in [case.bytes.len() / 2, case.bytes.len().saturating_sub(16), case.bytes.len().saturating_sub(1)] {
            if n < case.bytes.len() {
                let mut c = case.clone();
                c.bytes.truncate(n);
                all.push(c);
            }
        }
        all
    }

    fn show(c: &Case) -> String {
        let hex: Vec<String> = c.bytes.iter().take(80).map(|b| format!("{b:02x}")).collect();
        format!("{} bytes: {}\npoint slices {} and {}\n", c.bytes.len(), hex.join(""), c.x, c.y)
    }
}
