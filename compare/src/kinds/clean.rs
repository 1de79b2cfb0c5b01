//! Cleaning of chains, by the model and the port. The Rust has none. What is kept is cleaned once more, which has to change nothing, and the points whose
//! reason says that they are kept have to be the kept ones.

use super::{answers, word, Kind};
use crate::port;
use crate::model;
use crate::random::Random;

/// What slices hold before a call: anything but zero, so that an entry left alone shows.
const JUNK: u64 = 0x1234_5678_9abc_def0;

/// Two points, one that is no number, zeros of either sign, the edge of the rule and its neighbour above.
pub const A: [u64; 2] = [0x3ff0_0000_0000_0000; 2];
pub const B: [u64; 2] = [0x4000_0000_0000_0000; 2];
pub const NAN: [u64; 2] = [0x7ff0_0000_0000_0001, 0];
pub const ZERO: [u64; 2] = [0, 1 << 63];
pub const MINUS: [u64; 2] = [1 << 63, 0];
pub const EDGE: [u64; 2] = [0x41cd_cd65_0000_0000; 2];
pub const ABOVE: [u64; 2] = [0x41cd_cd65_0000_0000, 0x41cd_cd65_0000_0001];

/// Every chain of n points of five kinds.
pub fn every_short(n: u32) -> impl Iterator<Item = Vec<[u64; 2]>> {
    (0..5usize.pow(n)).map(move |k| (0..n).map(|i| [A, B, NAN, ZERO, MINUS][k / 5usize.pow(i) % 5]).collect())
}

#[derive(Clone)]
pub struct Chains {
    pub x: Vec<u64>,
    pub y: Vec<u64>,
    pub lengths: Vec<u32>,
    /// Room for x, y, lengths and reasons.
    pub room: [usize; 4],
}

impl Chains {
    fn just(points: &[[u64; 2]], lengths: Vec<u32>) -> Chains {
        let n = points.len();
        Chains { x: points.iter().map(|p| p[0]).collect(), y: points.iter().map(|p| p[1]).collect(), lengths, room: [n, n, n / 2, n] }
    }
}

/// Few values, so that repeats are many; the edges of the rule and what lies beyond them among them.
fn value(r: &mut Random, gaps: u64) -> u64 {
    let above = 1e9f64.to_bits() + 1;
    match r.below(gaps) {
        0 => r.pick(&[0x7ff0_0000_0000_0001, 0xfff8_0000_dead_beef, 0x7ff8_0000_0000_0000, 0x7ff0_0000_0000_0000, 0xfff0_0000_0000_0000, above, above | 1 << 63, f64::MAX.to_bits()]),
        1 => r.pick(&[1e9f64.to_bits(), (-1e9f64).to_bits(), above - 2, 1, 1 << 63 | 1]),
        2 => r.bits(),
        _ => r.pick(&[0, 1 << 63, 1f64.to_bits(), 2f64.to_bits()]),
    }
}

/// The n points of a member, of a sensor that gets stuck.
pub fn member(r: &mut Random, n: u32, gaps: u64) -> Vec<[u64; 2]> {
    let mut points: Vec<[u64; 2]> = Vec::new();
    for k in 0..n {
        let stuck = k > 0 && r.once_in(3);
        let point = if stuck { points[points.len() - 1] } else { [value(r, gaps), value(r, gaps)] };
        // a stuck sensor may turn the sign of a zero
        points.push(point.map(|v| if v << 1 == 0 && r.once_in(3) { v ^ 1 << 63 } else { v }));
    }
    points
}

pub struct Clean;

impl Kind for Clean {
    type Case = Chains;
    const NAME: &'static str = "clean";
    const SIDES: &'static str = "port and model";

    fn draw(r: &mut Random) -> (&'static str, Chains) {
        let gaps = r.pick(&[4, 12, 60]);
        let lengths: Vec<u32> = (0..r.below(5)).map(|_| if r.once_in(20) { r.pick(&[1, 1023, 1024]) } else { 1 + r.below(14) as u32 }).collect();
        let points = lengths.iter().flat_map(|&n| member(r, n, gaps)).collect::<Vec<_>>();
        let mut c = Chains::just(&points, lengths);
        let shape = match r.below(8) {
            0 => {
                match r.below(4) {
                    0 => drop(c.x.pop()),
                    1 => c.y.push(0),
                    2 => c.lengths.push(r.pick(&[0, 1, 1025, u32::MAX])),
                    _ => c.lengths.iter_mut().take(1).for_each(|n| *n = 0),
                }
                "not together"
            }
            1 => {
                let k = r.below(4) as usize;
                c.room[k] = c.room[k].saturating_sub(1);
                "short slices"
            }
            2 => {
                let more = r.below(5) as usize;
                c.room = [c.room[0] + more, c.room[1] + more, c.room[2] + r.below(5) as usize, c.room[3] + r.below(5) as usize];
                "roomy"
            }
            _ => "just enough",
        };
        (shape, c)
    }

    fn check(c: &Chains) -> Result<&'static str, String> {
        let lent = || (vec![JUNK; c.room[0]], vec![JUNK; c.room[1]], vec![super::JUNK; c.room[2]], vec![super::JUNK; c.room[3]], [u64::MAX; 4]);
        let (mut x, mut y, mut lengths, mut reasons, mut out) = lent();
        let number = model::clean(&c.x, &c.y, &c.lengths, [&mut x, &mut y], &mut lengths, &mut reasons, &mut out);
        let (mut px, mut py, mut plengths, mut preasons, mut pout) = lent();
        let answer = port::clean(&c.x, &c.y, &c.lengths, [&mut px, &mut py], &mut plengths, &mut preasons, &mut pout);
        answers("port", (number, &out), (answer, &pout))?;
        if x != px || y != py {
            return Err(format!("kept x {px:x?}, y {py:x?}; {x:x?}, {y:x?} wanted"));
        }
        if lengths != plengths {
            return Err(format!("lengths {plengths:?}, {lengths:?} wanted"));
        }
        if reasons != preasons {
            return Err(format!("reasons {preasons:?}, {reasons:?} wanted"));
        }
        if number != 0 {
            return Ok(word(number));
        }
        // kept and dropped together are the input
        let (points, pieces) = (pout[0] as usize, pout[1] as usize);
        let kept: Vec<u64> = c.x.iter().zip(&preasons).filter(|(_, &r)| r == 0).map(|(&v, _)| v).collect();
        if kept != px[..points] {
            return Err(format!("x of the points with the reason kept {kept:x?}, {:x?} kept", &px[..points]));
        }
        // cleaned once more
        let (x, y, lengths) = (&px[..points], &py[..points], &plengths[..pieces]);
        let (mut ax, mut ay, mut alengths, mut areasons) = (vec![JUNK; points], vec![JUNK; points], vec![super::JUNK; points / 2], vec![super::JUNK; points]);
        let again = port::clean(x, y, lengths, [&mut ax, &mut ay], &mut alengths, &mut areasons, &mut out);
        if again != 0 || ax != x || ay != y || alengths[..pieces] != *lengths || areasons.iter().any(|&r| r != 0) {
            return Err(format!("cleaned once more: number {again}, lengths {alengths:?}, reasons {areasons:?}"));
        }
        Ok(if points == c.x.len() { "all kept" } else if points == 0 { "none kept" } else { "some kept" })
    }

    fn smaller(c: &Chains) -> Vec<Chains> {
        let mut all = Vec::new();
        let mut at = 0;
        for k in 0..c.lengths.len() {
            let n = c.lengths[k] as usize;
            if at + n > c.x.len() || c.x.len() != c.y.len() {
                break;
            }
            for (from, to) in [(at, at + n), (at + n.saturating_sub(1), at + n)] {
                let mut s = c.clone();
                s.x.drain(from..to);
                s.y.drain(from..to);
                s.lengths[k] -= (to - from) as u32;
                if s.lengths[k] == 0 {
                    s.lengths.remove(k);
                }
                all.push(s);
            }
            at += n;
        }
        all
    }

    fn show(c: &Chains) -> String {
        format!("x {:x?}, y {:x?}, lengths {:?}, room {:?}", c.x, c.y, c.lengths, c.room)
    }
}

/// Document 02's own cases: no points; A A; A A NaN A; A NaN A B; A B A; 0 and -0; the edge of the rule and its neighbour above; a gap alone.
pub fn named() -> Vec<Vec<[u64; 2]>> {
    vec![vec![], vec![A, A], vec![A, A, NAN, A], vec![A, NAN, A, B], vec![A, B, A], vec![ZERO, MINUS, A], vec![EDGE, A, ABOVE, A, EDGE], vec![NAN]]
}

/// Each of these by itself, and all members of up to five points of five kinds.
pub fn fixed() -> Vec<(&'static str, Chains)> {
    let mut all: Vec<_> = named().iter().map(|ps| ("by name", Chains::just(ps, if ps.is_empty() { vec![] } else { vec![ps.len() as u32] }))).collect();
    for n in 1..=5u32 {
        for points in every_short(n) {
            all.push(("every short chain", Chains::just(&points, vec![n])));
            if n > 2 {
                all.push(("every short chain", Chains::just(&points, vec![2, n - 2])));
            }
        }
    }
    all
}
