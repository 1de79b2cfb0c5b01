//! Many chains at once: the reader and the writer of a MultiLineString, and the lines of members, by the model and the port. The Rust has none.

use super::{answers, word, Kind};
use crate::model::{self, MOST_LINES};
use crate::port;
use crate::random::Random;

/// Members, each with whether it stands in the little order.
type Ordered = Vec<(bool, Vec<[u64; 2]>)>;

/// What 64-bit slices hold before a call: anything but zero, so that an entry left alone shows.
const JUNK: u64 = 0x1234_5678_9abc_def0;
const JUNK_LENGTH: u32 = super::JUNK;
const JUNK_BYTE: u8 = 0xa5;

/// A pattern: mostly any 64 bits; often an edge, quiet and signalling NaNs with payloads among them.
fn pattern(r: &mut Random) -> u64 {
    match r.below(4) {
        0 => r.pick(&[0, 1 << 63, 0x7ff0_0000_0000_0001, 0xfff8_0000_dead_beef, 0x7ff8_0000_0000_0000, u64::MAX, 0x7ff0_0000_0000_0000, 1]),
        1 => r.between(-1e9, 1e9).to_bits(),
        _ => r.bits(),
    }
}

fn chain(r: &mut Random, n: u64) -> Vec<[u64; 2]> {
    (0..n).map(|_| [pattern(r), pattern(r)]).collect()
}

/// The most points that members have: mostly few, at times all.
fn lengths(r: &mut Random) -> Vec<u64> {
    let members = r.below(6);
    (0..members)
        .map(|_| match r.below(10) {
            0 => r.pick(&[1, 2, 1023, 1024]),
            _ => 1 + r.below(12),
        })
        .collect()
}

fn members(r: &mut Random) -> (bool, Ordered) {
    let little = r.once_in(2);
    let all = r.below(3);
    let lengths = lengths(r);
    let order = |r: &mut Random| match all {
        0 => little,
        _ => r.once_in(2),
    };
    (little, lengths.into_iter().map(|n| (order(r), chain(r, n))).collect())
}

/// How two slices of the same length differ, entry by entry.
fn slices<T: PartialEq + std::fmt::LowerHex>(name: &str, wanted: &[T], got: &[T]) -> Result<(), String> {
    match wanted.iter().zip(got).position(|(a, b)| a != b) {
        None => Ok(()),
        Some(i) => Err(format!("{name}[{i}] is {:x}, {:x} wanted", got[i], wanted[i])),
    }
}

// ---- the reader ----

#[derive(Clone)]
pub struct Bytes {
    pub bytes: Vec<u8>,
    pub x: usize,
    pub y: usize,
    pub lengths: usize,
}

impl Bytes {
    /// With room for all that the bytes can hold.
    fn roomy(bytes: Vec<u8>) -> Bytes {
        let room = bytes.len() / 16 + 1;
        Bytes { x: room, y: room, lengths: room, bytes }
    }
}

pub struct Multi;

impl Kind for Multi {
    type Case = Bytes;
    const NAME: &'static str = "multi";
    const SIDES: &'static str = "port and model";

    fn draw(r: &mut Random) -> (&'static str, Bytes) {
        let (little, members) = members(r);
        let points: usize = members.iter().map(|m| m.1.len()).sum();
        let mut case = Bytes::roomy(model::multi_line_string(little, &members));
        let shape = match r.below(9) {
            0 => {
                case.bytes.truncate(r.below(case.bytes.len() as u64 + 1) as usize);
                "cut"
            }
            1 => {
                case.bytes.extend((0..1 + r.below(40)).map(|k| (k % 7) as u8));
                "longer"
            }
            2 => {
                let k = r.below(case.bytes.len().min(60) as u64) as usize;
                case.bytes[k] = r.pick(&[0, 1, 2, 4, 5, 255, r.clone().bits() as u8]);
                "one byte changed"
            }
            3 => {
                // another number of members
                let count = r.pick(&[0u32, 1, members.len() as u32 + 1, (members.len() as u32).wrapping_sub(1), u32::MAX]);
                let field = if little { count.to_le_bytes() } else { count.to_be_bytes() };
                case.bytes[5..9].copy_from_slice(&field);
                "another count"
            }
            4 => {
                let near = |r: &mut Random, n: usize| (n + r.below(3) as usize).saturating_sub(1);
                (case.x, case.lengths) = (near(r, points), near(r, members.len()));
                case.y = if r.once_in(4) { near(r, points) } else { case.x };
                "tight slices"
            }
            _ if little && members.iter().all(|m| m.0) => "little throughout",
            _ => "mixed orders",
        };
        (shape, case)
    }

    fn check(c: &Bytes) -> Result<&'static str, String> {
        let lent = || (vec![JUNK; c.x], vec![JUNK; c.y], vec![JUNK_LENGTH; c.lengths], [u64::MAX; 4]);
        let (mut x, mut y, mut lengths, mut out) = lent();
        let number = model::read_multi_line_string(&c.bytes, &mut x, &mut y, &mut lengths, &mut out);
        let (mut px, mut py, mut plengths, mut pout) = lent();
        let answer = port::read_multi_line_string(&c.bytes, &mut px, &mut py, &mut plengths, &mut pout);
        answers("port", (number, &out), (answer, &pout))?;
        slices("x", &x, &px)?;
        slices("y", &y, &py)?;
        slices("lengths", &lengths, &plengths)?;
        if number != 0 {
            return Ok(word(number));
        }
        // written back: the model's bytes, which are those that were read where they were little throughout
        let (points, members) = (pout[0] as usize, pout[1] as usize);
        let mut bytes = vec![JUNK_BYTE; c.bytes.len() + 3];
        let mut wanted = bytes.clone();
        let (px, py, plengths) = (&px[..points], &py[..points], &plengths[..members]);
        let number = model::write_multi_line_string(px, py, plengths, &mut wanted, &mut out);
        let answer = port::write_multi_line_string(px, py, plengths, &mut bytes, &mut pout);
        answers("port, writing back,", (number, &out), (answer, &pout))?;
        slices("bytes written back", &wanted, &bytes)?;
        let orders = (0..members).scan(9, |at, m| Some(std::mem::replace(at, *at + 9 + 16 * plengths[m] as usize)));
        let little = c.bytes[0] == 1 && orders.into_iter().all(|at| c.bytes[at] == 1);
        if little {
            slices("bytes written back", &c.bytes, &bytes[..c.bytes.len()])?;
            return Ok("read, and written as it came");
        }
        // and read again, points and lengths are the same
        let (mut x, mut y, mut lengths) = (vec![JUNK; points], vec![JUNK; points], vec![JUNK_LENGTH; members]);
        let answer = port::read_multi_line_string(&bytes[..pout[0] as usize], &mut x, &mut y, &mut lengths, &mut out);
        if answer != 0 {
            return Err(format!("what was written back is refused by {answer} with {}", out[0]));
        }
        slices("x read again", px, &x)?;
        slices("y read again", py, &y)?;
        slices("lengths read again", plengths, &lengths)?;
        Ok("read, and read again")
    }

    fn smaller(c: &Bytes) -> Vec<Bytes> {
        let mut all = Vec::new();
        let n = c.bytes.len();
        for cut in [n / 2, n.saturating_sub(16), n.saturating_sub(1)] {
            if cut < n {
                all.push(Bytes { bytes: c.bytes[..cut].to_vec(), ..c.clone() });
            }
        }
        for i in (0..n).filter(|&i| c.bytes[i] > 0).take(200) {
            let mut bytes = c.bytes.clone();
            bytes[i] /= 2;
            all.push(Bytes { bytes, ..c.clone() });
        }
        all
    }

    fn show(c: &Bytes) -> String {
        let bytes: Vec<String> = c.bytes.iter().map(|b| format!("{b:02x}")).collect();
        format!("{} bytes, x {}, y {}, lengths {}: {}", c.bytes.len(), c.x, c.y, c.lengths, bytes.join(" "))
    }
}

/// Every cut and every value of every byte of two small files, one little throughout and one in mixed orders; and years whose lines are at the limit
/// and beyond it, in every order.
pub fn fixed(seed: u64) -> Vec<(&'static str, Bytes)> {
    let point = [0x7ff0_0000_0000_0001, 1 << 63];
    let small = [
        model::multi_line_string(true, &[(true, vec![point]), (true, vec![[7, 9], point])]),
        model::multi_line_string(false, &[(true, vec![[1, 2], point]), (false, vec![point])]),
    ];
    let mut all = vec![("no members", Bytes::roomy(model::multi_line_string(true, &[])))];
    for bytes in small {
        for cut in 0..=bytes.len() {
            all.push(("every cut", Bytes::roomy(bytes[..cut].to_vec())));
        }
        for i in 0..bytes.len() {
            for value in 0..=255 {
                let mut damaged = bytes.clone();
                damaged[i] = value;
                all.push(("every byte", Bytes::roomy(damaged)));
            }
        }
    }
    let r = &mut Random::new(seed);
    // 64 members of 1,024 points, and one of 65: at the limit; with one point more, beyond it
    for last in [65, 66] {
        let sizes = std::iter::repeat(1024).take(64).chain([last]);
        let members: Ordered = sizes.map(|n| (r.once_in(2), chain(r, n))).collect();
        all.push(("at the limit", Bytes::roomy(model::multi_line_string(r.once_in(2), &members))));
        let mut longer = model::multi_line_string(true, &members);
        longer.push(0);
        all.push(("at the limit", Bytes::roomy(longer)));
    }
    // members of one point make no lines
    let many: Ordered = (0..70_000).map(|_| (r.once_in(2), chain(r, 1))).collect();
    all.push(("70,000 points", Bytes::roomy(model::multi_line_string(false, &many))));
    // a year of 65,536 lines, 12 legs an orbit
    let year: Ordered = (0..=MOST_LINES / 12).map(|k| (true, chain(r, if k < MOST_LINES / 12 { 13 } else { 1 + MOST_LINES as u64 % 12 }))).collect();
    all.push(("a year", Bytes::roomy(model::multi_line_string(true, &year))));
    all
}

// ---- the writer and the lines ----

#[derive(Clone)]
pub struct Held {
    pub x: Vec<u64>,
    pub y: Vec<u64>,
    pub lengths: Vec<u32>,
    /// Room for bytes, and the lengths of the four coordinate slices.
    pub bytes: usize,
    pub slices: [usize; 4],
}

pub struct Members;

impl Kind for Members {
    type Case = Held;
    const NAME: &'static str = "members";
    const SIDES: &'static str = "port and model";

    fn draw(r: &mut Random) -> (&'static str, Held) {
        let lengths: Vec<u32> = lengths(r).into_iter().map(|n| n as u32).collect();
        let points: usize = lengths.iter().map(|&n| n as usize).sum();
        let (x, y) = ((0..points).map(|_| pattern(r)).collect(), (0..points).map(|_| pattern(r)).collect());
        let lines = points - lengths.len();
        let mut c = Held { x, y, bytes: 9 + 9 * lengths.len() + 16 * points, slices: [lines; 4], lengths };
        let shape = match r.below(6) {
            0 => {
                match r.below(4) {
                    0 => c.x.truncate(points.saturating_sub(1)),
                    1 => c.y.push(0),
                    2 => c.lengths.push(r.pick(&[0, 1, 1025, u32::MAX])),
                    _ => {
                        if let Some(n) = c.lengths.last_mut() {
                            *n = r.pick(&[0, 1, *n + 1, 1024, 1025, u32::MAX]);
                        }
                    }
                }
                "not together"
            }
            1 => {
                let k = r.below(4) as usize;
                c.slices[k] += 1 + r.below(3) as usize;
                "slices differ"
            }
            2 => {
                c.bytes = c.bytes.saturating_sub(1 + r.below(20) as usize);
                c.slices = [lines.saturating_sub(1); 4];
                "tight"
            }
            3 => {
                c.bytes += r.below(40) as usize;
                c.slices = [lines + r.below(5) as usize; 4];
                "roomy"
            }
            _ => "just enough",
        };
        (shape, c)
    }

    fn check(c: &Held) -> Result<&'static str, String> {
        let mut out = [u64::MAX; 4];
        let mut pout = out;
        let mut bytes = vec![JUNK_BYTE; c.bytes];
        let mut pbytes = bytes.clone();
        let written = model::write_multi_line_string(&c.x, &c.y, &c.lengths, &mut bytes, &mut out);
        let answer = port::write_multi_line_string(&c.x, &c.y, &c.lengths, &mut pbytes, &mut pout);
        answers("port, writing,", (written, &out), (answer, &pout))?;
        slices("bytes", &bytes, &pbytes)?;

        let lent = || c.slices.map(|n| vec![f64::from_bits(JUNK); n]);
        let (mut wanted, mut got) = (lent(), lent());
        (out, pout) = ([u64::MAX; 4], [u64::MAX; 4]);
        let number = model::lines_of_members(&c.x, &c.y, &c.lengths, wanted.each_mut().map(|s| &mut s[..]), &mut out);
        let answer = port::lines_of_members(&c.x, &c.y, &c.lengths, got.each_mut().map(|s| &mut s[..]), &mut pout);
        answers("port, making lines,", (number, &out), (answer, &pout))?;
        // every pattern of a NaN is the one NaN
        let bits = |v: &[f64]| v.iter().map(|v| if v.is_nan() { u64::MAX } else { v.to_bits() }).collect::<Vec<_>>();
        for (k, name) in ["start x", "start y", "end x", "end y"].iter().enumerate() {
            slices(name, &bits(&wanted[k]), &bits(&got[k]))?;
        }
        Ok(match (written, number) {
            (0, 0) => "written, lines made",
            (0, n) => word(n),
            (n, _) => word(n),
        })
    }

    fn smaller(c: &Held) -> Vec<Held> {
        let mut all = Vec::new();
        for k in 0..c.lengths.len() {
            let mut s = c.clone();
            let n = s.lengths.remove(k) as usize;
            let keep = s.x.len().saturating_sub(n);
            s.x.truncate(keep);
            s.y.truncate(keep);
            all.push(s);
        }
        all
    }

    fn show(c: &Held) -> String {
        format!("x {:x?}, y {:x?}, lengths {:?}, {} bytes, slices {:?}", c.x, c.y, c.lengths, c.bytes, c.slices)
    }
}

/// Lines at the limit and beyond it, with room and without.
pub fn fixed_members(seed: u64) -> Vec<(&'static str, Held)> {
    let r = &mut Random::new(seed);
    let mut all = Vec::new();
    for last in [65u32, 66] {
        let lengths: Vec<u32> = std::iter::repeat(1024).take(64).chain([last]).collect();
        let points: usize = lengths.iter().map(|&n| n as usize).sum();
        let (x, y): (Vec<_>, Vec<_>) = ((0..points).map(|_| pattern(r)).collect(), (0..points).map(|_| pattern(r)).collect());
        let (bytes, lines) = (9 + 9 * lengths.len() + 16 * points, points - lengths.len());
        for short in [0, 1] {
            all.push(("at the limit", Held { x: x.clone(), y: y.clone(), lengths: lengths.clone(), bytes: bytes - short, slices: [lines - short; 4] }));
        }
    }
    let ones: Vec<u64> = (0..70_000).map(|_| pattern(r)).collect();
    all.push(("70,000 points", Held { x: ones.clone(), y: ones, lengths: vec![1; 70_000], bytes: 1_750_009, slices: [0; 4] }));
    all
}
