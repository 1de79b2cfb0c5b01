//! Many chains at once: what is read, written and made into lines, each refusal with what it leaves, and the year of examples/.

use morelturret::*;

const JUNK: u64 = 0xdead_beef_dead_beef;
const JUNK_LENGTH: u32 = 0xdead_beef;

/// The refusal of an answer, as number and value.
fn of<T: std::fmt::Debug>(answer: Result<T, Refusal>) -> (u32, u64) {
    let refusal = answer.unwrap_err();
    (refusal.number, refusal.value)
}

/// Two members: of two points, with a signalling NaN and a negative zero; and of one.
fn two() -> Members {
    Members { x: vec![0x7ff0_0000_0000_0001, 1 << 63, 7], y: vec![0xfff8_0000_0000_0bad, 0, u64::MAX], lengths: vec![2, 1] }
}

fn bytes() -> Vec<u8> {
    two().write().unwrap()
}

/// Reads into slices of so many entries, full of junk: the answer, and what they hold then.
fn read(bytes: &[u8], x: usize, y: usize, lengths: usize) -> (Result<(usize, usize), Refusal>, Vec<u64>, Vec<u64>, Vec<u32>) {
    let (mut x, mut y, mut lengths) = (vec![JUNK; x], vec![JUNK; y], vec![JUNK_LENGTH; lengths]);
    let answer = read_multi_line_string(bytes, &mut x, &mut y, &mut lengths);
    (answer, x, y, lengths)
}

#[test]
fn bits_are_kept() {
    let bytes = bytes();
    assert_eq!(bytes.len(), 9 + 2 * 9 + 3 * 16);
    assert_eq!(bytes[..9], [1, 5, 0, 0, 0, 2, 0, 0, 0]);
    assert_eq!(bytes[9..26], [1, 2, 0, 0, 0, 2, 0, 0, 0, 1, 0, 0, 0, 0, 0, 0xf0, 0x7f]);
    assert_eq!(Members::read(&bytes).unwrap(), two());
    let (answer, x, y, lengths) = read(&bytes, 5, 5, 4);
    assert_eq!(answer, Ok((3, 2)));
    assert_eq!((&x[..3], &y[..3], &lengths[..2]), (&two().x[..], &two().y[..], &two().lengths[..]));
    assert_eq!((&x[3..], &y[3..], &lengths[2..]), (&[0, 0][..], &[0, 0][..], &[0, 0][..]), "zero beyond");
}

#[test]
fn each_member_has_its_own_order() {
    // the whole is big-endian, and so is its second member
    let mut mixed = vec![0, 0, 0, 0, 5, 0, 0, 0, 2];
    mixed.extend(&bytes()[9..50]);
    mixed.extend([0, 0, 0, 0, 2, 0, 0, 0, 1]);
    mixed.extend(7u64.to_be_bytes());
    mixed.extend(u64::MAX.to_be_bytes());
    assert_eq!(Members::read(&mixed).unwrap(), two());
}

#[test]
fn no_line_joins_two_members() {
    let mut year = Members::default();
    year.push([(0.0, 0.0), (1.0, 0.0), (2.0, 1.0)]);
    year.push([(5.0, 5.0)]);
    year.push([(9.0, 9.0), (8.0, 9.0)]);
    let lines = year.lines().unwrap();
    let all: Vec<_> = (0..lines.lines().len()).map(|i| lines.lines().get(i).unwrap()).collect();
    assert_eq!(all, [[0.0, 0.0, 1.0, 0.0], [1.0, 0.0, 2.0, 1.0], [9.0, 9.0, 8.0, 9.0]]);
}

#[test]
fn none_at_all() {
    assert_eq!(Members::default().write().unwrap(), [1, 5, 0, 0, 0, 0, 0, 0, 0]);
    assert_eq!(Members::read(&[0, 0, 0, 0, 5, 0, 0, 0, 0]).unwrap(), Members::default());
    assert!(Members::default().lines().unwrap().lines().is_empty());
}

#[test]
fn eleven_names_the_byte() {
    let whole = bytes();
    let at = |k: usize, b: u8| {
        let mut damaged = whole.clone();
        damaged[k] = b;
        of(Members::read(&damaged))
    };
    assert_eq!(at(0, 2), (11, 0), "the order of the whole");
    assert_eq!(at(1, 2), (11, 1), "its type: a LineString is another reader's");
    assert_eq!(at(9, 2), (11, 9), "the order of a member");
    assert_eq!(at(9, 0), (11, 10), "its type is 2 in the other order");
    assert_eq!(at(10, 5), (11, 10), "its type");
    assert_eq!(at(14, 0), (11, 14), "no points");
    assert_eq!(at(15, 4), (11, 14), "1,026 points");
    assert_eq!(at(50, 7), (11, 50), "the order of the second member");
    assert_eq!(at(5, 1), (11, 50), "one member more than said: what follows the last");
    assert_eq!(at(5, 3), (11, 75), "one fewer: the end of the bytes");
    for cut in 0..whole.len() {
        let (answer, x, y, lengths) = read(&whole[..cut], 3, 3, 2);
        assert_eq!(of(answer), (11, cut as u64));
        assert_eq!((x, y, lengths), (vec![JUNK; 3], vec![JUNK; 3], vec![JUNK_LENGTH; 2]), "nothing is written");
    }
    let mut longer = whole.clone();
    longer.push(0);
    assert_eq!(of(Members::read(&longer)), (11, 75));
}

#[test]
fn three_before_eleven_and_five_at_last() {
    let whole = bytes();
    let (answer, x, y, lengths) = read(b"", 3, 4, 2);
    assert_eq!(of(answer), (3, 0));
    assert_eq!((x, y, lengths), (vec![JUNK; 3], vec![JUNK; 4], vec![JUNK_LENGTH; 2]));
    for (points, members, value) in [(2, 1, 3), (2, 2, 3), (3, 1, 2), (0, 0, 3)] {
        let (answer, x, y, lengths) = read(&whole, points, points, members);
        assert_eq!(of(answer), (5, value), "points come first");
        assert_eq!((x, y, lengths), (vec![0; points], vec![0; points], vec![0; members]), "zero throughout");
    }
}

#[test]
fn lines_are_counted_over_all_members() {
    let year = |last: u32| {
        let lengths: Vec<u32> = vec![1024; 64].into_iter().chain([last]).collect();
        let points = lengths.iter().sum::<u32>() as usize;
        Members { x: vec![0; points], y: vec![0; points], lengths }
    };
    let most = year(65);
    let bytes = most.write().unwrap();
    assert_eq!(Members::read(&bytes).unwrap(), most);
    assert_eq!(most.lines().unwrap().lines().len(), MAX_LINES);
    assert_eq!(of(year(66).write()), (2, 65_537));
    assert_eq!(of(year(66).lines()), (2, 65_537));
    let mut beyond = bytes;
    let at = beyond.len() - 16 * 65 - 4;
    beyond[at] = 66;
    beyond.extend([0; 16]);
    assert_eq!(of(Members::read(&beyond)), (2, 65_537));
    beyond.push(0);
    assert_eq!(of(Members::read(&beyond)), (11, beyond.len() as u64 - 1), "11 comes before 2");
    // members of one point make no line
    let points = Members { x: vec![1; 70_000], y: vec![2; 70_000], lengths: vec![1; 70_000] };
    assert_eq!(Members::read(&points.write().unwrap()).unwrap(), points);
}

#[test]
fn three_of_points_and_lengths() {
    let bad = [
        Members { y: vec![0, 0], ..two() },
        Members { lengths: vec![2, 0, 1], ..two() },
        Members { lengths: vec![2, 2], ..two() },
        Members { lengths: vec![2], ..two() },
        Members { x: vec![0; 1025], y: vec![0; 1025], lengths: vec![1025] },
    ];
    for members in bad {
        let mut bytes = [7; 100];
        assert_eq!(of(write_multi_line_string(&members.x, &members.y, &members.lengths, &mut bytes)), (3, 0));
        assert_eq!(bytes, [7; 100], "nothing is written");
        assert_eq!(of(members.lines()), (3, 0));
    }
    let Members { x, y, lengths } = two();
    let mut bytes = [7; 74];
    assert_eq!(of(write_multi_line_string(&x, &y, &lengths, &mut bytes)), (5, 75));
    assert_eq!(bytes, [0; 74], "zero throughout");
    let (mut one, mut none) = ([7.0; 1], [7.0; 0]);
    assert_eq!(of(lines_of_members(&x, &y, &lengths, &mut one, &mut [7.0], &mut [7.0], &mut none)), (3, 0));
    assert_eq!(one, [7.0]);
    assert_eq!(of(lines_of_members(&x, &y, &lengths, &mut [], &mut [], &mut [], &mut none)), (5, 1));
}

#[test]
fn a_short_out_comes_first() {
    let (mut x, mut y, mut lengths) = ([JUNK; 3], [JUNK; 3], [JUNK_LENGTH; 2]);
    let mut out = [JUNK; 1];
    assert_eq!(sys::read_multi_line_string(&bytes(), &mut x, &mut y, &mut lengths, &mut out), 100);
    assert_eq!((x, y, lengths, out), ([JUNK; 3], [JUNK; 3], [JUNK_LENGTH; 2], [JUNK]));
    let mut bytes = [7; 9];
    assert_eq!(sys::write_multi_line_string(&[], &[], &[], &mut bytes, &mut []), 100);
    assert_eq!(bytes, [7; 9]);
    let mut start_x = [7.0];
    assert_eq!(sys::lines_of_members(&[1, 2], &[1, 2], &[2], &mut start_x, &mut [7.0], &mut [7.0], &mut [7.0], &mut []), 100);
    assert_eq!(start_x, [7.0]);
}

#[test]
fn the_year_of_examples() {
    let file = concat!(env!("CARGO_MANIFEST_DIR"), "/../../examples/year.wkb");
    let bytes = std::fs::read(file).unwrap();
    let year = Members::read(&bytes).unwrap();
    assert_eq!(year.lengths, [32; 7]);
    // its orbits are the points of examples/orbits.wkb
    let orbits = std::fs::read(concat!(env!("CARGO_MANIFEST_DIR"), "/../../examples/orbits.wkb")).unwrap();
    let (x, y) = read_points(&orbits).unwrap();
    let bits = |v: Vec<f64>| v.into_iter().map(f64::to_bits).collect::<Vec<_>>();
    assert_eq!((&year.x, &year.y), (&bits(x), &bits(y)));
    // it is written little-endian: as long, and read again as it was
    let again = year.write().unwrap();
    assert_eq!(again.len(), bytes.len());
    assert_ne!(again, bytes, "one of its members is big-endian");
    assert_eq!(Members::read(&again).unwrap(), year);
    let lines = year.lines().unwrap();
    assert_eq!(lines.lines().len(), 7 * 31);
    assert!(Tables::of(lines.lines()).is_ok());
}

#[test]
fn what_is_cleaned() {
    let (a, b, gap) = ((1.0, 1.0), (2.0, 2.0), (f64::NAN, 0.0));
    let above = f64::from_bits(1e9f64.to_bits() + 1);
    let reasons = |points: &[(f64, f64)]| {
        let mut chains = Members::default();
        chains.push(points.iter().copied());
        chains.clean().unwrap().1
    };
    use Cleaning::{Kept, Range, Repeat, Short};
    assert_eq!(reasons(&[a, a]), [Short, Repeat]);
    assert_eq!(reasons(&[a, a, gap, a]), [Short, Repeat, Range, Short]);
    assert_eq!(reasons(&[a, gap, a, b]), [Short, Range, Kept, Kept], "no repeat across a gap");
    assert_eq!(reasons(&[a, b, a]), [Kept; 3]);
    assert_eq!(reasons(&[(0.0, -0.0), (-0.0, 0.0), a]), [Kept, Repeat, Kept], "zeros of either sign are equal");
    assert_eq!(reasons(&[(1e9, -1e9), a, (above, 0.0), a, (0.0, f64::NEG_INFINITY)]), [Kept, Kept, Range, Short, Range]);
    // members are cleaned each by itself, and the bits of the first of equals stay
    let mut chains = Members::default();
    chains.push([a, b]);
    chains.push([b, (-0.0, 0.0), (0.0, -0.0)]);
    let (kept, _) = chains.clean().unwrap();
    assert_eq!((kept.lengths, kept.x[3]), (vec![2, 2], 1 << 63));
    assert_eq!(Members::default().clean(), Ok((Members::default(), vec![])));
}

#[test]
fn cleaning_refuses_by_lengths_alone() {
    let (x, y) = ([1.0, 2.0, 3.0].map(f64::to_bits), [JUNK; 3]);
    let whole = |kept_x: usize, kept_y: usize, lengths: usize, reasons: usize, members: &[u32]| {
        let (mut kx, mut ky, mut kl, mut rs) = (vec![JUNK; kept_x], vec![JUNK; kept_y], vec![JUNK_LENGTH; lengths], vec![JUNK_LENGTH; reasons]);
        let answer = clean(&x, &y, members, &mut kx, &mut ky, &mut kl, &mut rs);
        let untouched = kx == vec![JUNK; kept_x] && ky == vec![JUNK; kept_y] && kl == vec![JUNK_LENGTH; lengths] && rs == vec![JUNK_LENGTH; reasons];
        (answer, untouched)
    };
    assert!(whole(3, 3, 1, 3, &[3]).0.is_ok());
    for (kept_x, kept_y, lengths, reasons, members) in [(2, 2, 1, 3, &[3][..]), (3, 4, 1, 3, &[3]), (3, 3, 0, 3, &[3]), (3, 3, 1, 2, &[3]), (3, 3, 1, 3, &[2]), (3, 3, 1, 3, &[3, 0])] {
        let (answer, untouched) = whole(kept_x, kept_y, lengths, reasons, members);
        assert_eq!((of(answer), untouched), ((3, 0), true));
    }
    let (mut kx, mut out) = ([JUNK; 3], [JUNK; 1]);
    assert_eq!(sys::clean(&x, &y, &[3], &mut kx, &mut [JUNK; 3], &mut [7], &mut [7; 3], &mut out), 100);
    assert_eq!((kx, out), ([JUNK; 3], [JUNK]));
}
