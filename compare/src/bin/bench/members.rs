//! A year in one file: reading a MultiLineString, writing it and making its lines, beside a copy of the same bytes.

use super::clock::Clock;
use compare::model::{self, MOST_LINES};
use compare::port;
use compare::random::Random;
use std::hint::black_box;

/// At most so often the time of the copy.
const BAR: Option<f64> = Some(20.0);

pub fn times(clock: &Clock, r: &mut Random) {
    clock.head("A year in one file, 65,536 lines, against copy_from_slice of its bytes (here under \"Rust\"). A byte is a byte of the file.");
    for legs in [12, 60, 1023] {
        let mut left = MOST_LINES;
        let mut members = Vec::new();
        while left > 0 {
            let n = left.min(legs);
            members.push((true, (0..=n).map(|_| [r.bits(), r.bits()]).collect::<Vec<_>>()));
            left -= n;
        }
        let bytes = model::multi_line_string(true, &members);
        let (points, count) = (members.iter().map(|m| m.1.len()).sum(), members.len());
        let (mut x, mut y, mut lengths) = (vec![0; points], vec![0; points], vec![0; count]);
        let (mut out, mut copied, mut written) = ([0; 2], bytes.clone(), bytes.clone());
        let times = clock.turns(&mut [
            &mut || {
                assert_eq!(port::read_multi_line_string(black_box(&bytes), &mut x, &mut y, &mut lengths, &mut out), 0);
                black_box((&x, &y, &lengths));
            },
            &mut || {
                copied.copy_from_slice(black_box(&bytes));
                black_box(&mut copied);
            },
        ]);
        clock.show(&format!("reading, {legs} legs a member"), "byte", bytes.len(), BAR, &times, &[]);
        let times = clock.turns(&mut [
            &mut || {
                assert_eq!(port::write_multi_line_string(black_box(&x), &y, &lengths, &mut written, &mut out), 0);
                black_box(&mut written);
            },
            &mut || {
                copied.copy_from_slice(black_box(&bytes));
                black_box(&mut copied);
            },
        ]);
        assert_eq!(written, bytes);
        clock.show(&format!("writing, {legs} legs a member"), "byte", bytes.len(), BAR, &times, &[]);
        let mut slices = [(); 4].map(|_| vec![0.0; MOST_LINES]);
        let times = clock.turns(&mut [
            &mut || {
                assert_eq!(port::lines_of_members(black_box(&x), &y, &lengths, slices.each_mut().map(|s| &mut s[..]), &mut out), 0);
                black_box(&mut slices);
            },
            &mut || {
                copied.copy_from_slice(black_box(&bytes));
                black_box(&mut copied);
            },
        ]);
        clock.show(&format!("lines, {legs} legs a member"), "byte", bytes.len(), None, &times, &[]);
    }
}
