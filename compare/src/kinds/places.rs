//! A batch that says where each pair was tested: on the tables of builds in every sizing and mode of walk, on tables that fit and that no build made, and on
//! damaged ones; from bookmarks that come back and from any other, into outputs of any length. Every entry of the three outputs is compared, and the
//! pairs are those of the batch without places.

use super::build::Columns;
use super::visit::{self, Visit};
use super::{answers, pairs, slices, word, Kind, JUNK};
use crate::model::{self, Coordinates, Standing, Test};
use crate::port;
use crate::random::Random;

pub struct Places;

/// One batch by the model and by the port, into outputs of these lengths and an `out` of so many words. Where all three lengths are one, the batch
/// without places answers and writes the same.
fn asked(s: &Standing, tests: &[Test], bookmark: u64, lengths: [usize; 3], words: usize) -> Result<(u32, [u64; 4]), String> {
    let (mut wanted, mut got) = (lengths.map(|n| vec![JUNK; n]), lengths.map(|n| vec![JUNK; n]));
    let (mut a, mut b) = ([u64::MAX; 4], [u64::MAX; 4]);
    let number = model::batch_places(s, tests, bookmark, wanted.each_mut().map(|v| &mut v[..]), &mut a[..words]);
    let answered = port::batch_places(s, bookmark, got.each_mut().map(|v| &mut v[..]), &mut b[..words]);
    answers(&format!("port, from {bookmark} into {lengths:?} with {words} words,"), (number, &a), (answered, &b))?;
    for (k, name) in ["first", "second", "places"].into_iter().enumerate() {
        slices(name, &wanted[k], &got[k])?;
    }
    if lengths[2] == lengths[0] {
        let (mut first, mut second, mut c) = (vec![JUNK; lengths[0]], vec![JUNK; lengths[1]], [u64::MAX; 4]);
        let plain = port::batch(s, bookmark, &mut first, &mut second, &mut c[..words]);
        answers("the batch without places", (number, &a), (plain, &c))?;
        slices("first without places", &wanted[0], &first)?;
        slices("second without places", &wanted[1], &second)?;
    }
    Ok((number, a))
}

impl Kind for Places {
    type Case = visit::Case;
    const NAME: &'static str = "places";
    const SIDES: &'static str = "port and model";

    fn draw(r: &mut Random) -> (&'static str, visit::Case) {
        let axes = r.once_in(2);
        visit::Case::draw(r, axes, 8)
    }

    fn check(case: &visit::Case) -> Result<&'static str, String> {
        let columns = Columns::new(&case.lines);
        let lines = columns.coordinates();
        let r = &mut Random::new(case.seed);
        let Some(mut t) = pairs::tables(lines, r) else { return Ok("not built") };
        if case.damage && !case.lines.is_empty() {
            t.damage(lines.len() as u32, r);
        }
        let s = Standing { grid: t.grid, lines, offsets: &t.offsets, items: &t.items, globals: &t.globals, global_count: t.global_count };
        let fits = s.lists().fits();
        let tests = if fits { s.tests() } else { Vec::new() };
        let total = tests.len() as u64;
        // no room, one pair, a few, and more than there are
        let few = 1 + r.below(9) as usize;
        let (number, _) = asked(&s, &tests, 0, [few; 3], 3)?;
        if number != 0 {
            return Ok(word(number));
        }
        for room in [0, 1, few, tests.len() + few] {
            let mut bookmark = 0;
            for _ in 0..6 {
                let (_, [made, _, next, _]) = asked(&s, &tests, bookmark, [room; 3], 3 + few % 2)?;
                if made == 0 {
                    break;
                }
                bookmark = next;
            }
            // in the middle of a row, at the end and beyond it
            for from in [r.below(total + 1), total.saturating_sub(1), total, total + 1 + r.below(3), u64::MAX] {
                asked(&s, &tests, from, [room; 3], 3)?;
            }
        }
        // lengths that differ, an `out` that is short, and lines that do not pass
        for k in 0..3 {
            let mut lengths = [few; 3];
            lengths[k] += 1;
            asked(&s, &tests, r.below(total + 2), lengths, 3)?;
            asked(&s, &tests, 0, [few; 3], k)?;
        }
        asked(&s, &tests, 0, [few, few, 0], 3)?;
        let n = lines.len();
        if n > 0 {
            asked(&Standing { lines: Coordinates { end_y: &lines.end_y[..n - 1], ..lines }, ..s }, &tests, 0, [few; 3], 3)?;
            let mut bad = lines.start_y.to_vec();
            bad[r.below(n as u64) as usize] = r.pick(&[f64::NAN, f64::INFINITY, 1e300]);
            asked(&Standing { lines: Coordinates { start_y: &bad, ..lines }, ..s }, &tests, 0, [few; 3], 3)?;
        }
        Ok(match (tests.iter().any(|t| t.overlap && t.cell), tests.iter().any(|t| t.overlap && !t.cell)) {
            (false, false) => "no pairs",
            (true, false) => "pairs in cells",
            (false, true) => "pairs of globals",
            (true, true) => "pairs in cells and of globals",
        })
    }

    fn smaller(case: &visit::Case) -> Vec<visit::Case> {
        Visit::<false>::smaller(case)
    }

    fn show(case: &visit::Case) -> String {
        Visit::<false>::show(case)
    }
}
