//! Each pair once: on the tables of builds in every sizing and mode of walk, on tables that fit and that no build made, and on damaged ones. Every entry of
//! the five slices that are lent is compared.

use super::build::Columns;
use super::visit::{self, Visit};
use super::{answers, pairs, slices, word, Kind, JUNK};
use crate::model::{self, Coordinates, OnceLent, Standing};
use crate::port;
use crate::random::Random;

pub struct Once;

/// One call by the model and by the port, into slices of these lengths and an `out` of so many words.
fn asked(s: &Standing, lengths: [usize; 5], words: usize) -> Result<(u32, u64), String> {
    let lent = |k: usize| vec![JUNK; lengths[k]];
    let mut wanted = OnceLent { first: lent(0), second: lent(1), starts: lent(2), listing: lent(3), counts: lent(4) };
    let (mut got, mut a, mut b) = (wanted.clone(), [u64::MAX; 2], [u64::MAX; 2]);
    let number = model::pairs_once(s, &mut wanted, &mut a[..words]);
    answers(&format!("port, into {lengths:?} with {words} words,"), (number, &a), (port::pairs_once(s, &mut got, &mut b[..words]), &b))?;
    for ((name, wanted), (_, got)) in wanted.all().into_iter().zip(got.all()) {
        slices(name, wanted, got)?;
    }
    Ok((number, a[0]))
}

impl Kind for Once {
    type Case = visit::Case;
    const NAME: &'static str = "once";
    const SIDES: &'static str = "port and model";

    fn draw(r: &mut Random) -> (&'static str, visit::Case) {
        let axes = r.once_in(2);
        visit::Case::draw(r, axes, 8)
    }

    fn check(case: &visit::Case) -> Result<&'static str, String> {
        let columns = Columns::new(&case.lines);
        let lines = columns.coordinates();
        let r = &mut Random::new(case.seed);
        let Some(mut t) = pairs::tables(lines, r) else { return Ok("not built") };
        if case.damage && !case.lines.is_empty() {
            t.damage(lines.len() as u32, r);
        }
        let s = Standing { grid: t.grid, lines, offsets: &t.offsets, items: &t.items, globals: &t.globals, global_count: t.global_count };
        let n = lines.len();
        // with no room the answer is how many there are
        let (number, pairs) = asked(&s, [0, 0, n + 1, t.items.len(), n], 1)?;
        if number != 0 && number != 5 {
            return Ok(word(number));
        }
        // exactly enough, more, one too few, outputs or scratch of wrong lengths, and no `out`
        let (pairs, spare) = (pairs as usize, r.below(4) as usize);
        asked(&s, [pairs + spare, pairs + spare, n + 1 + spare, t.items.len() + spare, n + spare], 1 + spare % 2)?;
        let enough = [pairs, pairs, n + 1, t.items.len(), n];
        asked(&s, enough, 1)?;
        asked(&s, enough, 0)?;
        for k in 0..5 {
            let mut fewer = enough;
            fewer[k] = fewer[k].saturating_sub(1);
            asked(&s, fewer, 1)?;
        }
        asked(&s, [pairs.saturating_sub(1), pairs.saturating_sub(1), n + 1, t.items.len(), n], 1)?;
        // lines that do not pass: one slice is shorter, or a coordinate is none
        if n > 0 {
            asked(&Standing { lines: Coordinates { end_y: &lines.end_y[..n - 1], ..lines }, ..s }, enough, 1)?;
            let mut bad = lines.start_y.to_vec();
            bad[r.below(n as u64) as usize] = r.pick(&[f64::NAN, f64::INFINITY, 1e300]);
            asked(&Standing { lines: Coordinates { start_y: &bad, ..lines }, ..s }, enough, 1)?;
        }
        Ok(if pairs == 0 { "no pairs" } else { "pairs" })
    }

    fn smaller(case: &visit::Case) -> Vec<visit::Case> {
        Visit::<false>::smaller(case)
    }

    fn show(case: &visit::Case) -> String {
        Visit::<false>::show(case)
    }
}
