//! A visit that is checked once: on the tables of builds in every sizing and mode of walk, on tables that fit and that no build made, and on damaged ones,
//! which `start` refuses and `next` goes through as they are; from the cursors of tests, from those between and past the end, and from any numbers; with lines
//! of any coordinates. Every entry of both outputs is compared, and on tables that fit each call beside the batch from the same bookmark.

use super::build::Columns;
use super::visit::{self, Visit};
use super::{answers, pairs, slices, word, Kind, JUNK};
use crate::model::{self, Coordinates, Cursor, Standing, Test};
use crate::port;
use crate::random::Random;

pub struct Resume;

type Stood = (Vec<(Cursor, Test)>, Cursor);

fn start(s: &Standing, stood: &Stood, bookmark: u64, words: usize) -> Result<(u32, Cursor), String> {
    let (mut wanted, mut got) = ([u64::MAX; 4], [u64::MAX; 4]);
    let number = model::start(s, stood, bookmark, &mut wanted[..words]);
    answers(&format!("port, start at {bookmark} with {words} words,"), (number, &wanted), (port::start(s, bookmark, &mut got[..words]), &got))?;
    Ok((number, [wanted[0], wanted[1], wanted[2]]))
}

/// What one call came to.
struct Went {
    number: u32,
    out: [u64; 6],
    first: Vec<u32>,
    second: Vec<u32>,
}

fn next(s: &Standing, stood: &Stood, at: Cursor, lent: (usize, usize), words: usize) -> Result<Went, String> {
    let (mut wanted, mut got) = ([u64::MAX; 6], [u64::MAX; 6]);
    let slices_of = || (vec![JUNK; lent.0], vec![JUNK; lent.1]);
    let ((mut a, mut b), (mut c, mut d)) = (slices_of(), slices_of());
    let number = model::next(s, stood, at, &mut a, &mut b, &mut wanted[..words]);
    let who = format!("port, next from {at:?} into {lent:?} with {words} words,");
    answers(&who, (number, &wanted), (port::next(s, at, &mut c, &mut d, &mut got[..words]), &got))?;
    slices(&format!("{who} first"), &a, &c)?;
    slices(&format!("{who} second"), &b, &d)?;
    Ok(Went { number, out: wanted, first: a, second: b })
}

/// From a cursor to the end, in outputs of at most so many pairs; how many tests that was.
fn through(s: &Standing, stood: &Stood, mut at: Cursor, most: u64, r: &mut Random) -> Result<u64, String> {
    let mut made = 0;
    for _ in 0..300 {
        let room = 1 + r.below(most) as usize;
        let went = next(s, stood, at, (room, room), 5)?;
        made += went.out[0];
        at = [went.out[2], went.out[3], went.out[4]];
        if went.out[1] < room as u64 {
            if at != stood.1 {
                return Err(format!("an output was left unfilled at {at:?}, the end is {:?}", stood.1));
            }
            break;
        }
    }
    Ok(made)
}

/// A cursor of any numbers: near a test, near the end, or far off.
fn any(stood: &Stood, r: &mut Random) -> Cursor {
    let mut at = if stood.0.is_empty() || r.once_in(4) { stood.1 } else { stood.0[r.below(stood.0.len() as u64) as usize].0 };
    for number in &mut at {
        match r.below(8) {
            0 => *number = number.wrapping_add(1 + r.below(3)),
            1 => *number = number.saturating_sub(1 + r.below(3)),
            2 => *number = r.pick(&[0, 1, u64::MAX, u64::MAX - 1, 1 << 32, 1_002_001, 65_536]),
            _ => {}
        }
    }
    at
}

impl Kind for Resume {
    type Case = visit::Case;
    const NAME: &'static str = "resume";
    const SIDES: &'static str = "port and model";

    fn draw(r: &mut Random) -> (&'static str, visit::Case) {
        let axes = r.once_in(2);
        visit::Case::draw(r, axes, 3)
    }

    fn check(case: &visit::Case) -> Result<&'static str, String> {
        let columns = Columns::new(&case.lines);
        let lines = columns.coordinates();
        let r = &mut Random::new(case.seed);
        let Some(mut t) = pairs::tables(lines, r) else { return Ok("not built") };
        let n = lines.len();
        for _ in 0..if case.damage && n > 0 { 1 + r.below(3) } else { 0 } {
            // one more fault, where one before has left an offset
            if !t.offsets.is_empty() {
                t.damage(n as u32, r);
            }
        }
        let s = Standing { grid: t.grid, lines, offsets: &t.offsets, items: &t.items, globals: &t.globals, global_count: t.global_count };
        let stood = model::as_they_are(&s);
        let total = stood.0.len() as u64;
        let most = r.pick(&[1, 2, 7, 100, 4096]);

        // a whole visit from its start, each call beside the batch from its bookmark
        let (number, at) = start(&s, &stood, 0, 3)?;
        if number == 0 {
            let (mut at, mut bookmark) = (at, 0);
            for _ in 0..300 {
                let room = 1 + r.below(most) as usize;
                let went = next(&s, &stood, at, (room, room), 5)?;
                let (mut first, mut second, mut out) = (vec![JUNK; room], vec![JUNK; room], [u64::MAX; 3]);
                let number = port::batch(&s, bookmark, &mut first, &mut second, &mut out);
                bookmark += went.out[0];
                answers("batch beside next", (went.number, &[went.out[0], went.out[1], bookmark]), (number, &out))?;
                slices("first of the batch", &went.first, &first)?;
                slices("second of the batch", &went.second, &second)?;
                at = [went.out[2], went.out[3], went.out[4]];
                // cursor and bookmark in step
                if start(&s, &stood, bookmark, 3)?.1 != at {
                    return Err(format!("the cursor of bookmark {bookmark} is not {at:?}"));
                }
                if went.out[1] < room as u64 {
                    break;
                }
            }
            for bookmark in [total, r.below(total + 1), total + 1, u64::MAX] {
                start(&s, &stood, bookmark, 3)?;
            }
        }
        start(&s, &stood, 0, 2)?;
        // from any cursor on, in tables that fit or not
        for _ in 0..8 {
            let at = any(&stood, r);
            through(&s, &stood, at, most, r)?;
            next(&s, &stood, at, (0, 0), 5)?;
            next(&s, &stood, at, (3, 4), 5)?;
            next(&s, &stood, at, (3, 3), 4)?;
        }
        through(&s, &stood, [0, 0, 0], 1 << 16, r)?;
        // lines that `start` does not take: a slice that is shorter, and coordinates that are none
        if n > 0 {
            let short = Standing { lines: Coordinates { end_y: &lines.end_y[..n - 1], ..lines }, ..s };
            next(&short, &stood, [0, 0, 0], (3, 3), 5)?;
            start(&short, &stood, 0, 3)?;
            let mut odd = lines.start_y.to_vec();
            for _ in 0..1 + r.below(3) {
                odd[r.below(n as u64) as usize] = r.pick(&[f64::NAN, f64::INFINITY, f64::NEG_INFINITY, 1e300]);
            }
            let odd = Standing { lines: Coordinates { start_y: &odd, end_y: if r.once_in(2) { &odd } else { lines.end_y }, ..lines }, ..s };
            let stood = model::as_they_are(&odd);
            start(&odd, &stood, 0, 3)?;
            through(&odd, &stood, any(&stood, r), most, r)?;
        }
        Ok(word(number))
    }

    fn smaller(case: &visit::Case) -> Vec<visit::Case> {
        Visit::<false>::smaller(case)
    }

    fn show(case: &visit::Case) -> String {
        Visit::<false>::show(case)
    }
}
