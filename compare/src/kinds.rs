//! One comparison for each kind of question. Each asks the Rust, the model and the port.
//! What the Rust cannot be asked (refusals, walks past the budget, the reader, cells sized by axis, the sided
//! mode of walk, several benches, lines added to standing tables, tables as they are) is asked of the model and the port. Kinds that
//! turn on the sizes of cells are asked twice: `AXES` says that width and height are kept apart.

use crate::random::Random;
use crate::Grid;
use std::collections::BTreeMap;

pub mod added;
pub mod blocks;
pub mod build;
pub mod clean;
pub mod clean_program;
pub mod counts;
pub mod cover;
pub mod crossings;
pub mod drop_in;
pub mod lists;
pub mod multi;
pub mod numbers;
pub mod once;
pub mod own;
pub mod owners;
pub mod pairs;
pub mod places;
pub mod resume;
pub mod seams;
pub mod covering;
pub mod sided;
pub mod snap;
pub mod straight;
pub mod strategies;
pub mod visit;
pub mod walk;
pub mod window;
pub mod wkb;

/// A kind of case: how one is drawn, checked, made smaller and shown.
pub trait Kind {
    type Case: Clone;
    const NAME: &'static str;
    /// Who is asked.
    const SIDES: &'static str = "port, Rust and model";
    /// The shape's name, and the case.
    fn draw(r: &mut Random) -> (&'static str, Self::Case);
    /// What the answer was, in a word or two; or how two answers differ.
    fn check(case: &Self::Case) -> Result<&'static str, String>;
    /// Simpler cases to try, the simplest first.
    fn smaller(case: &Self::Case) -> Vec<Self::Case>;
    fn show(case: &Self::Case) -> String;
}

/// Checks `cases` cases, and cases of `fixed` before them. Prints how many there were by shape and answer, and stops at the first
/// difference, which it prints in its smallest form. Answers whether there was none.
pub fn run<K: Kind>(seed: u64, cases: u64, fixed: Vec<(&'static str, K::Case)>) -> bool {
    let mut counts: BTreeMap<(&str, &str), u64> = BTreeMap::new();
    let mut total = 0;
    let drawn = (0..cases).map(|i| K::draw(&mut Random::new(seed.wrapping_add(i.wrapping_mul(0x9e3779b97f4a7c15)))));
    for (i, (shape, case)) in fixed.into_iter().chain(drawn).enumerate() {
        match K::check(&case) {
            Ok(answer) => *counts.entry((shape, answer)).or_default() += 1,
            Err(difference) => {
                println!("{}: case {i} of seed {seed} ({shape}) differs: {difference}", K::NAME);
                let (case, difference) = shrunk::<K>(case, difference);
                println!("smallest form: {difference}\n{}", K::show(&case));
                return false;
            }
        }
        total += 1;
    }
    println!("{}: {total} cases, {}: no difference", K::NAME, K::SIDES);
    let mut shapes: BTreeMap<&str, Vec<String>> = BTreeMap::new();
    for ((shape, answer), count) in counts {
        shapes.entry(shape).or_default().push(format!("{answer} {count}"));
    }
    for (shape, answers) in shapes {
        println!("  {shape}: {}", answers.join(", "));
    }
    true
}

fn shrunk<K: Kind>(mut case: K::Case, mut difference: String) -> (K::Case, String) {
    let begun = std::time::Instant::now();
    'again: while begun.elapsed().as_secs() < 30 {
        for smaller in K::smaller(&case) {
            if let Err(d) = K::check(&smaller) {
                (case, difference) = (smaller, d);
                continue 'again;
            }
        }
        break;
    }
    (case, difference)
}

/// Rounder floats near v: fewer digits, and simple ones.
pub fn rounder(v: f64) -> Vec<f64> {
    let mut all = vec![0.0, 1.0];
    if v.is_finite() {
        all.push(v.round());
        all.extend([48, 40, 32, 24, 16, 8, 4, 2, 1].map(|k| f64::from_bits(v.to_bits() >> k << k)));
    }
    // only what is rounder than v: fewer digits, or 0 or 1 where v is neither
    let digits = |v: f64| 64 - v.to_bits().trailing_zeros().min(64) + (v != 0.0) as u32 + (v != 0.0 && v != 1.0) as u32;
    all.retain(|&w| digits(w) < digits(v));
    all
}

/// Rounder cell sizes: one of the two, or both where they are to stay equal.
pub fn sizes(g: &Grid, apart: bool) -> Vec<(f64, f64)> {
    if !apart {
        return rounder(g.cell_width).into_iter().map(|size| (size, size)).collect();
    }
    let widths = rounder(g.cell_width).into_iter().map(|width| (width, g.cell_height));
    widths.chain(rounder(g.cell_height).into_iter().map(|height| (g.cell_width, height))).collect()
}

/// A grid's line in what is shown of a case.
pub fn show_grid(g: &Grid) -> String {
    let at = format!("{}, {}", float(g.min_x), float(g.min_y));
    format!("grid {} by {} at {at}, cells {} wide, {} high\n", g.cols, g.rows, float(g.cell_width), float(g.cell_height))
}

/// A float's value and pattern.
pub fn float(v: f64) -> String {
    format!("{v:?} ({:016x})", v.to_bits())
}

/// How two slices differ.
pub fn slices(name: &str, wanted: &[u32], got: &[u32]) -> Result<(), String> {
    if wanted == got {
        return Ok(());
    }
    let i = wanted.iter().zip(got).position(|(a, b)| a != b).unwrap_or(wanted.len().min(got.len()));
    Err(format!("{name}[{i}] is {:?}, {:?} wanted", got.get(i), wanted.get(i)))
}

/// How two answers by number differ.
pub fn answers(who: &str, wanted: (u32, &[u64]), got: (u32, &[u64])) -> Result<(), String> {
    if wanted.0 != got.0 || wanted.1 != got.1 {
        return Err(format!("{who} answers {} {:?}, {} {:?} wanted", got.0, got.1, wanted.0, wanted.1));
    }
    Ok(())
}

/// A word for an answer by number.
pub fn word(number: u32) -> &'static str {
    match number {
        100 => "out is short",
        102 => "no such sizing",
        15 => "refused 15",
        16 => "refused 16",
        103 => "no such mode",
        _ => [
            "answered", "refused 1", "refused 2", "refused 3", "refused 4", "refused 5", "refused 6", "refused 7", "refused 8", "refused 9",
            "refused 10", "refused 11", "refused 12", "refused 13", "refused 14",
        ][number as usize],
    }
}

/// Who is asked where the Rust has only one cell size.
pub const WHERE_SQUARED: &str = "port and model, and the Rust where the sizes are a power of two apart";

/// What lent slices hold before a call: anything but zero, so that an entry left alone shows.
pub const JUNK: u32 = 0xdead_beef;
