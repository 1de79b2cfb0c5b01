//! The number functions, one call each.

use super::clock::Clock;
use compare::plain::numbers as rust;
use compare::port::numbers as port;
use compare::random::Random;
use std::hint::black_box;

const BAR: Option<f64> = Some(2.0);

/// Times a function of both sides on each of the values.
macro_rules! each {
    ($clock:expr, $name:literal, $bar:expr, $values:expr, |$v:ident| $function:ident($($argument:expr),*)) => {
        $clock.both(
            $name, "call", $values.len(), $bar,
            &mut || $values.iter().for_each(|&$v| { black_box(port::$function($($argument),*)); }),
            &mut || $values.iter().for_each(|&$v| { black_box(rust::$function($($argument),*)); }),
        )
    };
}

pub fn times(clock: &Clock, r: &mut Random) {
    clock.head("Numbers: one call, inlined on neither side. The Rust's floor, ceiling and round call a library in turn, its root is one instruction.");
    let values: Vec<f64> = (0..65536).map(|_| r.between(-10.0, 1000.0)).collect();
    let sizes: Vec<f64> = (0..65536).map(|_| r.size(1e-6, 1e12)).collect();
    let pairs: Vec<(f64, f64)> = (0..65536).map(|_| (r.between(-10.0, 1000.0), r.between(-10.0, 1000.0))).collect();
    each!(clock, "floor", BAR, values, |v| floor(v));
    each!(clock, "ceiling", BAR, values, |v| ceiling(v));
    each!(clock, "round half away", BAR, values, |v| round_half_away(v));
    each!(clock, "clamped floor", None, values, |v| clamped_floor(v, 1001));
    each!(clock, "magnitude", None, values, |v| magnitude(v));
    each!(clock, "least", None, pairs, |v| least(v.0, v.1));
    each!(clock, "square root", None, sizes, |v| square_root(v));
}
