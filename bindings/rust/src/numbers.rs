//! The numbers that the grid rests on. Each is total on every `f64`, and nothing is refused.

use crate::sys;

/// The lesser of two. A NaN gives way to the other; of two that are equal it is `a`.
///
/// ```
/// use morelturret::numbers::least;
/// assert_eq!(least(1.0, 2.0), 1.0);
/// assert_eq!(least(f64::NAN, 2.0), 2.0);
/// assert!(least(-0.0, 0.0).is_sign_negative());
/// ```
pub fn least(a: f64, b: f64) -> f64 {
    sys::least(a, b)
}

/// The greater of two. A NaN gives way to the other; of two that are equal it is `a`.
///
/// ```
/// use morelturret::numbers::greatest;
/// assert_eq!(greatest(1.0, 2.0), 2.0);
/// assert!(greatest(-0.0, 0.0).is_sign_negative());
/// ```
pub fn greatest(a: f64, b: f64) -> f64 {
    sys::greatest(a, b)
}

/// v with its sign clear. A NaN is handed back as it came: its sign is not cleared.
///
/// ```
/// assert_eq!(morelturret::numbers::magnitude(-2.5), 2.5);
/// ```
pub fn magnitude(v: f64) -> f64 {
    sys::magnitude(v)
}

/// The largest whole number that is at most v. A zero keeps its sign, infinities and NaN stay.
///
/// ```
/// assert_eq!(morelturret::numbers::floor(-2.5), -3.0);
/// ```
pub fn floor(v: f64) -> f64 {
    sys::floor(v)
}

/// The floor of v brought into 0 .. count - 1; 0 for a NaN, and where count is 0.
///
/// ```
/// use morelturret::numbers::clamped_floor;
/// assert_eq!(clamped_floor(2.5, 4), 2);
/// assert_eq!(clamped_floor(-1.0, 4), 0);
/// assert_eq!(clamped_floor(1e300, 4), 3);
/// ```
pub fn clamped_floor(v: f64, count: u32) -> u32 {
    sys::clamped_floor(v, count)
}

/// The smallest whole number that is at least v, brought into 0 .. 2^64 - 1; 0 for a NaN.
///
/// ```
/// use morelturret::numbers::ceiling;
/// assert_eq!(ceiling(2.5), 3);
/// assert_eq!(ceiling(-2.5), 0);
/// assert_eq!(ceiling(f64::INFINITY), u64::MAX);
/// ```
pub fn ceiling(v: f64) -> u64 {
    sys::ceiling(v)
}

/// v rounded to the nearest whole number, halves away from zero. A zero has the sign of v, infinities and NaN stay.
///
/// ```
/// use morelturret::numbers::round_half_away;
/// assert_eq!(round_half_away(-2.5), -3.0);
/// assert_eq!(round_half_away(0.49999999999999994), 0.0);
/// ```
pub fn round_half_away(v: f64) -> f64 {
    sys::round_half_away(v)
}

/// The square root, rounded to nearest. -0 for -0, a NaN below zero.
///
/// ```
/// assert_eq!(morelturret::numbers::square_root(2.0), 2f64.sqrt());
/// ```
pub fn square_root(v: f64) -> f64 {
    sys::square_root(v)
}
