//! Small stand-ins for the crates and modules that the Rust's grid names and that are not at hand.
//! None of them decides anything that is compared: numbers, walks, lists, visits, ownership and snapping are the Rust's own text.

/// For the crate `geo`: coordinates, lines, and the exact predicate's answer.
pub mod geo {
    #[derive(Clone, Copy, Debug, PartialEq)]
    pub struct Coord<T> {
        pub x: T,
        pub y: T,
    }

    impl Coord<f64> {
        pub fn zero() -> Self {
            Coord { x: 0.0, y: 0.0 }
        }
    }

    #[derive(Clone, Copy, Debug, PartialEq)]
    pub struct Line<T> {
        pub start: Coord<T>,
        pub end: Coord<T>,
    }

    pub mod algorithm {
        pub mod line_intersection {
            use super::super::{Coord, Line};
            use std::cell::Cell;

            #[derive(Clone, Copy, Debug, PartialEq)]
            #[allow(dead_code)]
            pub enum LineIntersection<T> {
                SinglePoint { intersection: Coord<T>, is_proper: bool },
                Collinear { intersection: Line<T> },
            }

            thread_local! {
                /// What `line_intersection` answers next.
                pub static NEXT: Cell<Option<LineIntersection<f64>>> = const { Cell::new(None) };
            }

            /// The exact predicate is outside the port. This one answers what the caller of an ownership test has laid down, so that the
            /// Rust's own ownership test meets every point.
            #[inline]
            pub fn line_intersection(_: Line<f64>, _: Line<f64>) -> Option<LineIntersection<f64>> {
                NEXT.get()
            }
        }
    }
}

/// For the crate `wide`: four floats side by side.
pub mod wide {
    pub trait CmpGe {
        fn cmp_ge(self, other: Self) -> Self;
    }
    pub trait CmpLe {
        fn cmp_le(self, other: Self) -> Self;
    }
    pub use lanes::f64x4;

    /// Two pairs in the 16 byte registers that every x86-64 has, as `wide` keeps them there.
    #[cfg(target_arch = "x86_64")]
    mod lanes {
        use super::{CmpGe, CmpLe};
        use core::arch::x86_64::*;

        #[allow(non_camel_case_types)]
        #[derive(Clone, Copy)]
        pub struct f64x4(__m128d, __m128d);

        impl f64x4 {
            #[inline]
            pub fn splat(v: f64) -> Self {
                unsafe { f64x4(_mm_set1_pd(v), _mm_set1_pd(v)) }
            }
            #[inline]
            pub fn move_mask(self) -> i32 {
                unsafe { _mm_movemask_pd(self.0) | _mm_movemask_pd(self.1) << 2 }
            }
        }
        impl From<&[f64]> for f64x4 {
            #[inline]
            fn from(s: &[f64]) -> Self {
                assert!(s.len() >= 4);
                unsafe { f64x4(_mm_loadu_pd(s.as_ptr()), _mm_loadu_pd(s.as_ptr().add(2))) }
            }
        }
        impl CmpGe for f64x4 {
            #[inline]
            fn cmp_ge(self, o: Self) -> Self {
                unsafe { f64x4(_mm_cmpge_pd(self.0, o.0), _mm_cmpge_pd(self.1, o.1)) }
            }
        }
        impl CmpLe for f64x4 {
            #[inline]
            fn cmp_le(self, o: Self) -> Self {
                unsafe { f64x4(_mm_cmple_pd(self.0, o.0), _mm_cmple_pd(self.1, o.1)) }
            }
        }
        impl core::ops::BitAnd for f64x4 {
            type Output = Self;
            #[inline]
            fn bitand(self, o: Self) -> Self {
                unsafe { f64x4(_mm_and_pd(self.0, o.0), _mm_and_pd(self.1, o.1)) }
            }
        }
    }

    #[cfg(not(target_arch = "x86_64"))]
    mod lanes {
        use super::{CmpGe, CmpLe};

        #[allow(non_camel_case_types)]
        #[derive(Clone, Copy)]
        pub struct f64x4([u64; 4]);

        impl f64x4 {
            #[inline]
            pub fn splat(v: f64) -> Self {
                f64x4([v.to_bits(); 4])
            }
            #[inline]
            pub fn move_mask(self) -> i32 {
                (0..4).map(|k| ((self.0[k] >> 63) as i32) << k).sum()
            }
            #[inline]
            fn each(self, o: Self, f: impl Fn(f64, f64) -> bool) -> Self {
                let mut r = [0; 4];
                for k in 0..4 {
                    r[k] = if f(f64::from_bits(self.0[k]), f64::from_bits(o.0[k])) { u64::MAX } else { 0 };
                }
                f64x4(r)
            }
        }
        impl From<&[f64]> for f64x4 {
            #[inline]
            fn from(s: &[f64]) -> Self {
                f64x4([s[0].to_bits(), s[1].to_bits(), s[2].to_bits(), s[3].to_bits()])
            }
        }
        impl CmpGe for f64x4 {
            #[inline]
            fn cmp_ge(self, o: Self) -> Self {
                self.each(o, |a, b| a >= b)
            }
        }
        impl CmpLe for f64x4 {
            #[inline]
            fn cmp_le(self, o: Self) -> Self {
                self.each(o, |a, b| a <= b)
            }
        }
        impl core::ops::BitAnd for f64x4 {
            type Output = Self;
            #[inline]
            fn bitand(self, o: Self) -> Self {
                f64x4([self.0[0] & o.0[0], self.0[1] & o.0[1], self.0[2] & o.0[2], self.0[3] & o.0[3]])
            }
        }
    }
}

#[derive(Debug)]
#[allow(dead_code)]
pub enum PolygonizeError {
    InternalInvariantViolation { reason: String },
}

pub type Result<T> = std::result::Result<T, PolygonizeError>;

/// Counts the tests of a visit and the overlaps among them.
pub mod diagnostics {
    #[derive(Default)]
    pub struct ExecutionWorkTracker<'a> {
        pub tests: u64,
        pub overlaps: u64,
        pub life: std::marker::PhantomData<&'a ()>,
    }

    impl ExecutionWorkTracker<'_> {
        pub fn check_cancelled(&mut self) -> crate::Result<()> {
            Ok(())
        }
        pub fn grid(&mut self, _: usize, _: usize, _: usize) {}
        pub fn candidate(&mut self, overlaps: bool) -> crate::Result<()> {
            self.tests += 1;
            self.overlaps += overlaps as u64;
            Ok(())
        }
    }
}

/// Nothing is ever cancelled here.
pub mod options {
    pub struct ExecutionPolicy;

    impl ExecutionPolicy {
        pub fn check_cancelled(&self, _: &str) -> crate::Result<()> {
            Ok(())
        }
        pub fn check_cancelled_every(&self, _: &str, _: usize) -> crate::Result<()> {
            Ok(())
        }
    }

    #[derive(Clone, Copy, Debug, PartialEq)]
    pub enum SnapStrategy {
        Grid,
        GeosCompat,
    }
}

/// Tracing is outside the port: nothing is captured.
pub mod trace {
    pub struct TraceCapture<'a, T>(std::marker::PhantomData<&'a T>);

    impl<T> TraceCapture<'_, T> {
        pub fn push(&mut self, _: T) {}
    }

    pub struct TraceCaptureBudget;

    impl TraceCaptureBudget {
        pub fn take(&mut self, _: usize) -> bool {
            false
        }
        pub fn capture<T>(&mut self, _: &mut Vec<T>, _: T) -> bool {
            false
        }
    }
}

/// Points and lines, laid out as the Rust's.
pub mod types {
    use super::geo::{Coord, Line};

    #[derive(Clone, Copy, Debug, PartialEq)]
    pub struct Coord3D {
        pub x: f64,
        pub y: f64,
        pub z: f64,
    }

    impl Coord3D {
        pub fn new(x: f64, y: f64, z: f64) -> Self {
            Self { x, y, z }
        }
        pub fn to_coord_2d(self) -> Coord<f64> {
            Coord { x: self.x, y: self.y }
        }
    }

    #[derive(Clone, Copy, Debug)]
    pub struct Line3D {
        pub start: Coord3D,
        pub end: Coord3D,
        pub line_id: u32,
    }

    impl Line3D {
        pub fn to_line_2d(self) -> Line<f64> {
            Line { start: self.start.to_coord_2d(), end: self.end.to_coord_2d() }
        }
    }
}

/// The Rust's own boxes, included whole.
pub mod utils {
    #[allow(dead_code)]
    pub mod soa {
        use crate::stand_in::wide;
        include!(env!("COMPARE_SOA"));
    }
}
