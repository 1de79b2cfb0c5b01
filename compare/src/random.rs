//! Random numbers from a seed, and the floats that comparisons like to ask about.

/// xoshiro256**, seeded by splitmix64.
#[derive(Clone)]
pub struct Random([u64; 4]);

impl Random {
    pub fn new(seed: u64) -> Self {
        let mut s = seed;
        let mut next = || {
            s = s.wrapping_add(0x9e3779b97f4a7c15);
            let z = (s ^ (s >> 30)).wrapping_mul(0xbf58476d1ce4e5b9);
            let z = (z ^ (z >> 27)).wrapping_mul(0x94d049bb133111eb);
            z ^ (z >> 31)
        };
        Random([next(), next(), next(), next()])
    }

    pub fn bits(&mut self) -> u64 {
        let s = &mut self.0;
        let r = s[1].wrapping_mul(5).rotate_left(7).wrapping_mul(9);
        let t = s[1] << 17;
        s[2] ^= s[0];
        s[3] ^= s[1];
        s[1] ^= s[2];
        s[0] ^= s[3];
        s[2] ^= t;
        s[3] = s[3].rotate_left(45);
        r
    }

    /// A number below n; 0 where n is 0.
    pub fn below(&mut self, n: u64) -> u64 {
        ((self.bits() as u128 * n as u128) >> 64) as u64
    }

    /// True once in n times.
    pub fn once_in(&mut self, n: u64) -> bool {
        self.below(n) == 0
    }

    pub fn pick<T: Copy>(&mut self, all: &[T]) -> T {
        all[self.below(all.len() as u64) as usize]
    }

    /// From 0 up to 1.
    pub fn unit(&mut self) -> f64 {
        (self.bits() >> 11) as f64 / 9007199254740992.0
    }

    pub fn between(&mut self, a: f64, b: f64) -> f64 {
        a + self.unit() * (b - a)
    }

    pub fn sign(&mut self) -> f64 {
        if self.once_in(2) {
            -1.0
        } else {
            1.0
        }
    }

    /// A size between a and b, each power of ten alike.
    pub fn size(&mut self, a: f64, b: f64) -> f64 {
        (self.between(a.ln(), b.ln()).exp()).clamp(a, b)
    }
}

/// v moved by n units in its last place.
pub fn nudged(v: f64, n: i64) -> f64 {
    if !v.is_finite() {
        return v;
    }
    // the patterns in the order of their values
    let order = |b: u64| if b >> 63 == 1 { -((b & !(1 << 63)) as i64) } else { b as i64 };
    let at = order(v.to_bits()).saturating_add(n);
    let r = f64::from_bits(if at < 0 { at.unsigned_abs() | 1 << 63 } else { at as u64 });
    if r.is_nan() {
        v
    } else {
        r
    }
}

/// v rounded to d decimals.
pub fn decimals(v: f64, d: u32) -> f64 {
    let p = 10f64.powi(d as i32);
    let r = (v * p).round() / p;
    if r.is_finite() {
        r
    } else {
        v
    }
}
