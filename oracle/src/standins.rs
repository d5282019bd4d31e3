//! Document 01, "Number work": the stand-ins of the source's library calls. Root, `as`, `%`
//! and the four basic operations are IEEE's and are used as they are.

/// The 64-bit float nearest pi (4009_21fb_5444_2d18). Origin: document 01, "Number work".
pub const PI64: f64 = std::f64::consts::PI;
/// The double of `PI64` (4019_21fb_5444_2d18). Origin: document 01, "Number work".
pub const TWO_PI: f64 = 2.0 * PI64;
/// The half of `PI64` (3ff9_21fb_5444_2d18). Origin: document 01, "Number work".
pub const HALF_PI: f64 = PI64 / 2.0;

/// (-1)^i / (2i+1)!, i = 0..8, each quotient rounded once. Origin: document 01, sine.
const SINE: [f64; 9] = [
    1.0,
    -1.0 / 6.0,
    1.0 / 120.0,
    -1.0 / 5040.0,
    1.0 / 362880.0,
    -1.0 / 39916800.0,
    1.0 / 6227020800.0,
    -1.0 / 1307674368000.0,
    1.0 / 355687428096000.0,
];

/// (-1)^i / (2i)!, i = 0..8, each quotient rounded once. Origin: document 01, cosine.
const COSINE: [f64; 9] = [
    1.0,
    -1.0 / 2.0,
    1.0 / 24.0,
    -1.0 / 720.0,
    1.0 / 40320.0,
    -1.0 / 3628800.0,
    1.0 / 479001600.0,
    -1.0 / 87178291200.0,
    1.0 / 20922789888000.0,
];

/// (-1)^i / (2i+1), i = 0..7, each quotient rounded once. Origin: document 01, arctangent.
const ARCTANGENT: [f64; 8] = [
    1.0,
    -1.0 / 3.0,
    1.0 / 5.0,
    -1.0 / 7.0,
    1.0 / 9.0,
    -1.0 / 11.0,
    1.0 / 13.0,
    -1.0 / 15.0,
];

/// sum <- coefficient + z * sum, from the highest coefficient on.
fn sum(z: f64, coefficients: &[f64]) -> f64 {
    let (last, rest) = coefficients.split_last().expect("a coefficient");
    rest.iter().rev().fold(*last, |s, c| c + z * s)
}

/// The whole number k with k - 1/2 <= q < k + 1/2, by comparison; |q| is at most 4.
fn nearest_whole(q: f64) -> Option<i32> {
    // -5..5 holds every k of |q| <= 4. Origin: document 01, r is a remainder by 2 pi.
    (-5..=5).find(|&k| f64::from(k) - 0.5 <= q && q < f64::from(k) + 0.5)
}

/// Sine and cosine of v.
pub fn sin_cos64(v: f64) -> (f64, f64) {
    let r = v % TWO_PI;
    let Some(k) = nearest_whole(r / HALF_PI) else {
        return (f64::NAN, f64::NAN);
    };
    let y = r - f64::from(k) * HALF_PI;
    let z = y * y;
    let (s, c) = (y * sum(z, &SINE), sum(z, &COSINE));
    match k.rem_euclid(4) {
        0 => (s, c),
        1 => (c, -s),
        2 => (-s, -c),
        _ => (-c, s),
    }
}

pub fn sin64(v: f64) -> f64 {
    sin_cos64(v).0
}

pub fn cos64(v: f64) -> f64 {
    sin_cos64(v).1
}

/// A 32-bit call widens, computes, narrows.
pub fn sin_cos32(v: f32) -> (f32, f32) {
    let (s, c) = sin_cos64(v as f64);
    (s as f32, c as f32)
}

/// A(q): the steps as they are, of any value.
pub fn atan64(q: f64) -> f64 {
    let mut q = q;
    for _ in 0..3 {
        q = q / (1.0 + (1.0 + q * q).sqrt());
    }
    8.0 * (q * sum(q * q, &ARCTANGENT))
}

/// The sign bit; a NaN counts as clear.
pub fn sign_bit64(x: f64) -> bool {
    x.is_sign_negative() && !x.is_nan()
}

/// The sign bit; a NaN counts as clear.
pub fn sign_bit32(x: f32) -> bool {
    x.is_sign_negative() && !x.is_nan()
}

pub fn atan2(y: f64, x: f64) -> f64 {
    let (ay, ax) = (y.abs(), x.abs());
    let quotient = |a: f64, b: f64| if a == 0.0 && b == 0.0 { 0.0 } else { a / b };
    let first = if ay <= ax {
        atan64(quotient(ay, ax))
    } else {
        HALF_PI - atan64(quotient(ax, ay))
    };
    let half = if sign_bit64(x) { PI64 - first } else { first };
    if sign_bit64(y) {
        -half
    } else {
        half
    }
}

/// A maximum: the other value for a NaN; of two zeros +0.
macro_rules! maximum {
    ($name:ident, $float:ty) => {
        pub fn $name(a: $float, b: $float) -> $float {
            if a.is_nan() {
                b
            } else if b.is_nan() {
                a
            } else if a == 0.0 && b == 0.0 {
                0.0
            } else if a < b {
                b
            } else {
                a
            }
        }
    };
}

maximum!(max64, f64);
maximum!(max32, f32);

/// The other value for a NaN; of two zeros the first (it is only ever compared).
pub fn min32(a: f32, b: f32) -> f32 {
    if a.is_nan() || b < a {
        b
    } else {
        a
    }
}

/// Clamp to 0..1; keeps a NaN and -0.
pub fn clamp32(x: f32) -> f32 {
    if x < 0.0 {
        0.0
    } else if x > 1.0 {
        1.0
    } else {
        x
    }
}

/// The square of the square.
pub fn powi4(x: f32) -> f32 {
    let square = x * x;
    square * square
}

/// The remainder, plus the modulus where negative; -0 is not negative.
pub fn rem_euclid32(x: f32, m: f32) -> f32 {
    let r = x % m;
    if r < 0.0 {
        r + m
    } else {
        r
    }
}

/// The remainder, plus the modulus where negative; -0 is not negative.
pub fn rem_euclid64(x: f64, m: f64) -> f64 {
    let r = x % m;
    if r < 0.0 {
        r + m
    } else {
        r
    }
}

/// The names that build.rs puts in the place of the source's library calls.
pub trait Standins: Sized {
    fn standin_sin_cos(self) -> (Self, Self);
    fn standin_rem_euclid(self, m: Self) -> Self;
    fn standin_sin(self) -> Self {
        self.standin_sin_cos().0
    }
    fn standin_cos(self) -> Self {
        self.standin_sin_cos().1
    }
}

impl Standins for f64 {
    fn standin_sin_cos(self) -> (f64, f64) {
        sin_cos64(self)
    }
    fn standin_rem_euclid(self, m: f64) -> f64 {
        rem_euclid64(self, m)
    }
}

impl Standins for f32 {
    fn standin_sin_cos(self) -> (f32, f32) {
        sin_cos32(self)
    }
    fn standin_rem_euclid(self, m: f32) -> f32 {
        rem_euclid32(self, m)
    }
}

/// Those that the source calls in 32 bits only.
pub trait Standins32 {
    fn standin_max(self, other: f32) -> f32;
    fn standin_min(self, other: f32) -> f32;
    fn standin_clamp(self) -> f32;
    fn standin_powi4(self) -> f32;
}

impl Standins32 for f32 {
    fn standin_max(self, other: f32) -> f32 {
        max32(self, other)
    }
    fn standin_min(self, other: f32) -> f32 {
        min32(self, other)
    }
    fn standin_clamp(self) -> f32 {
        clamp32(self)
    }
    fn standin_powi4(self) -> f32 {
        powi4(self)
    }
}

/// The one that the source calls in 64 bits only.
pub trait Standins64 {
    fn standin_atan2(self, x: f64) -> f64;
}

impl Standins64 for f64 {
    fn standin_atan2(self, x: f64) -> f64 {
        atan2(self, x)
    }
}
