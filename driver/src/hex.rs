//! Floats by their bits: drawn, planted, compared and printed.

use oracle::random::Random;
use oracle::values::F32;

/// Any bits, special values and NaNs of both kinds more often.
pub fn any(r: &mut Random) -> f32 {
    let bits = match r.below(8) {
        0 => r.pick(&F32.specials()),
        1 => F32.any(r),
        // Biased exponents 0 to 2.
        2 => F32.with_exponent(r, 0, 2),
        3 | 4 => u64::from((r.within(-4.0, 4.0) as f32).to_bits()),
        _ => F32.bits(r),
    };
    f32::from_bits(bits as u32)
}

/// So many samples, ordinary ones from −1 to 1, or of any bits.
pub fn samples(r: &mut Random, n: usize, ordinary: bool) -> Vec<f32> {
    let sample = |_| {
        if ordinary {
            r.within(-1.0, 1.0) as f32
        } else {
            any(r)
        }
    };
    (0..n).map(sample).collect()
}

/// What a place holds before a call: a NaN, signalling or quiet, with a payload of its own.
pub fn planted(r: &mut Random, length: usize) -> Vec<f32> {
    // Origin: IEEE 754-2019, 6.2.1; the top bit of the fraction tells the quiet ones.
    let quiet = if r.below(2) == 0 { 0 } else { 0x0040_0000 };
    let from = 1 + r.below(0x3000) as u32;
    (0..length as u32)
        .map(|i| f32::from_bits(0x7f80_0000 | quiet | (from + i) | ((i & 1) << 31)))
        .collect()
}

/// Equal bits.
pub fn same_bits(a: f32, b: f32) -> bool {
    a.to_bits() == b.to_bits()
}

/// A NaN that is quiet. Origin: IEEE 754-2019, 6.2.1.
fn is_quiet(x: f32) -> bool {
    x.is_nan() && x.to_bits() & 0x0040_0000 != 0
}

/// What both sides computed: equal bits, or two NaNs of which ours is quiet.
pub fn same(ours: f32, theirs: f32) -> bool {
    if theirs.is_nan() {
        is_quiet(ours)
    } else {
        same_bits(ours, theirs)
    }
}

/// The first place where two lists differ: computed before `n`, left alone from there on.
pub fn first_other(ours: &[f32], theirs: &[f32], n: usize) -> Option<usize> {
    let places = ours.iter().zip(theirs).enumerate();
    let other = |(i, (a, b)): (usize, (&f32, &f32))| {
        let good = if i < n {
            same(*a, *b)
        } else {
            same_bits(*a, *b)
        };
        (!good).then_some(i)
    };
    places.map(other).find(Option::is_some).flatten()
}

pub fn word(x: f32) -> String {
    format!("{:08x}", x.to_bits())
}

pub fn words(l: &[f32]) -> String {
    l.iter().map(|x| word(*x)).collect::<Vec<_>>().join(" ")
}
