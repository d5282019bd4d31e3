//! The number work on any bits, and the places behind it.

use driver::boundary;
use oracle::random::Random;
use oracle::standins;
use oracle::values::{Format, F32, F64};

use crate::tally::Tally;

/// Numbers of one case.
const NUMBERS: usize = 64;

/// Any bits of a format, special values and NaNs of both kinds more often.
fn any(r: &mut Random, f: Format) -> u64 {
    match r.below(4) {
        0 => r.pick(&f.nans()),
        1 => r.pick(&f.specials()),
        2 => f.any(r),
        _ => f.bits(r),
    }
}

/// A NaN of a format, and a quiet one. Origin: IEEE 754-2019, 6.2.1.
fn is_nan(f: Format, bits: u64) -> bool {
    (bits & !f.sign) > f.infinity()
}

fn is_quiet(f: Format, bits: u64) -> bool {
    bits & (1 << (f.fraction - 1)) != 0
}

/// Computed: equal bits, or two NaNs of which ours is quiet.
fn good(f: Format, ours: u64, theirs: u64) -> bool {
    if is_nan(f, theirs) {
        is_nan(f, ours) && is_quiet(f, ours)
    } else {
        ours == theirs
    }
}

/// The first of the results that is not good; those from `n` on must keep what stood there.
fn judged(
    name: &str,
    f: Format,
    given: &[u64],
    ours: &[u64],
    theirs: &[u64],
    n: usize,
) -> Result<(), String> {
    for (i, (a, b)) in ours.iter().zip(theirs).enumerate() {
        let same = if i < n { good(f, *a, *b) } else { a == b };
        if !same {
            let of = given.get(i).copied().unwrap_or_default();
            return Err(format!("{name} of {of:x}: {a:x}, expected {b:x}"));
        }
    }
    Ok(())
}

fn doubles(l: &[u64]) -> Vec<f64> {
    l.iter().map(|b| f64::from_bits(*b)).collect()
}

fn bits64(l: &[f64]) -> Vec<u64> {
    l.iter().map(|x| x.to_bits()).collect()
}

fn bits32(l: &[f32]) -> Vec<u64> {
    l.iter().map(|x| u64::from(x.to_bits())).collect()
}

/// What Rust and the stand-ins give, with the planted places behind.
fn expected(n: usize, planted: &[u64], one: impl Fn(usize) -> u64) -> Vec<u64> {
    (0..planted.len())
        .map(|i| if i < n { one(i) } else { planted[i] })
        .collect()
}

/// Each function of whole arrays on any bits, into planted places and three behind them.
pub fn case(r: &mut Random, tally: &mut Tally) -> Result<(), String> {
    let given: Vec<u64> = (0..NUMBERS).map(|_| any(r, F64)).collect();
    let other: Vec<u64> = (0..NUMBERS).map(|_| any(r, F64)).collect();
    let small: Vec<u64> = (0..NUMBERS).map(|_| any(r, F32)).collect();
    let (v, w) = (doubles(&given), doubles(&other));
    let floats: Vec<f32> = small.iter().map(|b| f32::from_bits(*b as u32)).collect();
    let held64: Vec<u64> = (0..NUMBERS + 3).map(|_| r.pick(&F64.nans())).collect();
    let held32: Vec<u64> = (0..NUMBERS + 3).map(|_| r.pick(&F32.nans())).collect();
    let before64 = doubles(&held64);
    let before32: Vec<f32> = held32.iter().map(|b| f32::from_bits(*b as u32)).collect();
    let n = NUMBERS;

    let mut to = before32.clone();
    boundary::narrow_all(&v, &mut to);
    let told = expected(n, &held32, |i| u64::from((v[i] as f32).to_bits()));
    judged("narrow", F32, &given, &bits32(&to), &told, n)?;

    let mut to = before32;
    boundary::sqrt32_all(&floats, &mut to);
    let told = expected(n, &held32, |i| u64::from(floats[i].sqrt().to_bits()));
    judged("root of 32 bits", F32, &small, &bits32(&to), &told, n)?;

    let mut to = before64.clone();
    boundary::sqrt64_all(&v, &mut to);
    let told = expected(n, &held64, |i| v[i].sqrt().to_bits());
    judged("root of 64 bits", F64, &given, &bits64(&to), &told, n)?;

    let (mut sin, mut cos) = (before64.clone(), before64.clone());
    boundary::sin_cos_all(&v, &mut sin, &mut cos);
    let told = expected(n, &held64, |i| standins::sin64(v[i]).to_bits());
    judged("sine", F64, &given, &bits64(&sin), &told, n)?;
    let told = expected(n, &held64, |i| standins::cos64(v[i]).to_bits());
    judged("cosine", F64, &given, &bits64(&cos), &told, n)?;

    let mut to = before64;
    boundary::atan2_all(&v, &w, &mut to);
    let told = expected(n, &held64, |i| standins::atan2(v[i], w[i]).to_bits());
    judged("angle", F64, &given, &bits64(&to), &told, n)?;
    tally.numbers_worked += 6 * n as u64;
    Ok(())
}
