//! The arguments of each function: chosen ones first, then draws.

use crate::random::Random;
use crate::standins::{sin_cos64, PI64, TWO_PI};
use crate::values::{f32_bits, f64_bits, Format, F32, F64};

type Args = Vec<u64>;

fn single(values: Vec<u64>) -> Vec<Args> {
    values.into_iter().map(|v| vec![v]).collect()
}

fn crossed(values: &[u64]) -> Vec<Args> {
    values
        .iter()
        .flat_map(|&a| values.iter().map(move |&b| vec![a, b]))
        .collect()
}

// ---- widths

/// The 64-bit value halfway between n and n + 1 of 2^exponent, and its two neighbours, by sign.
fn tie64(n: u64, exponent: i32) -> Vec<u64> {
    // n + 1/2 has at most 25 digits: both factors and the product are exact.
    let tie = (n as f64 + 0.5) * 2f64.powi(exponent);
    F64.around(tie.to_bits(), 1)
}

/// Ties between neighbours of each binade of 32 bits, their significands even, odd and all ones.
fn narrow_ties(r: &mut Random) -> Vec<u64> {
    let mut v = Vec::new();
    // Exponents of the last place of a 32-bit float. Origin: IEEE 754-2019, table 3.5.
    for exponent in -149..=104 {
        let n = r.between(1 << 23, (1 << 24) - 2) as u64;
        for m in [n & !1, n | 1, 1 << 23, (1 << 24) - 1] {
            v.extend(tie64(m, exponent));
        }
    }
    // Subnormal results: n + 1/2 smallest values, n of every length, the least normal included.
    for digits in 0..=23 {
        for n in [
            (1u64 << digits) - 1,
            1 << digits,
            r.below(1 << digits),
            r.below(1 << digits),
        ] {
            v.extend(tie64(n, -149));
        }
    }
    v
}

fn narrow_chosen(r: &mut Random) -> Vec<Args> {
    let mut v = F64.specials();
    v.extend(narrow_ties(r));
    // Exponents of 2^-160 to 2^130: the range of 32 bits and what lies beside it.
    let near = (1023 - 160..=1023 + 130).map(|e: u64| e << 52);
    v.extend(F64.both_signs(near.flat_map(|p| [p - 1, p, p + 1]).collect()));
    v.extend(F64.edges(16));
    // The greatest 32-bit float and the tie above it, which overflows.
    v.extend(F64.around(f64_bits(f32::MAX as f64), 3));
    v.extend(F64.around(f64_bits(2f64.powi(128) - 2f64.powi(103)), 3));
    single(v)
}

fn narrow_draw(r: &mut Random) -> Args {
    // Biased exponents 873..1151: results from below the least subnormal to overflow.
    let x = match r.below(8) {
        0 => F64.bits(r),
        1 => F64.any(r),
        2 | 3 => F64.with_exponent(r, 1023 - 151, 1023 - 126),
        4 => {
            let n = r.below(1 << 24);
            let t = tie64(n, r.between(-149, 104) as i32);
            r.pick(&t)
        }
        _ => F64.with_exponent(r, 1023 - 127, 1023 + 128),
    };
    vec![x]
}

/// Whole numbers around the ties of a format of `digits` digits, of every length.
fn whole_ties(r: &mut Random, digits: u32) -> Vec<u64> {
    let mut v = Vec::new();
    for length in digits + 1..=64 {
        let shift = length - digits;
        let half = 1u64 << (shift - 1);
        let top = 1u64 << (digits - 1);
        let n = top + r.below(top - 1);
        for m in [n & !1, n | 1, top, top + 1, 2 * top - 1, 2 * top - 2] {
            // A number beyond the tie by less than 64 bits can show in 53 digits: the trap of
            // rounding twice.
            let tie = (m << shift) + half;
            let beside = [0, 1, half >> 1, 1 << shift.saturating_sub(30)];
            v.extend(
                beside
                    .iter()
                    .flat_map(|b| [tie.wrapping_add(*b), tie.wrapping_sub(*b)]),
            );
        }
    }
    v
}

fn whole_chosen(r: &mut Random, digits: u32) -> Vec<Args> {
    let mut v: Vec<u64> = (0..=64).collect();
    for bit in 0..64 {
        v.extend((0..=4).flat_map(|n| {
            [
                (1u64 << bit).wrapping_add(n),
                (1u64 << bit).saturating_sub(n),
            ]
        }));
    }
    v.extend((0..=64).map(|n| u64::MAX - n));
    // Origin: document 01, proving ground.
    v.extend([16_777_217, 16_777_219]);
    for base in [1u64 << 24, 1 << 25, 1 << 32, 1 << 53, 1 << 54] {
        v.extend((0..=40).flat_map(|n| [base + n, base - n]));
    }
    for low in [24, 53] {
        v.extend(whole_ties(r, low));
    }
    v.extend(whole_ties(r, digits));
    single(v)
}

fn whole_draw(r: &mut Random, digits: u32) -> Args {
    let length = r.between(1, 64) as u32;
    let x = r.bits() >> (64 - length);
    if length <= digits + 1 || r.below(2) == 0 {
        return vec![x];
    }
    let shift = length - digits;
    let tie = (x >> shift << shift) | (1 << (shift - 1));
    vec![tie.wrapping_add(r.between(-1, 1) as u64)]
}

// ---- roots

/// The 32-bit floats next to (m + 1/2)^2, m of 24 digits, where the root comes closest to a tie.
fn near_half32(r: &mut Random) -> u64 {
    let m = r.between(1 << 23, (1 << 24) - 1) as f64 + 0.5;
    let scale = 2f64.powi(2 * r.between(-80, 39) as i32);
    f32_bits(((m * m) * scale) as f32).wrapping_add(r.between(-1, 1) as u64)
}

/// The 64-bit floats next to (m + 1/2)^2, m of 53 digits.
fn near_half64(r: &mut Random) -> u64 {
    let m = (r.between(1 << 52, (1 << 53) - 1) as u128) * 2 + 1;
    let scale = 2f64.powi(2 * r.between(-500, 450) as i32);
    f64_bits((m * m) as f64 * scale).wrapping_add(r.between(-1, 1) as u64)
}

fn root_chosen(f: Format, r: &mut Random) -> Vec<Args> {
    let mut v = f.edges(if f.fraction == 23 { 1 } else { 4 });
    // Exact squares of up to 12 or 26 digits, with neighbours, and the same times 2.
    for n in 1..=300u64 {
        let digits = f.fraction.div_ceil(2);
        let m = if n <= 150 {
            n
        } else {
            r.between(1 << (digits - 1), (1 << digits) - 1) as u64
        };
        for square in [(m * m) as f64, 2.0 * (m * m) as f64] {
            let bits = if f.fraction == 23 {
                f32_bits(square as f32)
            } else {
                f64_bits(square)
            };
            v.extend([bits - 1, bits, bits + 1]);
        }
    }
    single(v)
}

fn root_draw(f: Format, r: &mut Random) -> Args {
    let positive = f.sign - 1;
    let x = match r.below(8) {
        0 => f.bits(r),
        1 => f.with_exponent(r, 0, 0) & positive,
        2 | 3 if f.fraction == 23 => near_half32(r) & positive,
        2 | 3 => near_half64(r) & positive,
        _ => f.any(r) & positive,
    };
    vec![x]
}

// ---- order

fn pair_chosen(f: Format) -> Vec<Args> {
    let mut v = crossed(&f.specials());
    for e in f.edges(if f.fraction == 23 { 1 } else { 8 }) {
        v.push(vec![e, e]);
        v.push(vec![e, e ^ f.sign]);
        v.push(vec![e ^ 1, e]);
    }
    v
}

fn pair_draw(f: Format, r: &mut Random) -> Args {
    let a = f.any(r);
    let b = match r.below(6) {
        0 => a ^ f.sign,
        1 => a ^ 1,
        2 => f.bits(r),
        3 => r.pick(&f.specials()),
        _ => f.any(r),
    };
    if r.below(2) == 0 {
        vec![a, b]
    } else {
        vec![b, a]
    }
}

fn one_chosen(f: Format) -> Vec<Args> {
    single(f.edges(if f.fraction == 23 { 1 } else { 2 }))
}

/// Any value; now and then one of the greatest exponent, which is no finite value.
fn one_draw(f: Format, r: &mut Random) -> Args {
    let x = match r.below(8) {
        0 => f.with_exponent(r, f.top, f.top),
        1 => f.with_exponent(r, f.top - 1, f.top),
        2 => f.with_exponent(r, 0, 0),
        3 => f.bits(r),
        _ => f.any(r),
    };
    vec![x]
}

fn clamp_chosen() -> Vec<Args> {
    let mut v = F32.edges(1);
    v.extend(F32.around(f32_bits(1.0), 100));
    v.extend(F32.around(0, 100));
    single(v)
}

fn clamp_draw(r: &mut Random) -> Args {
    let x = match r.below(4) {
        0 => F32.any(r),
        1 => F32.bits(r),
        _ => f32_bits(r.within(-0.5, 1.5) as f32),
    };
    vec![x]
}

fn powi4_chosen() -> Vec<Args> {
    let mut v = F32.edges(1);
    // The fourth root of the greatest float, of the least normal and of the least subnormal;
    // the square root of the same, where the square overflows or falls to 0.
    for x in [
        f32::MAX as f64,
        f32::MIN_POSITIVE as f64,
        2f64.powi(-149),
        2f64.powi(-150),
    ] {
        v.extend(F32.around(f32_bits(x.sqrt().sqrt() as f32), 60));
        v.extend(F32.around(f32_bits(x.sqrt() as f32), 60));
    }
    single(v)
}

fn powi4_draw(r: &mut Random) -> Args {
    // Biased exponents 87..160: fourth powers from 0 to overflow.
    let x = match r.below(8) {
        0 => F32.any(r),
        1 => F32.bits(r),
        2 | 3 => f32_bits(r.unit() as f32),
        _ => F32.with_exponent(r, 127 - 40, 127 + 33),
    };
    vec![x]
}

// ---- remainder

/// A value of the format nearest x.
fn nearest(f: Format, x: f64) -> u64 {
    if f.fraction == 23 {
        f32_bits(x as f32)
    } else {
        f64_bits(x)
    }
}

fn value(f: Format, bits: u64) -> f64 {
    if f.fraction == 23 {
        f32::from_bits(bits as u32) as f64
    } else {
        f64::from_bits(bits)
    }
}

/// The modulus that the source uses. Origin: vbap.rs line 464 (TAU) and line 231 (2 pi).
fn turn(f: Format) -> u64 {
    nearest(f, TWO_PI)
}

fn rem_chosen(f: Format) -> Vec<Args> {
    let mut v = crossed(&f.specials());
    for e in f.edges(if f.fraction == 23 { 1 } else { 8 }) {
        v.push(vec![e, turn(f)]);
        v.push(vec![turn(f), e]);
    }
    for k in 0..=40 {
        let multiple = nearest(f, k as f64 * TWO_PI / 4.0);
        v.extend(f.around(multiple, 4).into_iter().map(|x| vec![x, turn(f)]));
    }
    for m in [1.0, 3.0, 0.1, -1.0, -TWO_PI] {
        for k in 0..=10 {
            let multiple = nearest(f, (k as f64 * m).abs());
            v.extend(
                f.around(multiple, 2)
                    .into_iter()
                    .map(|x| vec![x, nearest(f, m)]),
            );
        }
    }
    v
}

fn rem_draw(f: Format, r: &mut Random) -> Args {
    match r.below(8) {
        0 => vec![f.any(r), f.any(r)],
        1 => vec![f.bits(r), f.bits(r)],
        2 => vec![f.any(r), turn(f)],
        3 => {
            let m = f.any(r);
            let x = nearest(f, value(f, m) * r.between(-1000, 1000) as f64);
            vec![
                x.wrapping_add(r.between(-2, 2) as u64) & (f.sign | (f.sign - 1)),
                m,
            ]
        }
        4 => {
            let m = f.any(r) & (f.sign - 1);
            vec![nearest(f, value(f, m) * r.within(-8.0, 8.0)), m]
        }
        _ => vec![nearest(f, r.within(-3.0 * TWO_PI, 3.0 * TWO_PI)), turn(f)],
    }
}

// ---- sine and cosine

fn sine_chosen(f: Format) -> Vec<Args> {
    let mut v = f.edges(if f.fraction == 23 { 1 } else { 4 });
    // Every multiple of pi/4 up to 16 pi: the borders of k and the turns.
    for m in 0..=64 {
        v.extend(f.around(nearest(f, m as f64 * PI64 / 4.0), 6));
    }
    // Origin: document 01, k by its inequality: the last value below pi/4, where q + 1/2 rounds up to 1.
    v.extend(
        F64.around(0x3fe9_21fb_5444_2d17, 4)
            .iter()
            .map(|x| nearest(f, f64::from_bits(*x))),
    );
    for big in [
        1e3, 1e6, 1e9, 1e15, 1e16, 1e22, 1e30, 1e38, 1e100, 1e200, 1e300,
    ] {
        v.extend(f.around(nearest(f, big), 2));
    }
    single(v)
}

fn sine_draw(f: Format, r: &mut Random) -> Args {
    let x = match r.below(16) {
        0 => f.bits(r),
        1 | 2 => f.any(r),
        3 | 4 => {
            let bound = 1 << r.below(40);
            let m = r.between(-bound, bound);
            nearest(f, m as f64 * PI64 / 4.0).wrapping_add(r.between(-2, 2) as u64)
                & (f.sign | (f.sign - 1))
        }
        5 | 6 => nearest(f, r.within(-100.0, 100.0)),
        7 => nearest(f, r.within(-1.0, 1.0) * 2f64.powi(-(r.below(60) as i32))),
        _ => nearest(f, r.within(-7.0, 7.0)),
    };
    vec![x]
}

// ---- arctangent

fn atan_chosen() -> Vec<Args> {
    let mut v = F64.edges(4);
    v.extend((0..=512).map(|i| f64_bits(i as f64 / 512.0)));
    v.extend(F64.around(f64_bits(1.0), 50));
    // Where 1 + q * q first differs from 1, and where q * q overflows.
    v.extend(F64.around(f64_bits(2f64.powi(-26)), 20));
    v.extend(F64.around(f64_bits(2f64.powi(-27)), 20));
    v.extend(F64.around(f64_bits(f64::MAX.sqrt()), 20));
    single(v)
}

fn atan_draw(r: &mut Random) -> Args {
    let x = match r.below(10) {
        0 => F64.any(r),
        1 => F64.bits(r),
        2 | 3 => f64_bits(2f64.powi(-(r.below(70) as i32)) * r.unit()),
        _ => f64_bits(r.unit()),
    };
    vec![x]
}

fn atan2_chosen() -> Vec<Args> {
    let one = f64_bits(1.0);
    let mut values = F64.both_signs(vec![one - 1, one, one + 1]);
    for x in [0.5, 2.0, 1e-300, 1e300, 1e-20, 1e20, 0.1, PI64, 1e-7] {
        values.extend([f64_bits(x), f64_bits(-x)]);
    }
    values.extend(F64.specials());
    let mut v = crossed(&values);
    for e in F64.edges(8) {
        let neighbour = e ^ 1;
        for (y, x) in [(e, e), (e, e ^ F64.sign), (e, neighbour)] {
            v.push(vec![y, x]);
        }
    }
    v
}

fn atan2_draw(r: &mut Random) -> Args {
    match r.below(10) {
        0 => vec![F64.any(r), F64.any(r)],
        1 => vec![F64.bits(r), F64.bits(r)],
        2 => {
            let y = F64.any(r);
            let x = y.wrapping_add(r.between(-3, 3) as u64) ^ (F64.sign * r.below(2));
            vec![y, x]
        }
        3 => {
            let (y, x) = (F64.any(r), r.pick(&F64.specials()));
            if r.below(2) == 0 {
                vec![y, x]
            } else {
                vec![x, y]
            }
        }
        4 | 5 => {
            let e = r.between(0, 2046) as u64;
            let near =
                |r: &mut Random| F64.with_exponent(r, e.saturating_sub(30), (e + 30).min(2046));
            vec![near(r), near(r)]
        }
        _ => {
            let (s, c) = sin_cos64(r.within(-PI64, PI64));
            vec![f64_bits(s), f64_bits(c)]
        }
    }
}

// ---- mixed gain

/// Both ends of 0..1, halves, and what the clamps and the maximum meet.
fn mixed_values() -> Vec<u64> {
    let mut v: Vec<u64> = [0.0, -0.0, 1.0, -1.0, 0.5, f32::INFINITY, f32::NEG_INFINITY]
        .iter()
        .map(|x| f32_bits(*x))
        .collect();
    // The least subnormal, and a quiet NaN.
    v.extend([1, 0x7fc0_0000]);
    v
}

fn mixed_chosen(r: &mut Random) -> Vec<Args> {
    let few = crossed(&mixed_values());
    let mut v: Vec<Args> = few
        .iter()
        .flat_map(|a| few.iter().map(move |b| [&a[..], &b[..]].concat()))
        .collect();
    let mut unit = || f32_bits(r.unit() as f32);
    // Origin: docs/RATIONALE.md, finding 7.
    v.push([0.25, 0.75, f32::NAN, 0.0].map(f32_bits).to_vec());
    for pair in crossed(&F32.specials()) {
        v.push([&pair[..], &[unit(), unit()]].concat());
        v.push([&[unit(), unit()], &pair[..]].concat());
    }
    // Either side of the clamps' ends, and of the middle.
    let near: Vec<u64> = [0.5, 1.0]
        .into_iter()
        .flat_map(|x| F32.around(f32_bits(x), 3))
        .chain(F32.around(0, 2))
        .collect();
    v.extend(
        crossed(&near)
            .into_iter()
            .map(|pair| [&[unit(), unit()], &pair[..]].concat()),
    );
    v
}

/// A gain, a dot product or a place: mostly from 0 to 1.
fn mixed_argument(r: &mut Random) -> u64 {
    match r.below(16) {
        0 => F32.any(r),
        1 => F32.bits(r),
        2 => r.pick(&mixed_values()),
        3 => f32_bits(r.within(-1.0, 2.0) as f32),
        4 => f32_bits((1.0 - r.unit() * r.unit() * r.unit()) as f32),
        5 => F32.with_exponent(r, 0, 127),
        _ => f32_bits(r.unit() as f32),
    }
}

// ---- by name

/// The chosen arguments of a function.
pub fn chosen(name: &str, r: &mut Random) -> Vec<Args> {
    match name {
        "widen" | "abs32" | "is_finite32" | "sign_bit32" => one_chosen(F32),
        "narrow" => narrow_chosen(r),
        "f32_from_u64" => whole_chosen(r, 24),
        "f64_from_u64" => whole_chosen(r, 53),
        "sqrt32" => root_chosen(F32, r),
        "sqrt64" => root_chosen(F64, r),
        "max32" | "min32" => pair_chosen(F32),
        "max64" => pair_chosen(F64),
        "clamp" => clamp_chosen(),
        "abs64" | "is_finite64" | "sign_bit64" => one_chosen(F64),
        "powi4" => powi4_chosen(),
        "rem_euclid32" => rem_chosen(F32),
        "rem_euclid64" => rem_chosen(F64),
        "sin64" | "cos64" | "sin_cos64" => sine_chosen(F64),
        "sin32" | "cos32" | "sin_cos32" => sine_chosen(F32),
        "atan64" => atan_chosen(),
        "atan2" => atan2_chosen(),
        "normalized_lerp_gain" => mixed_chosen(r),
        _ => panic!("no function of the name {name}"),
    }
}

/// One draw of a function's arguments.
pub fn draw(name: &str, r: &mut Random) -> Args {
    match name {
        "widen" | "abs32" | "is_finite32" | "sign_bit32" => one_draw(F32, r),
        "narrow" => narrow_draw(r),
        "f32_from_u64" => whole_draw(r, 24),
        "f64_from_u64" => whole_draw(r, 53),
        "sqrt32" => root_draw(F32, r),
        "sqrt64" => root_draw(F64, r),
        "max32" | "min32" => pair_draw(F32, r),
        "max64" => pair_draw(F64, r),
        "clamp" => clamp_draw(r),
        "abs64" | "is_finite64" | "sign_bit64" => one_draw(F64, r),
        "powi4" => powi4_draw(r),
        "rem_euclid32" => rem_draw(F32, r),
        "rem_euclid64" => rem_draw(F64, r),
        "sin64" | "cos64" | "sin_cos64" => sine_draw(F64, r),
        "sin32" | "cos32" | "sin_cos32" => sine_draw(F32, r),
        "atan64" => atan_draw(r),
        "atan2" => atan2_draw(r),
        "normalized_lerp_gain" => (0..4).map(|_| mixed_argument(r)).collect(),
        _ => panic!("no function of the name {name}"),
    }
}

/// The minimum of two zeros may be either (it is only ever compared): no case of it.
pub fn left_out(name: &str, args: &[u64]) -> bool {
    name == "min32" && args.iter().all(|x| x & (F32.sign - 1) == 0)
}
