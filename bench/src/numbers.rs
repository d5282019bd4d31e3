//! Number work: nanoseconds for each number of an array.

use std::f64::consts::TAU;
use std::hint::black_box;

use driver::boundary;
use oracle::random::Random;
use oracle::standins;

use crate::measure::{compared, Bits};
use crate::table::{print, Aim};

/// Numbers of one array. The processor's branch prediction learns the course of the smaller one
/// by heart, so it shows the work alone; on the larger one every branch that goes by the numbers
/// has its cost.
const COUNTS: [usize; 2] = [1024, 16384];
/// Seed of the draws (arbitrary).
const SEED: u64 = 0x5eed;

/// Seconds of one pass: ours, the stand-ins', the platform's.
type Times = [Option<f64>; 3];

fn drawn(count: usize, low: f64, high: f64) -> Vec<f64> {
    let mut r = Random::new(SEED);
    (0..count).map(|_| r.within(low, high)).collect()
}

/// A function of one number that the processor has: ours over the array, the processor's on each.
fn of_one<S: Copy, D: Bits + Default>(
    work: &str,
    src: &[S],
    ours: fn(&[S], &mut [D]),
    theirs: impl Fn(S) -> D,
) -> Times {
    let ours = |dst: &mut Vec<D>| ours(black_box(src), black_box(dst));
    let theirs = |dst: &mut Vec<D>| {
        for (d, s) in black_box(dst).iter_mut().zip(black_box(src)) {
            *d = theirs(*s);
        }
    };
    let mut lent = vec![D::default(); src.len()];
    let [a, c] = compared(work, &mut lent, [&ours, &theirs]);
    [Some(a), None, Some(c)]
}

fn narrowing(count: usize) -> Times {
    let src = drawn(count, -1000.0, 1000.0);
    of_one("narrowing", &src, boundary::narrow_all, |x| x as f32)
}

fn roots_32(count: usize) -> Times {
    let wide = drawn(count, 0.0, 1000.0);
    let src: Vec<f32> = wide.iter().map(|&x| x as f32).collect();
    of_one("root, 32 bits", &src, boundary::sqrt32_all, f32::sqrt)
}

fn roots_64(count: usize) -> Times {
    let src = drawn(count, 0.0, 1000.0);
    of_one("root, 64 bits", &src, boundary::sqrt64_all, f64::sqrt)
}

/// Sine and cosine together, of angles up to a bound.
fn sines(count: usize, bound: f64) -> Times {
    type Pair = (Vec<f64>, Vec<f64>);
    let src = drawn(count, -bound, bound);
    let ours = |d: &mut Pair| {
        let (sin, cos) = black_box(d);
        boundary::sin_cos_all(black_box(&src), sin, cos)
    };
    let standin = |d: &mut Pair| {
        let (src, (sin, cos)) = (black_box(&src), black_box(d));
        for i in 0..count {
            (sin[i], cos[i]) = standins::sin_cos64(src[i]);
        }
    };
    let libm = |d: &mut Pair| {
        let (src, (sin, cos)) = (black_box(&src), black_box(d));
        for i in 0..count {
            (sin[i], cos[i]) = src[i].sin_cos();
        }
    };
    let mut lent = (vec![0.0; count], vec![0.0; count]);
    compared("sine and cosine", &mut lent, [&ours, &standin, &libm]).map(Some)
}

fn angles(count: usize) -> Times {
    let y = drawn(count, -1.0, 1.0);
    let x: Vec<f64> = y.iter().rev().map(|&v| v * 1.5).collect();
    let ours = |d: &mut Vec<f64>| boundary::atan2_all(black_box(&y), black_box(&x), black_box(d));
    let standin = |d: &mut Vec<f64>| {
        let (y, x, d) = (black_box(&y), black_box(&x), black_box(d));
        for i in 0..count {
            d[i] = standins::atan2(y[i], x[i]);
        }
    };
    let libm = |d: &mut Vec<f64>| {
        let (y, x, d) = (black_box(&y), black_box(&x), black_box(d));
        for i in 0..count {
            d[i] = y[i].atan2(x[i]);
        }
    };
    compared("atan2", &mut vec![0.0; count], [&ours, &standin, &libm]).map(Some)
}

fn line(work: &str, aim: Aim, times: &dyn Fn(usize) -> Times) {
    let times = COUNTS.map(|count| times(count).map(|t| t.map(|s| s * 1e9 / count as f64)));
    let figures = [0, 1, 2].map(|side| times.iter().filter_map(|t| t[side]).collect());
    print(work, figures, aim);
}

pub fn lines() {
    let (narrow, root) = (Aim::within(5.0), Aim::within(20.0));
    let no_slower = Aim::NONE.standins(1.0);
    let (turn, far) = (|n| sines(n, TAU), |n| sines(n, 1e6));
    line("narrowing (`as f32`), ns", narrow, &narrowing);
    line("root, 32 bits (`sqrt`), ns", root, &roots_32);
    line("root, 64 bits (`sqrt`), ns", root, &roots_64);
    line("sine and cosine up to 2·pi, ns", no_slower, &turn);
    line("sine and cosine up to 1e6, ns", no_slower, &far);
    line("atan2, ns", Aim::NONE, &angles);
}
