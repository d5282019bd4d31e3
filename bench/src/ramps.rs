//! The mixed gain, nanoseconds for each; the ramp over a block, nanoseconds for each block.

use std::hint::black_box;

use driver::boundary;
use oracle::random::Random;
use oracle::session::MAX_BLOCK;

use crate::measure::compared;
use crate::source::{OnLibm, Source, WithStandins};
use crate::table::{print, Aim};

/// Mixed gains of one pass.
const GAINS: usize = 4096;
/// Seed of the draws (arbitrary).
const SEED: u64 = 0x4a3;

pub fn drawn(r: &mut Random, count: usize, low: f64, high: f64) -> Vec<f32> {
    (0..count).map(|_| r.within(low, high) as f32).collect()
}

/// The source's mixed gains.
fn mixed<P: Source>(args: &[Vec<f32>; 4], dst: &mut [f32]) {
    let [from, to, dot, t] = args.each_ref().map(|x| &x[..GAINS]);
    let dst = &mut dst[..GAINS];
    for i in 0..GAINS {
        dst[i] = P::normalized_lerp_gain(from[i], to[i], dot[i], t[i]);
    }
}

/// The mixed gain of gains, products and places between 0 and 1.
fn mixed_gains() {
    let mut r = Random::new(SEED);
    let args: [Vec<f32>; 4] = std::array::from_fn(|_| drawn(&mut r, GAINS, 0.0, 1.0));
    let ours = |dst: &mut Vec<f32>| {
        let [from, to, dot, t] = black_box(&args);
        boundary::normalized_lerp_gain_all(from, to, dot, t, black_box(dst))
    };
    let standins = |dst: &mut Vec<f32>| mixed::<WithStandins>(black_box(&args), black_box(dst));
    let libm = |dst: &mut Vec<f32>| mixed::<OnLibm>(black_box(&args), black_box(dst));
    let mut lent = vec![0.0; GAINS];
    let times = compared("mixed gain", &mut lent, [&ours, &standins, &libm]);
    let figures = times.map(|s| vec![s * 1e9 / GAINS as f64]);
    print("mixed gain, ns", figures, Aim::NONE);
}

fn ramp(work: &str, g0: f32, g1: f32, aim: Aim) {
    let mut r = Random::new(SEED);
    let src = drawn(&mut r, MAX_BLOCK, -1.0, 1.0);
    let mut lent = drawn(&mut r, MAX_BLOCK, -1.0, 1.0);
    let add = |dst: &mut Vec<f32>, ramp_add: fn(&mut [f32], &[f32], f32, f32)| {
        let (dst, src) = (black_box(dst), black_box(&src));
        ramp_add(dst, src, black_box(g0), black_box(g1))
    };
    let ours = |dst: &mut Vec<f32>| add(dst, boundary::ramp_add);
    let standins = |dst: &mut Vec<f32>| add(dst, WithStandins::ramp_add);
    let libm = |dst: &mut Vec<f32>| add(dst, OnLibm::ramp_add);
    let times = compared(work, &mut lent, [&ours, &standins, &libm]);
    print(work, times.map(|s| vec![s * 1e9]), aim);
}

pub fn lines() {
    mixed_gains();
    let still = Aim::NONE.standins(1.0);
    let moving = Aim::NONE.standins(1.0 / 4.0).libm(1.0 / 5.0);
    ramp("ramp over 1,024, equal gains, ns", 0.3, 0.3, still);
    ramp("ramp over 1,024, moving gains, ns", 0.3, 0.7, moving);
}
