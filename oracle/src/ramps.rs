//! The list of ramps and mixed gains.

use crate::functions::function;
use crate::layout_line::Words;
use crate::lists::{arguments, CASES};
use crate::random::Random;
use crate::source::vbap_standins::ramp_add;
use crate::values::F32;

/// Drawn ramps, and the length of the longest. Origin of the length: document 01, refusal 8.
const DRAWN: usize = 1300;
const LONGEST: usize = 1024;

/// A ramp: what it is added to, the samples, and both gains.
struct Ramp {
    dst: Vec<f32>,
    src: Vec<f32>,
    gains: [f32; 2],
}

impl Ramp {
    fn added(&self) -> Vec<f32> {
        let mut out = self.dst.clone();
        ramp_add(&mut out, &self.src, self.gains[0], self.gains[1]);
        out
    }

    fn line(&self) -> String {
        let mut words = Words::new("ramp_add");
        for samples in [&self.dst, &self.src] {
            words.count(samples.len());
            words.floats(samples);
        }
        words.floats(&self.gains);
        words.expected(&self.added());
        words.line()
    }
}

/// How the samples and gains of a ramp are drawn.
#[derive(Clone, Copy)]
enum Manner {
    /// From -1 to 1.
    Ordinary,
    /// Any exponent.
    Any,
    /// Any bits, NaNs and infinities among them.
    Bits,
    /// Below the least normal float, or little above.
    Tiny,
    /// Zeros, infinities, NaNs, least and greatest values.
    Special,
}

use Manner::*;

const MANNERS: [Manner; 5] = [Ordinary, Any, Bits, Tiny, Special];

fn single(pattern: u64) -> f32 {
    f32::from_bits(pattern as u32)
}

fn specials() -> Vec<f32> {
    let one = 0x3f80_0000;
    F32.specials()
        .into_iter()
        .chain(F32.both_signs(vec![one]))
        .map(single)
        .collect()
}

fn value(r: &mut Random, manner: Manner) -> f32 {
    match manner {
        Ordinary => r.within(-1.0, 1.0) as f32,
        Any => single(F32.any(r)),
        Bits => single(F32.bits(r)),
        // Biased exponents 0 to 2.
        Tiny => single(F32.with_exponent(r, 0, 2)),
        Special => single(r.pick(&F32.specials())),
    }
}

fn samples(r: &mut Random, manner: Manner, n: usize) -> Vec<f32> {
    (0..n).map(|_| value(r, manner)).collect()
}

/// Two gains: moving, equal, opposite, or one of them special.
fn gains(r: &mut Random) -> [f32; 2] {
    let (from, to) = (r.unit() as f32, r.unit() as f32);
    match r.below(12) {
        0 | 1 => [to, to],
        2 => [to, -to],
        3 => [from, r.pick(&specials())],
        4 => [r.pick(&specials()), to],
        5 => r.pick(&[
            [0.0, -0.0],
            [-0.0, 0.0],
            [0.0, 0.0],
            [-0.0, -0.0],
            [0.0, 1.0],
            [1.0, 0.0],
        ]),
        6 => [value(r, Any), value(r, Any)],
        7 => [value(r, Tiny), value(r, Tiny)],
        8 => [to, single(to.to_bits() as u64 + r.below(5))],
        _ => [from, to],
    }
}

/// Every length up to 40, the samples as many, fewer, more and none, with moving and equal gains.
fn lengths(r: &mut Random) -> Vec<Ramp> {
    let mut all = Vec::new();
    for n in 0..=40 {
        for m in [n, n + 1, n / 2, 0] {
            let (from, to) = (r.unit() as f32, r.unit() as f32);
            for gains in [[from, to], [to, to]] {
                all.push(Ramp {
                    dst: samples(r, Ordinary, n),
                    src: samples(r, Ordinary, m),
                    gains,
                });
            }
        }
        // Origin: docs/RATIONALE.md, finding 8: the last gain need not be the target.
        let half = f32::from_bits(0x3f35_04f3);
        for gains in [[0.0, 1.0], [half, 0.0]] {
            all.push(Ramp {
                dst: vec![0.0; n + 1],
                src: vec![1.0; n + 1],
                gains,
            });
        }
    }
    all
}

/// Every special gain with every other; every special sample into every other.
fn all_specials(r: &mut Random) -> Vec<Ramp> {
    let all = specials();
    let mut ramps = Vec::new();
    for from in &all {
        for to in &all {
            ramps.push(Ramp {
                dst: samples(r, Ordinary, 2),
                src: samples(r, Ordinary, 3),
                gains: [*from, *to],
            });
        }
    }
    let quiet = f32::from_bits(0x7fc0_0000);
    for into in &all {
        for gains in [
            [1.0, 1.0],
            [0.0, -0.0],
            [-0.0, 0.0],
            [0.5, -2.0],
            [quiet, 1.0],
            [f32::INFINITY; 2],
            [-1.0, f32::MAX],
        ] {
            ramps.push(Ramp {
                dst: vec![*into; all.len()],
                src: all.clone(),
                gains,
            });
        }
    }
    ramps
}

/// Zeros of both signs under gains that are zeros: +0 and -0 are equal gains, and only the sign
/// of a result tells which of the two was taken.
fn zeros(r: &mut Random) -> Vec<Ramp> {
    let mut all = Vec::new();
    for n in 1..=20 {
        for gains in [[0.0, -0.0], [-0.0, 0.0], [0.0, 0.0], [-0.0, -0.0]] {
            let dst = (0..n).map(|_| r.pick(&[0.0, -0.0])).collect();
            all.push(Ramp {
                dst,
                src: samples(r, Ordinary, n),
                gains,
            });
        }
    }
    all
}

/// The longest blocks, whole and with a few samples too few on either side.
fn longest(r: &mut Random) -> Vec<Ramp> {
    let lengths = [
        (LONGEST, LONGEST),
        (LONGEST, LONGEST - 1),
        (LONGEST - 5, LONGEST),
        (LONGEST, LONGEST),
    ];
    let mut all: Vec<Ramp> = lengths
        .iter()
        .map(|&(n, m)| Ramp {
            dst: samples(r, Ordinary, n),
            src: samples(r, Ordinary, m),
            gains: [r.unit() as f32, r.unit() as f32],
        })
        .collect();
    all[3].gains[0] = all[3].gains[1];
    all.push(Ramp {
        dst: vec![0.0; LONGEST],
        src: vec![1.0; LONGEST],
        gains: [0.0, 1.0],
    });
    all.push(Ramp {
        dst: samples(r, Bits, LONGEST),
        src: samples(r, Bits, LONGEST),
        gains: [0.25, -3.0],
    });
    all
}

/// Samples that the ramp itself takes to 0, some of them a few places off: a step that is fused
/// or taken in another order leaves something.
fn cancelling(r: &mut Random) -> Ramp {
    let n = r.below(20) as usize;
    let mut ramp = Ramp {
        dst: vec![0.0; n],
        src: samples(r, Ordinary, n),
        gains: [r.unit() as f32, r.unit() as f32],
    };
    ramp.dst = ramp
        .added()
        .iter()
        .map(|x| single((-x).to_bits() as u64 + r.below(4) / 3))
        .collect();
    ramp
}

fn drawn(r: &mut Random) -> Ramp {
    if r.below(6) == 0 {
        return cancelling(r);
    }
    let most = r.pick(&[5, 9, 17, 41]);
    let n = r.below(most) as usize;
    let m = if r.below(3) == 0 {
        r.below(most) as usize
    } else {
        n
    };
    let (into, from) = if r.below(2) == 0 {
        (Ordinary, Ordinary)
    } else {
        (r.pick(&MANNERS), r.pick(&MANNERS))
    };
    Ramp {
        dst: samples(r, into, n),
        src: samples(r, from, m),
        gains: gains(r),
    }
}

/// What stands behind the seed in the list's first line, and its cases.
pub fn ramps(r: &mut Random) -> (String, String) {
    let mut all: Vec<Ramp> = [lengths(r), all_specials(r), zeros(r), longest(r)]
        .into_iter()
        .flatten()
        .collect();
    all.extend((0..DRAWN).map(|_| drawn(r)));
    let mut text: String = all.iter().map(Ramp::line).collect();
    let name = "normalized_lerp_gain";
    for args in arguments(name, CASES, r) {
        text.push_str(&function(name).line(&args));
    }
    (format!("ramp_add {}, {name} {CASES}", all.len()), text)
}
