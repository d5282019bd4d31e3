//! Directions that rows are asked at: special angles, the speakers' own, borders of pairs and
//! triplets, and draws.

use crate::edges::Position;
use crate::layouts::triples;
use crate::random::Random;
use crate::record::{Kind, Panner};
use crate::rows::{Call, Subject};
use crate::standins::{atan2, HALF_PI, PI64, TWO_PI};
use crate::values::F32;

/// Azimuth and elevation.
pub type Direction = (f32, f32);

/// The planar limit. Origin: vbap.rs line 52.
const PLANAR: f32 = 0.0873;

fn bits(patterns: &[u32]) -> Vec<f32> {
    patterns.iter().map(|b| f32::from_bits(*b)).collect()
}

/// Azimuths: zeros, parts of a turn, beyond a turn, tiny, huge, and not finite.
pub fn special_azimuths() -> Vec<f32> {
    let mut v = vec![
        0.0,
        -0.0,
        f32::INFINITY,
        f32::NEG_INFINITY,
        7.0,
        -7.0,
        100.0,
        1e6,
        -1e6,
        1e30,
        -1e30,
        f32::MAX,
    ];
    for part in [PI64, HALF_PI, TWO_PI] {
        v.extend([part as f32, -part as f32]);
    }
    v.extend([0.25, 0.75].map(|half_turns| (half_turns * PI64) as f32));
    // NaNs of both kinds; the least and the greatest subnormal; pi's neighbours; docs/RATIONALE.md, finding 1.
    v.extend(bits(&[
        0x7fc0_0000,
        0xff80_0001,
        1,
        0x8000_0001,
        0x007f_ffff,
        0x4049_0fda,
        0x4049_0fdc,
        0xc049_0fdc,
        0x4213_a7a5,
    ]));
    v
}

/// Elevations: as the azimuths, with the planar limit and the neighbours of both ends.
pub fn special_elevations() -> Vec<f32> {
    let mut v = vec![
        0.0,
        -0.0,
        f32::NEG_INFINITY,
        0.5,
        -1.2,
        2.5,
        100.0,
        1e30,
        PLANAR,
        -PLANAR,
    ];
    v.extend(
        [HALF_PI, PI64, 0.5 * HALF_PI]
            .iter()
            .flat_map(|x| [*x as f32, -*x as f32]),
    );
    let limit = PLANAR.to_bits();
    // A NaN, a subnormal, the neighbours of the limit and of pi/2 in 32 bits.
    v.extend(bits(&[
        0x7f80_0001,
        1,
        limit - 1,
        limit + 1,
        0x3fc9_0fda,
        0x3fc9_0fdc,
    ]));
    v
}

/// The direction of a vector; none where it has no finite one.
fn towards(v: [f64; 3]) -> Option<Direction> {
    let across = (v[0] * v[0] + v[2] * v[2]).sqrt();
    let (az, el) = (atan2(v[0], -v[2]) as f32, atan2(v[1], across) as f32);
    (az.is_finite() && el.is_finite()).then_some((az, el))
}

fn of_position(p: &Position) -> Option<Direction> {
    towards(p.map(|x| x as f64))
}

/// The axes and cube diagonals, where imaginary speakers stand.
fn candidates() -> Vec<Direction> {
    let all = (0..27).map(|n| [n % 3, n / 3 % 3, n / 9].map(|c| (c - 1) as f64));
    let wanted = all.filter(|v| [1.0, 3.0].contains(&v.iter().map(|x| x * x).sum::<f64>()));
    wanted.filter_map(towards).collect()
}

/// A few places off, across 0 too.
fn nudged(r: &mut Random, x: f32, reach: i64) -> f32 {
    let size = i64::from(x.to_bits() & 0x7fff_ffff);
    let place = if x.is_sign_negative() { -size } else { size } + r.between(-reach, reach);
    let sign = if place < 0 { 0x8000_0000 } else { 0 };
    f32::from_bits(sign | place.unsigned_abs() as u32)
}

/// An azimuth where a pair begins, ends or has its middle, some turns off, a few places off.
fn pair_border(r: &mut Random, p: &Panner) -> Direction {
    let pair = p.pairs[r.below(p.num_pairs as u64) as usize];
    let (start, gap) = (pair.start as f64, pair.gap as f64);
    // Origin of 1e-6: vbap.rs line 57.
    let place = r.pick(&[
        start,
        start + gap,
        start + gap + 1e-6,
        start - 1e-6,
        start + gap / 2.0,
    ]);
    let turns = if r.below(3) == 0 {
        r.between(-8, 8) as f64
    } else {
        0.0
    };
    let elevation = if r.below(4) == 0 {
        nudged(r, PLANAR, 3)
    } else {
        0.0
    };
    let az = (place + turns * TWO_PI) as f32;
    if az.is_nan() {
        (0.0, elevation)
    } else {
        (nudged(r, az, 4), elevation)
    }
}

/// The middle of two or three corners of a triplet, imaginary corners left out.
fn triplet_border(r: &mut Random, p: &Panner) -> Option<Direction> {
    let idx = p.idx[r.below(p.num_tris as u64) as usize];
    let skipped = r.below(4) as usize;
    let corners = idx
        .iter()
        .enumerate()
        .filter(|(n, i)| *n != skipped && (**i as usize) < p.num_real);
    let sum = corners
        .map(|(_, i)| p.pt_dir[*i as usize])
        .fold([0.0; 3], |s, d| [0, 1, 2].map(|c| s[c] + d[c] as f64));
    towards(sum)
}

fn border(r: &mut Random, p: &Panner) -> Option<Direction> {
    match p.kind {
        Kind::Planar if p.num_pairs > 0 => Some(pair_border(r, p)),
        Kind::Hull if p.num_tris > 0 => triplet_border(r, p),
        _ => None,
    }
}

/// Any direction; now and then beyond a turn, of any size, or any bits.
fn drawn(r: &mut Random) -> Direction {
    match r.below(16) {
        0 => (
            f32::from_bits(F32.bits(r) as u32),
            f32::from_bits(F32.bits(r) as u32),
        ),
        1 => (
            f32::from_bits(F32.any(r) as u32),
            r.within(-HALF_PI, HALF_PI) as f32,
        ),
        2 => (
            r.within(-100.0, 100.0) as f32,
            r.within(-100.0, 100.0) as f32,
        ),
        3 => (r.within(-PI64, PI64) as f32, r.within(-0.1, 0.1) as f32),
        _ => (
            r.within(-PI64, PI64) as f32,
            r.within(-HALF_PI, HALF_PI) as f32,
        ),
    }
}

/// How many directions of each sort a subject is asked at; `crossed` adds every special azimuth
/// with every special elevation, `own_lengths` every length to each speaker's own direction.
#[derive(Clone, Copy)]
pub struct Plan {
    pub crossed: bool,
    pub specials: usize,
    pub own: usize,
    pub own_lengths: bool,
    pub borders: usize,
    pub candidates: usize,
    pub drawn: usize,
}

fn special_directions(r: &mut Random, plan: Plan) -> Vec<Direction> {
    let (azimuths, elevations) = (special_azimuths(), special_elevations());
    if plan.crossed {
        return azimuths
            .iter()
            .flat_map(|az| elevations.iter().map(|el| (*az, *el)))
            .collect();
    }
    (0..plan.specials)
        .map(|_| (r.pick(&azimuths), r.pick(&elevations)))
        .collect()
}

/// So many of them, spread over all.
fn spread<T: Copy>(all: &[T], most: usize) -> Vec<T> {
    let n = all.len().min(most);
    (0..n).map(|i| all[i * all.len() / n]).collect()
}

/// The calls of a plan; most buffers fit, the others are short or long.
pub fn calls(r: &mut Random, subject: &Subject, numbers: &[f32], plan: Plan) -> Vec<Call> {
    let lengths = subject.lengths();
    let own: Vec<Direction> = triples(numbers).iter().filter_map(of_position).collect();
    let own = spread(&own, plan.own);
    let mut directions = special_directions(r, plan);
    directions.extend(
        own.iter()
            .map(|&(az, el)| (nudged(r, az, 2), nudged(r, el, 2))),
    );
    directions.extend((0..plan.borders).filter_map(|_| border(r, &subject.record)));
    if subject.record.kind == Kind::Hull {
        directions.extend(spread(&candidates(), plan.candidates));
    }
    directions.extend((0..plan.drawn).map(|_| drawn(r)));
    let fitting = |(az, el): Direction| Call {
        az,
        el,
        length: lengths[0],
    };
    let mut calls: Vec<Call> = own.iter().map(|d| fitting(*d)).collect();
    if plan.own_lengths {
        calls.extend(own.iter().flat_map(|d| {
            lengths.iter().map(|l| Call {
                length: *l,
                ..fitting(*d)
            })
        }));
    }
    for d in directions {
        let length = if r.below(4) == 0 {
            r.pick(&lengths)
        } else {
            lengths[0]
        };
        calls.push(Call {
            length,
            ..fitting(d)
        });
    }
    calls
}
