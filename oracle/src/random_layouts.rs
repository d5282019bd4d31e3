//! The random layouts of the stored list.

use crate::edges::{Position, F};
use crate::layout_line::Layout;
use crate::layouts::at;
use crate::random::Random;
use crate::values::F32;
use std::collections::HashSet;

/// Random layouts in the list.
pub const COUNT: usize = 2700;

/// How the positions of a layout are drawn.
#[derive(Clone, Copy, PartialEq, Eq)]
enum Manner {
    /// Halves from -1 to 1, both zeros.
    Coarse,
    /// Whole numbers from -3 to 3.
    Whole,
    /// Azimuths in steps of 15 degrees, on the horizon.
    PlanarGrid,
    /// Any azimuth, on the horizon.
    Planar,
    /// Any azimuth, within 6 degrees of the horizon.
    NearPlanar,
    /// Any direction.
    Sphere,
    /// Azimuths and elevations in steps of 15 degrees.
    Grid,
    /// The upper half.
    Dome,
    /// The front.
    Front,
    /// Axes and cube diagonals, some a little off.
    Candidates,
    /// Points of a cone about an axis, where many lie in one plane.
    Cone,
    /// Any bit patterns.
    Bits,
    /// Any exponents, lengths about 1e-6, special numbers.
    Sizes,
}

use Manner::*;

const MANNERS: [Manner; 13] = [
    Coarse, Whole, PlanarGrid, Planar, NearPlanar, Sphere, Grid, Dome, Front, Candidates, Cone,
    Bits, Sizes,
];

fn coarse(r: &mut Random) -> f32 {
    r.pick(&[-1.0f32, -1.0, -0.5, -0.0, 0.0, 0.0, 0.5, 1.0, 1.0])
}

/// A number of size 10^low to 10^high, either sign.
fn small(r: &mut Random, low: f64, high: f64) -> f32 {
    // Powers of ten from powers of two, so that no library decides: 10^x is about 2^(3.32 x).
    let exponent = r.within(low * 3.32, high * 3.32);
    let whole = exponent as i32;
    let size = (1.0 + r.unit()) * f64::from_bits(((1023 + whole) as u64) << 52);
    (if r.below(2) == 0 { size } else { -size }) as f32
}

/// A cube diagonal or axis, half of them off by 1e-8 to 1e-2.
fn candidate(r: &mut Random) -> Position {
    let mut p = [0.0f32; 3];
    if r.below(2) == 0 {
        p = p.map(|_| r.pick(&[-1.0f32, 1.0]));
    } else {
        p[r.below(3) as usize] = r.pick(&[-1.0f32, 1.0]);
    }
    if r.below(2) == 0 {
        p[r.below(3) as usize] += small(r, -8.0, -2.0);
    }
    p
}

/// A point on a circle about one of the axes, exact in 32 bits.
fn cone(r: &mut Random) -> Position {
    // Origin: the right triangle 3, 4, 5.
    let (a, b) = r.pick(&[(5.0f32, 0.0f32), (4.0, 3.0), (3.0, 4.0), (0.0, 5.0)]);
    let (a, b) = (a * r.pick(&[-1.0f32, 1.0]), b * r.pick(&[-1.0f32, 1.0]));
    let h = r.pick(&[-5.0f32, 5.0, 2.0]);
    r.pick(&[[h, a, b], [a, h, b], [a, b, h]])
}

/// Numbers of any size, a direction of about the least accepted length, or one with a special
/// number in one place: zeros, subnormals, the greatest floats, infinities, NaNs.
fn sizes(r: &mut Random) -> Position {
    let direction = at(r.within(-180.0, 180.0), r.within(-90.0, 90.0));
    match r.below(3) {
        0 => [0, 1, 2].map(|_| f32::from_bits(F32.any(r) as u32)),
        1 => {
            let length = small(r, -6.2, -5.9);
            direction.map(|x| x * length)
        }
        _ => {
            let mut p = direction;
            p[r.below(3) as usize] = f32::from_bits(r.pick(&F32.specials()) as u32);
            p
        }
    }
}

fn position(r: &mut Random, manner: Manner) -> Position {
    let around = |r: &mut Random| r.within(-180.0, 180.0);
    let step = |r: &mut Random, n: i64| 15.0 * r.between(-n, n) as f64;
    match manner {
        Coarse => [coarse(r), coarse(r), coarse(r)],
        Whole => [0, 1, 2].map(|_| r.between(-3, 3) as f32),
        PlanarGrid => at(step(r, 12), 0.0),
        Planar => at(around(r), 0.0),
        NearPlanar => at(around(r), r.within(-6.0, 6.0)),
        Sphere => at(around(r), r.within(-90.0, 90.0)),
        Grid => at(step(r, 12), step(r, 6)),
        Dome => at(around(r), r.within(0.0, 90.0)),
        Front => at(r.within(-90.0, 90.0), r.within(-80.0, 80.0)),
        Candidates => candidate(r),
        Cone => cone(r),
        Bits => [0, 1, 2].map(|_| f32::from_bits(r.bits() as u32)),
        Sizes => sizes(r),
    }
}

/// Another position again: the same, a few places off, off by a small distance, or further away.
/// A NaN is only copied: the payload of a computed one is the platform's choice.
fn repeat(r: &mut Random, p: Position) -> Position {
    let mut q = p;
    let place = r.below(3) as usize;
    match r.below(4) {
        _ if p.iter().any(|x| x.is_nan()) => {}
        0 => {}
        1 => q[place] = f32::from_bits(q[place].to_bits().wrapping_add(r.between(-9, 9) as u32)),
        2 => q[place] += small(r, -11.0, -3.0),
        _ => q = q.map(|x| x * 2.0),
    }
    q
}

/// How many speakers: mostly few, now and then up to 41.
fn speakers(r: &mut Random) -> usize {
    let (least, most) = match r.below(200) {
        0..=9 => (0, 1),
        10..=119 => (2, 5),
        120..=169 => (5, 8),
        170..=189 => (7, 14),
        190..=195 => (12, 24),
        196..=197 => (25, 38),
        _ => (39, 41),
    };
    r.between(least, most) as usize
}

/// Slots, some of them twice or out of range; now and then all of them.
fn lfe(r: &mut Random, speakers: usize) -> Vec<usize> {
    match r.below(12) {
        0..=6 => vec![],
        7 => (0..speakers).filter(|_| r.below(6) != 0).collect(),
        8 => vec![r.bits() as usize, 1 << 63, speakers],
        _ => (0..1 + r.below(4))
            .map(|_| r.below(speakers as u64 + 2) as usize)
            .collect(),
    }
}

/// A position drawn anew, or now and then an earlier one again.
fn next_position(r: &mut Random, earlier: &[Position], manner: Manner, repeats: bool) -> Position {
    if repeats && !earlier.is_empty() && r.below(3) == 0 {
        let p = r.pick(earlier);
        repeat(r, p)
    } else {
        position(r, manner)
    }
}

/// One random layout; one in fifteen has numbers left over or too many.
pub fn draw(r: &mut Random) -> Layout {
    let (n, manner, mixed, repeats) = (
        speakers(r),
        r.pick(&MANNERS),
        r.below(5) == 0,
        r.below(3) == 0,
    );
    let mut positions: Vec<Position> = Vec::new();
    for _ in 0..n {
        let manner = if mixed { r.pick(&MANNERS) } else { manner };
        let p = next_position(r, &positions, manner, repeats);
        positions.push(p);
    }
    let mut numbers = positions.concat();
    if r.below(15) == 0 {
        let count = r.below(131) as usize;
        numbers = (0..count)
            .map(|i| *numbers.get(i).unwrap_or(&F[i % 3]))
            .collect();
    }
    Layout {
        name: String::new(),
        numbers,
        lfe: lfe(r, n),
    }
}

/// The list's layouts, each once.
pub fn drawn(r: &mut Random) -> Vec<Layout> {
    let mut seen = HashSet::new();
    let mut layouts = Vec::new();
    while layouts.len() < COUNT {
        let layout = draw(r);
        if seen.insert(layout.bits()) {
            layouts.push(layout);
        }
    }
    layouts
}
