//! Ramps and mixed gains of any bits.

use driver::boundary;
use oracle::random::Random;
use oracle::source::vbap_standins::{normalized_lerp_gain, ramp_add};

use crate::hex::{any, first_other, planted, samples, word, words};
use crate::tally::Tally;

/// Mixed gains of one case.
const MIXED: usize = 100;

/// A gain: mostly from 0 to 1.
fn gain(r: &mut Random) -> f32 {
    if r.below(4) == 0 {
        any(r)
    } else {
        r.unit() as f32
    }
}

/// How many samples: mostly few, now and then up to a block.
fn length(r: &mut Random) -> usize {
    match r.below(100) {
        0 => 1000 + r.below(30) as usize,
        n if n < 10 => r.below(150) as usize,
        _ => r.below(40) as usize,
    }
}

/// So many samples: half of the time ordinary ones.
fn drawn(r: &mut Random, n: usize) -> Vec<f32> {
    let ordinary = r.below(2) == 0;
    samples(r, n, ordinary)
}

/// A ramp of any two lengths; the samples behind the shorter are planted.
pub fn ramp_case(r: &mut Random, tally: &mut Tally) -> Result<(), String> {
    let n = length(r);
    let m = if r.below(2) == 0 { n } else { length(r) };
    let (mut dst, src) = (drawn(r, n.min(m)), drawn(r, m));
    dst.extend(planted(r, n - n.min(m)));
    let g0 = gain(r);
    let g1 = if r.below(4) == 0 { g0 } else { gain(r) };
    let (mut ours, mut theirs) = (dst.clone(), dst.clone());
    boundary::ramp_add(&mut ours, &src, g0, g1);
    ramp_add(&mut theirs, &src, g0, g1);
    tally.ramps += 1;
    let Some(place) = first_other(&ours, &theirs, n.min(m)) else {
        return Ok(());
    };
    Err(format!(
        "ramp_add from {} to {}: place {place} is {}, expected {}\ndst {}\nsrc {}",
        word(g0),
        word(g1),
        word(ours[place]),
        word(theirs[place]),
        words(&dst),
        words(&src)
    ))
}

/// Mixed gains, one by one and all at once.
pub fn mixed_case(r: &mut Random, tally: &mut Tally) -> Result<(), String> {
    let drawn: Vec<[f32; 4]> = (0..MIXED)
        .map(|_| [gain(r), gain(r), gain(r), gain(r)])
        .collect();
    let column = |k: usize| drawn.iter().map(|q| q[k]).collect::<Vec<f32>>();
    let more = r.below(4) as usize;
    let before = planted(r, MIXED + more);
    let mut all = before.clone();
    boundary::normalized_lerp_gain_all(&column(0), &column(1), &column(2), &column(3), &mut all);
    for (i, q) in drawn.iter().enumerate() {
        let expected = normalized_lerp_gain(q[0], q[1], q[2], q[3]);
        let one = boundary::normalized_lerp_gain(q[0], q[1], q[2], q[3]);
        if first_other(&[one, all[i]], &[expected, expected], 2).is_some() {
            return Err(format!(
                "normalized_lerp_gain of {}: {}, expected {}",
                words(q),
                word(one),
                word(expected)
            ));
        }
    }
    tally.mixed += MIXED as u64;
    let behind = first_other(&all[MIXED..], &before[MIXED..], 0);
    behind.map_or(Ok(()), |_| {
        Err("normalized_lerp_gain_all: a place behind the gains".to_string())
    })
}
