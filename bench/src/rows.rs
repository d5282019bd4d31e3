//! Rows: nanoseconds for each row over drawn directions.

use std::f64::consts::{FRAC_PI_2, PI};
use std::hint::black_box;

use driver::boundary;
use oracle::layouts::triples;
use oracle::random::Random;
use oracle::record::Kind;

use crate::layouts::{is_dome, layout, record, NAMES};
use crate::measure::compared;
use crate::source::{OnLibm, Source, WithStandins};
use crate::table::{print, Aim};

/// Directions of one pass: more than branch prediction learns by heart.
const DIRECTIONS: usize = 4096;
/// Seed of the draws (arbitrary).
const SEED: u64 = 0xd12;
/// The planar limit. Origin: vbap.rs line 52.
const PLANAR: f64 = 0.0873;

pub struct Directions {
    pub az: Vec<f32>,
    pub el: Vec<f32>,
}

/// Azimuths of the whole turn, and elevations up and down whose size is between two bounds.
pub fn directions(count: usize, low: f64, high: f64) -> Directions {
    let mut r = Random::new(SEED);
    let az = (0..count).map(|_| r.within(-PI, PI) as f32).collect();
    let mut elevation = || r.within(low, high) * r.pick(&[1.0, -1.0]);
    let el = (0..count).map(|_| elevation() as f32).collect();
    Directions { az, el }
}

/// The source's rows, a call for each.
fn rows<P: Source>(panner: &P, d: &Directions, width: usize, out: &mut [f32]) {
    for (i, row) in out.chunks_exact_mut(width).enumerate() {
        panner.gains(black_box(d.az[i]), black_box(d.el[i]), black_box(row));
    }
}

fn line(work: &str, name: &str, d: &Directions, aim: Aim) {
    let layout = layout(name);
    let (positions, lfe) = (triples(&layout.numbers), &layout.lfe);
    let width = positions.len();
    let record = record(&layout);
    let standins = WithStandins::new(&positions, lfe);
    let libm = OnLibm::new(&positions, lfe);
    let ours = |out: &mut Vec<f32>| {
        let (r, d) = (black_box(&record), black_box(d));
        let number = boundary::gains_all(r, &d.az, &d.el, width, out);
        assert_eq!(number, 0);
    };
    let standins = |out: &mut Vec<f32>| rows(black_box(&standins), d, width, out);
    let libm = |out: &mut Vec<f32>| rows(black_box(&libm), d, width, out);
    let mut lent = vec![0.0; DIRECTIONS * width];
    let times = compared(work, &mut lent, [&ours, &standins, &libm]);
    let figures = times.map(|s| vec![s * 1e9 / DIRECTIONS as f64]);
    print(work, figures, aim);
}

/// A planar layout is asked within the planar limit, and a ring beyond it too; the others are
/// asked at elevations of the whole sphere.
pub fn lines() {
    let no_slower = Aim::NONE.standins(1.0).libm(1.0);
    for name in NAMES {
        let planar = layout(name).opened().panner.kind == Kind::Planar;
        let high = if planar { PLANAR } else { FRAC_PI_2 };
        let libm = if is_dome(name) { 1.0 / 1.3 } else { 1.0 };
        let d = directions(DIRECTIONS, 0.0, high);
        let work = format!("row, {name}, ns");
        line(&work, name, &d, no_slower.libm(libm));
    }
    let d = directions(DIRECTIONS, PLANAR, FRAC_PI_2);
    line("row, ring of 8, elevated, ns", "ring of 8", &d, no_slower);
}
