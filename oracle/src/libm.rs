//! The distance between document 01's stand-ins and the platform's library.

use crate::layouts::ordinary;
use crate::random::Random;
use crate::source::{vbap_libm, vbap_standins};
use crate::standins::{atan2, cos64, sin64, PI64};

/// Greatest distance allowed of one value, for arguments up to 7 in magnitude.
pub const VALUE_BOUND: f64 = 1e-15;
/// Greatest distance allowed of one gain, at ordinary angles over ordinary layouts.
pub const ROW_BOUND: f64 = 3e-6;
/// Arguments of each function, directions of each layout, and the draws' seed (arbitrary).
const ARGUMENTS: usize = 2_000_000;
const DIRECTIONS: usize = 20_000;
const SEED: u64 = 0x201;

/// The greatest distance over all draws, with the argument that has it.
struct Greatest {
    distance: f64,
    at: (f64, f64),
}

impl Greatest {
    fn new() -> Greatest {
        Greatest {
            distance: 0.0,
            at: (0.0, 0.0),
        }
    }

    fn see(&mut self, a: f64, b: f64, at: (f64, f64)) {
        if (a - b).abs() > self.distance {
            *self = Greatest {
                distance: (a - b).abs(),
                at,
            };
        }
    }
}

/// Distances of sine, cosine and atan2.
fn values() -> [(&'static str, Greatest); 3] {
    let mut r = Random::new(SEED);
    let (mut s, mut c, mut t) = (Greatest::new(), Greatest::new(), Greatest::new());
    for _ in 0..ARGUMENTS {
        let (v, w) = (r.within(-7.0, 7.0), r.within(-7.0, 7.0));
        s.see(sin64(v), v.sin(), (v, 0.0));
        c.see(cos64(v), v.cos(), (v, 0.0));
        t.see(atan2(v, w), v.atan2(w), (v, w));
    }
    [("sine", s), ("cosine", c), ("atan2", t)]
}

/// Distances of the rows of one layout.
fn rows(positions: &[[f32; 3]], lfe: &[usize], r: &mut Random) -> Greatest {
    let ours = vbap_standins::VbapPanner::new(positions, lfe);
    let theirs = vbap_libm::VbapPanner::new(positions, lfe);
    let mut greatest = Greatest::new();
    let (mut a, mut b) = (vec![0.0; positions.len()], vec![0.0; positions.len()]);
    for _ in 0..DIRECTIONS {
        let (az, el) = (
            r.within(-PI64, PI64) as f32,
            r.within(-PI64 / 2.0, PI64 / 2.0) as f32,
        );
        ours.gains(az, el, &mut a);
        theirs.gains(az, el, &mut b);
        for (x, y) in a.iter().zip(&b) {
            greatest.see(*x as f64, *y as f64, (az as f64, el as f64));
        }
    }
    greatest
}

fn told(name: &str, g: &Greatest, bound: f64) -> bool {
    println!(
        "{name}: greatest distance {:e} at {:e}, {:e} (bound {bound:e})",
        g.distance, g.at.0, g.at.1
    );
    g.distance <= bound
}

/// Prints every distance; true where all are within their bounds.
pub fn report() -> bool {
    println!("{ARGUMENTS} arguments of each function, {DIRECTIONS} directions of each layout, seed {SEED:x}");
    let mut good = true;
    for (name, greatest) in values() {
        good &= told(name, &greatest, VALUE_BOUND);
    }
    let mut r = Random::new(SEED);
    for layout in ordinary() {
        good &= told(
            layout.name,
            &rows(&layout.positions, &layout.lfe, &mut r),
            ROW_BOUND,
        );
    }
    good
}
