//! Layouts: `open`'s part of document 01, ordinary speaker layouts, and random ones.

use crate::random::Random;
use crate::record::{Panner, MAX_OUTPUTS, MAX_TRIPLETS};
use crate::source::{take_lists, vbap_standins, Built};
use crate::standins::{sin_cos64, PI64};

/// Greatest number of sources. Origin: document 01, refusal 3.
pub const MAX_SOURCES: usize = 8;

/// What `open` gives beside a session: the refusal, the imaginary count and the layout.
pub struct Opened {
    pub refusal: u8,
    pub imaginary: usize,
    pub panner: Panner,
    /// The triplet lists built on the way; empty where none was built.
    pub lists: Vec<Built>,
}

impl Opened {
    /// The lengths of the triplet lists built on the way.
    pub fn lengths(&self) -> Vec<usize> {
        self.lists.iter().map(|l| l.length).collect()
    }
}

fn refused(number: u8, lists: Vec<Built>) -> Opened {
    Opened {
        refusal: number,
        imaginary: 0,
        panner: Panner::empty(),
        lists,
    }
}

/// Three numbers a speaker, as the source takes them.
pub fn triples(numbers: &[f32]) -> Vec<[f32; 3]> {
    numbers
        .chunks_exact(3)
        .map(|p| [p[0], p[1], p[2]])
        .collect()
}

/// `open` without the session: refusals 1 to 4 in rising order, else the layout of the source.
pub fn opened(numbers: &[f32], lfe: &[usize], sources: usize) -> Opened {
    if numbers.len() % 3 != 0 {
        return refused(1, vec![]);
    }
    if numbers.len() / 3 > MAX_OUTPUTS {
        return refused(2, vec![]);
    }
    if !(1..=MAX_SOURCES).contains(&sources) {
        return refused(3, vec![]);
    }
    take_lists();
    let built = vbap_standins::VbapPanner::new(&triples(numbers), lfe);
    let lists = take_lists();
    if lists.iter().any(|l| l.length > MAX_TRIPLETS) {
        return refused(4, lists);
    }
    let panner = built.record();
    Opened {
        refusal: 0,
        imaginary: panner.num_imag,
        panner,
        lists,
    }
}

/// The refusal of `open` alone.
pub fn open_refusal(numbers: &[f32], lfe: &[usize], sources: usize) -> u8 {
    opened(numbers, lfe, sources).refusal
}

// ---- ordinary layouts, by azimuth and elevation in degrees

/// The position at an azimuth and elevation. Origin: vbap.rs, `dir` in its heading.
pub fn at(azimuth: f64, elevation: f64) -> [f32; 3] {
    let (sa, ca) = sin_cos64(azimuth * PI64 / 180.0);
    let (se, ce) = sin_cos64(elevation * PI64 / 180.0);
    [(sa * ce) as f32, se as f32, (-ca * ce) as f32]
}

/// n speakers evenly around at an elevation, the first at an azimuth.
pub fn ring(n: usize, first: f64, elevation: f64) -> Vec<[f32; 3]> {
    (0..n)
        .map(|i| at(first + 360.0 * i as f64 / n as f64, elevation))
        .collect()
}

/// n times one position, behind other numbers.
pub fn repeated(others: &[f32], position: [f32; 3], n: usize) -> Vec<f32> {
    others
        .iter()
        .copied()
        .chain(std::iter::repeat_n(position, n).flatten())
        .collect()
}

/// Well-spread speakers over the front half sphere, on a spiral.
pub fn front(n: usize) -> Vec<[f32; 3]> {
    (0..n)
        .map(|i| {
            let t = (i as f64 + 0.5) / n as f64;
            // Origin: the golden angle, in degrees, spreads a spiral's points.
            let (around, off) = (137.50776405 * i as f64, 90.0 * t.sqrt());
            let [x, y, z] = at(around, 90.0 - off);
            [x, z, -y]
        })
        .collect()
}

/// A layout by name: positions and LFE slots.
pub struct Ordinary {
    pub name: &'static str,
    pub positions: Vec<[f32; 3]>,
    pub lfe: Vec<usize>,
}

fn ordinary_layout(name: &'static str, parts: Vec<Vec<[f32; 3]>>, lfe: &[usize]) -> Ordinary {
    Ordinary {
        name,
        positions: parts.concat(),
        lfe: lfe.to_vec(),
    }
}

/// Speakers at azimuths and one elevation.
pub fn fan(azimuths: &[f64], elevation: f64) -> Vec<[f32; 3]> {
    azimuths.iter().map(|&a| at(a, elevation)).collect()
}

/// Layouts as they are installed. Origin: ITU-R BS.2051-3 for the numbered ones, with rings,
/// domes and a sphere beside them.
pub fn ordinary() -> Vec<Ordinary> {
    let five = || fan(&[-30.0, 30.0, 0.0, 45.0, -110.0, 110.0], 0.0);
    let seven = || fan(&[-30.0, 30.0, 0.0, 45.0, -90.0, 90.0, -135.0, 135.0], 0.0);
    vec![
        ordinary_layout("mono", vec![ring(1, 0.0, 0.0)], &[]),
        ordinary_layout("stereo", vec![fan(&[-30.0, 30.0], 0.0)], &[]),
        ordinary_layout("quad", vec![fan(&[-45.0, 45.0, -135.0, 135.0], 0.0)], &[]),
        ordinary_layout("5.1", vec![five()], &[3]),
        ordinary_layout("7.1", vec![seven()], &[3]),
        ordinary_layout("ring of 8", vec![ring(8, 0.0, 0.0)], &[]),
        ordinary_layout("ring of 24", vec![ring(24, 7.5, 2.0)], &[]),
        ordinary_layout(
            "5.1.4",
            vec![five(), fan(&[-45.0, 45.0, -135.0, 135.0], 35.0)],
            &[3],
        ),
        ordinary_layout(
            "7.1.4",
            vec![seven(), fan(&[-45.0, 45.0, -135.0, 135.0], 45.0)],
            &[3],
        ),
        ordinary_layout(
            "cube",
            vec![ring(4, 45.0, 35.26), ring(4, 45.0, -35.26)],
            &[],
        ),
        ordinary_layout(
            "dome of 21",
            vec![ring(12, 0.0, 0.0), ring(8, 22.5, 40.0), ring(1, 0.0, 90.0)],
            &[],
        ),
        ordinary_layout(
            "dome of 37",
            vec![
                ring(16, 0.0, 0.0),
                ring(12, 11.0, 25.0),
                ring(8, 5.0, 50.0),
                ring(1, 0.0, 90.0),
            ],
            &[],
        ),
        ordinary_layout(
            "sphere of 26",
            vec![
                ring(1, 0.0, -90.0),
                ring(8, 10.0, -40.0),
                ring(8, 0.0, 5.0),
                ring(8, 20.0, 45.0),
                ring(1, 0.0, 90.0),
            ],
            &[],
        ),
        ordinary_layout(
            "front wall of 9",
            vec![
                fan(&[-30.0, 0.0, 30.0], -20.0),
                fan(&[-30.0, 0.0, 30.0], 0.0),
                fan(&[-30.0, 0.0, 30.0], 20.0),
            ],
            &[],
        ),
    ]
}

// ---- random layouts

/// A coordinate for layouts full of coincidences: axes, diagonals, both zeros.
fn coarse(r: &mut Random) -> f32 {
    r.pick(&[-1.0f32, -1.0, -0.5, -0.0, 0.0, 0.0, 0.5, 1.0, 1.0])
}

fn random_position(r: &mut Random, manner: u64) -> [f32; 3] {
    match manner {
        0 => [coarse(r), coarse(r), coarse(r)],
        1 => at(15.0 * r.between(-12, 12) as f64, 0.0),
        2 => at(r.within(-180.0, 180.0), 0.0),
        3 => at(r.within(-180.0, 180.0), r.within(-90.0, 90.0)),
        4 => at(
            15.0 * r.between(-12, 12) as f64,
            15.0 * r.between(-6, 6) as f64,
        ),
        5 => at(r.within(-180.0, 180.0), r.within(0.0, 90.0)),
        6 => at(r.within(-90.0, 90.0), r.within(-80.0, 80.0)),
        _ => [0, 1, 2].map(|_| f32::from_bits(r.bits() as u32)),
    }
}

/// Positions and LFE slots of a random layout of up to `most` speakers.
pub fn random_layout(r: &mut Random, most: usize) -> (Vec<f32>, Vec<usize>) {
    let n = if r.below(4) == 0 {
        most
    } else {
        r.below(most as u64 + 1) as usize
    };
    let manner = r.below(8);
    let mixed = r.below(4) == 0;
    let mut numbers = Vec::new();
    for _ in 0..n {
        let m = if mixed { r.below(8) } else { manner };
        numbers.extend(random_position(r, m));
    }
    let lfe = (0..r.below(3))
        .map(|_| r.below(most as u64 + 2) as usize)
        .collect();
    (numbers, lfe)
}
