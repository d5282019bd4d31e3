//! Layouts next to the tolerances: of each, the last that falls on one side and the first that
//! falls on the other. docs/RATIONALE.md quotes them, `oracle rationale` tests them.

use crate::tolerances::*;

pub type Position = [f32; 3];

/// Document 01's position F.
pub const F: Position = [0.0, 0.0, -1.0];
pub const BACK: Position = [0.0, 0.0, 1.0];
pub const TOP: Position = [0.0, 1.0, 0.0];
pub const RIGHT: Position = [1.0, 0.0, 0.0];
pub const LEFT: Position = [-1.0, 0.0, 0.0];

/// Two layouts that differ in the last place of one number, and the tolerance between them.
pub struct Edge {
    pub tolerance: usize,
    pub number: [f32; 2],
    pub layouts: [Vec<Position>; 2],
}

fn edge(tolerance: usize, bits: [u32; 2], layout: impl Fn(f32) -> Vec<Position>) -> Edge {
    let number = bits.map(f32::from_bits);
    Edge {
        tolerance,
        number,
        layouts: number.map(layout),
    }
}

/// Every layout tolerance that some layout falls on both sides of. The numbers were found by
/// halving the distance between two bit patterns that fall on different sides.
pub fn edges() -> Vec<Edge> {
    vec![
        edge(UNIT, [0x358637bd, 0x358637be], |z| vec![[0.0, 0.0, z]]),
        edge(PLANAR, [0x3db33ef9, 0x3db33efa], |y| {
            vec![RIGHT, [0.0, y, -1.0]]
        }),
        edge(VBAP_GAP, [0x3a831113, 0x3a831114], |x| {
            vec![F, [x, 0.0, 1.0]]
        }),
        edge(SECOND_GAP, [0x3089705a, 0x3089705b], |x| {
            vec![[-0.0, 0.0, 1.0], [x, 0.0, 1.0]]
        }),
        edge(COINCIDENT, [0x358637bd, 0x358637be], |x| {
            vec![F, [x, 0.0, -1.0]]
        }),
        edge(EPS, [0xc0a00000, 0xc09fffff], |z| {
            vec![
                [5.0, 0.0, z],
                [4.0, 3.0, -5.0],
                [3.0, 4.0, -5.0],
                [-3.0, 4.0, -5.0],
            ]
        }),
        edge(EPS, [0xc09ffffe, 0xc09ffffd], third_of_four),
        edge(EPS, [0xc09ffffd, 0xc09ffffc], third_of_four),
        edge(NORMAL, [0x3009705f, 0x30097060], |x| {
            vec![F, [x, 0.0, -1.0], TOP]
        }),
        edge(ORIGIN, [0x38d1b717, 0x38d1b718], |z| {
            vec![[-1.0, 0.0, z], [1.0, 0.0, z], [0.0, 1.0, -1.0]]
        }),
        edge(AXIS, [0x3d947f38, 0x3d947f39], cross),
        edge(DET, [0x3089705f, 0x30897060], |x| {
            vec![F, [x, 0.0, -1.0], TOP]
        }),
        edge(POLE, [0x3ab95d2b, 0x3ab95d2c], |x| {
            vec![RIGHT, LEFT, BACK, F, [x, 1.0, 0.0]]
        }),
        edge(CANDIDATE, [0x3ab95d2b, 0x3ab95d2c], |x| {
            vec![[0.0, 1.0, -1.0], [x, 0.0, 1.0]]
        }),
        edge(TIE, [0x308c2928, 0x308c2929], |x| {
            vec![[x, 0.2, -1.0], BACK]
        }),
    ]
}

/// Four speakers on one circle, the third of them moved.
pub fn third_of_four(z: f32) -> Vec<Position> {
    vec![
        [5.0, 0.0, -5.0],
        [4.0, 3.0, -5.0],
        [3.0, 4.0, z],
        [-3.0, 4.0, -5.0],
    ]
}

/// Four speakers 30 degrees around the azimuth 64.158 degrees, whose sine is 0.9.
fn cross(z: f32) -> Vec<Position> {
    let [x, y, side] = [0x3f478842, 0x3f000000, 0xbec14698].map(f32::from_bits);
    let first = [0x3f0fbd04, 0, 0xbf53d67f].map(f32::from_bits);
    vec![
        first,
        [f32::from_bits(0x3f7f537f), 0.0, z],
        [x, y, side],
        [x, -y, side],
    ]
}
