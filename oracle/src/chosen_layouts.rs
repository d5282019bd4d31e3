//! The chosen layouts of the stored list: as houses have them, and as the rules' edges ask for.

use crate::edges::{edges, third_of_four, Position, BACK, F, LEFT, RIGHT, TOP};
use crate::layout_line::Layout;
use crate::layouts::{at, fan, front, ordinary, repeated, ring};
use crate::random::Random;
use crate::tolerances::{Tolerance, TOLERANCES};

fn layout(name: impl Into<String>, positions: &[Position]) -> Layout {
    Layout::new(name, positions, &[])
}

/// Each coordinate in metres, rounded to so many places a metre.
pub fn rounded(positions: &[Position], radius: f64, places: f64) -> Vec<Position> {
    positions
        .iter()
        .map(|p| p.map(|x| ((x as f64 * radius * places).round() / places) as f32))
        .collect()
}

// ---- houses

/// Layouts of ITU-R BS.2051-3 and their kin, beside those of `ordinary`.
fn standards() -> Vec<Layout> {
    let five = || fan(&[-30.0, 30.0, 0.0, 45.0, -110.0, 110.0], 0.0);
    let seven = || fan(&[-30.0, 30.0, 0.0, 45.0, -90.0, 90.0, -135.0, 135.0], 0.0);
    let mut five_at_origin = five();
    five_at_origin[3] = [0.0; 3];
    let mut all: Vec<Layout> = ordinary()
        .iter()
        .map(|o| Layout::new(o.name, &o.positions, &o.lfe))
        .collect();
    all.extend([
        layout("LCR", &fan(&[-30.0, 0.0, 30.0], 0.0)),
        layout("stereo at 90", &fan(&[-90.0, 90.0], 0.0)),
        layout("5.0", &fan(&[-30.0, 30.0, 0.0, -110.0, 110.0], 0.0)),
        Layout::new("5.1, LFE at the origin", &five_at_origin, &[3]),
        layout("5.1, LFE at the origin and not named", &five_at_origin),
        layout("5.1, LFE not named", &five()),
        Layout::new("5.1.2", &[five(), fan(&[-90.0, 90.0], 45.0)].concat(), &[3]),
        Layout::new(
            "7.1.2",
            &[seven(), fan(&[-90.0, 90.0], 45.0)].concat(),
            &[3],
        ),
        Layout::new(
            "9.1.6",
            &[
                seven(),
                fan(&[-60.0, 60.0], 0.0),
                fan(&[-45.0, 45.0, -90.0, 90.0, -135.0, 135.0], 45.0),
            ]
            .concat(),
            &[3],
        ),
        Layout::new("22.2", &twenty_two(), &[3, 9]),
        layout("22.2, LFE not named", &twenty_two()),
    ]);
    all
}

/// 22.2 in the order of its channels. Origin: ITU-R BS.2051-3, system H.
fn twenty_two() -> Vec<Position> {
    let middle = [
        -60.0, 60.0, 0.0, -45.0, -135.0, 135.0, -30.0, 30.0, 180.0, 45.0, -90.0, 90.0,
    ];
    let mut all = fan(&middle, 0.0);
    (all[3], all[9]) = (at(-45.0, -30.0), at(45.0, -30.0));
    all.extend(fan(&[-45.0, 45.0, 0.0], 45.0));
    all.push(at(0.0, 90.0));
    all.extend(fan(&[-135.0, 135.0, -90.0, 90.0, 180.0], 45.0));
    all.extend(fan(&[0.0, -45.0, 45.0], -30.0));
    all
}

fn rings() -> Vec<Layout> {
    let mut all = Vec::new();
    for n in [3, 4, 5, 6, 8, 12, 16, 24, 40] {
        for first in [0.0, 10.0, 180.0 / n as f64] {
            all.push(layout(
                format!("ring of {n} from {first}"),
                &ring(n, first, 0.0),
            ));
        }
        all.push(layout(format!("ring of {n} up 4"), &ring(n, 0.0, 4.0)));
        all.push(layout(format!("ring of {n} down 4"), &ring(n, 0.0, -4.0)));
    }
    for n in [3, 5, 8, 24] {
        all.push(layout(format!("ring of {n} up 30"), &ring(n, 0.0, 30.0)));
        all.push(layout(format!("ring of {n} down 30"), &ring(n, 0.0, -30.0)));
    }
    all
}

/// Rings one above the other: speakers of a ring, its first azimuth and its elevation.
fn dome(rings: &[(usize, f64, f64)]) -> Vec<Position> {
    rings
        .iter()
        .flat_map(|&(n, first, elevation)| ring(n, first, elevation))
        .collect()
}

fn domes() -> Vec<Layout> {
    let zenith = (1, 0.0, 90.0);
    let aligned = dome(&[(12, 0.0, 0.0), (8, 0.0, 30.0), (4, 0.0, 60.0)]);
    let low = dome(&[(12, 0.0, 0.0), (8, 22.5, 30.0), (3, 0.0, 60.0), zenith]);
    let forty = dome(&[(20, 0.0, 0.0), (12, 15.0, 30.0), (7, 0.0, 60.0), zenith]);
    let mut subs = dome(&[(18, 0.0, 0.0), (12, 15.0, 30.0), (7, 0.0, 60.0), zenith]);
    subs.extend([[0.0, -0.5, -4.0], [0.0; 3]]);
    let mut mixed = forty.clone();
    mixed.rotate_left(20);
    vec![
        layout("dome of 24", &aligned),
        layout("dome of 24 with zenith", &low),
        layout(
            "dome of 24, two rings",
            &dome(&[(16, 0.0, 5.0), (8, 0.0, 45.0)]),
        ),
        layout("dome of 24 in millimetres", &rounded(&aligned, 7.5, 1000.0)),
        layout("dome of 24 in centimetres", &rounded(&low, 7.5, 100.0)),
        layout("dome of 40", &forty),
        layout("dome of 40, zenith first", &mixed),
        layout(
            "dome of 40, four rings",
            &dome(&[
                (16, 0.0, 0.0),
                (12, 0.0, 22.5),
                (8, 0.0, 45.0),
                (4, 0.0, 67.5),
            ]),
        ),
        layout(
            "dome of 40, two rings",
            &dome(&[(24, 0.0, -2.0), (16, 0.0, 40.0)]),
        ),
        layout("dome of 40 in millimetres", &rounded(&forty, 9.0, 1000.0)),
        Layout::new("dome of 38 and two subs", &subs, &[38, 39]),
        layout(
            "dome without its base",
            &dome(&[(8, 0.0, 30.0), (5, 0.0, 60.0), zenith]),
        ),
        layout(
            "dome and nadir",
            &[
                dome(&[(8, 0.0, 0.0), (4, 0.0, 45.0), zenith]),
                vec![[0.0, -1.0, 0.0]],
            ]
            .concat(),
        ),
        layout(
            "sphere of three rings",
            &dome(&[(8, 0.0, -30.0), (8, 22.5, 0.0), (8, 0.0, 30.0)]),
        ),
    ]
}

/// Rings of equal azimuths, so that faces have four corners, as computed and rounded.
fn prisms() -> Vec<Layout> {
    let mut all = Vec::new();
    for (n, first, elevation) in [
        (3, 20.0, 60.0),
        (4, 0.0, 45.0),
        (6, 11.25, 60.0),
        (8, 7.5, 30.0),
        (12, 0.0, 20.0),
    ] {
        let two = dome(&[(n, first, 0.0), (n, first, elevation)]);
        all.push(layout(format!("two rings of {n}"), &two));
        for (radius, places) in [(1.0, 1e5), (1.0, 1e6), (1.0, 1e7), (2.5, 1e6), (4.0, 1e3)] {
            all.push(layout(
                format!("two rings of {n}, {radius} m, a part in {places}"),
                &rounded(&two, radius, places),
            ));
        }
    }
    all
}

fn halves() -> Vec<Layout> {
    let arc = [-90.0, -60.0, -30.0, 0.0, 30.0, 60.0, 90.0];
    vec![
        layout(
            "half dome",
            &[
                fan(&arc, 0.0),
                fan(&[-90.0, -45.0, 0.0, 45.0, 90.0], 35.0),
                fan(&[-90.0, 0.0, 90.0], 65.0),
            ]
            .concat(),
        ),
        layout(
            "half dome with zenith",
            &[fan(&arc, 0.0), fan(&[-60.0, 0.0, 60.0], 40.0), vec![TOP]].concat(),
        ),
        layout(
            "half dome, tilted",
            &[fan(&arc, 15.0), fan(&[-60.0, 0.0, 60.0], 50.0)].concat(),
        ),
        layout(
            "rear half dome",
            &[
                fan(&[90.0, 135.0, 180.0, -135.0, -90.0], 0.0),
                fan(&[120.0, 180.0, -120.0], 40.0),
            ]
            .concat(),
        ),
        layout(
            "left half dome",
            &[
                fan(&[0.0, -45.0, -90.0, -135.0, 180.0], 0.0),
                fan(&[-30.0, -90.0, -150.0], 45.0),
            ]
            .concat(),
        ),
        layout("front line of 12", &wall(12, 1)),
        layout("front wall 4 by 2", &wall(4, 2)),
        layout("front wall 5 by 3", &wall(5, 3)),
        layout("front wall 8 by 5", &wall(8, 5)),
        layout("front spiral of 20", &front(20)),
        layout("front-only with a raised centre", &raised_centre(5.0)),
    ]
}

/// A wall 4 m ahead, speakers 1 m apart, its lowest row on the horizon.
pub fn wall(columns: i32, rows: i32) -> Vec<Position> {
    (0..rows)
        .flat_map(|y| {
            (0..columns).map(move |x| [(2 * x - columns + 1) as f32 * 0.5, y as f32, -4.0])
        })
        .collect()
}

/// Five speakers far apart, to which docs/RATIONALE.md adds one beside the first.
pub fn five_around() -> [Position; 5] {
    [
        at(20.0, 10.0),
        at(110.0, 5.0),
        at(-100.0, 0.0),
        at(170.0, 20.0),
        at(40.0, 70.0),
    ]
}

/// Front-only, its centre speakers raised by some degrees.
pub fn raised_centre(by: f64) -> Vec<Position> {
    vec![
        at(-30.0, 0.0),
        at(30.0, 0.0),
        at(0.0, by),
        at(-30.0, 40.0),
        at(30.0, 40.0),
        at(0.0, 40.0 + by),
    ]
}

/// How a position of the horizon is turned into another plane.
type Turn = fn(Position) -> Position;

/// Speakers in one plane through the origin that is not the horizon.
fn planes() -> Vec<Layout> {
    let circle = |n: usize| ring(n, 0.0, 0.0);
    let mut all = Vec::new();
    for n in [2, 3, 4, 5, 8] {
        let turned: [(&str, Turn); 4] = [
            ("side", |[x, _, z]| [0.0, x, z]),
            ("front", |[x, _, z]| [x, z, 0.0]),
            ("diagonal", |[x, _, z]| [x, z, x]),
            ("tilted", |[x, _, z]| [x, x, z]),
        ];
        for (name, turn) in turned {
            all.push(layout(
                format!("{name} plane, circle of {n}"),
                &circle(n).into_iter().map(turn).collect::<Vec<_>>(),
            ));
        }
    }
    all.push(layout(
        "arc from front to back",
        &[F, [0.0, 1.0, -1.0], TOP, [0.0, 1.0, 1.0], BACK],
    ));
    all.push(layout("poles alone", &[TOP, [0.0, -1.0, 0.0]]));
    all
}

// ---- solids

/// All sign changes of a position.
fn signs([x, y, z]: Position) -> Vec<Position> {
    let mut all = Vec::new();
    for sx in [x, -x] {
        for sy in [y, -y] {
            for sz in [z, -z] {
                if !all.contains(&[sx, sy, sz]) {
                    all.push([sx, sy, sz]);
                }
            }
        }
    }
    all
}

/// The sign changes of the three rotations of a position.
fn rotations([x, y, z]: Position) -> Vec<Position> {
    [[x, y, z], [y, z, x], [z, x, y]]
        .into_iter()
        .flat_map(signs)
        .collect()
}

fn octahedron() -> Vec<Position> {
    rotations([1.0, 0.0, 0.0])
}

fn solids(r: &mut Random) -> Vec<Layout> {
    // Origin: the golden ratio and its inverse, in 32 bits, for icosahedron and dodecahedron.
    let (phi, inverse) = (1.618034, 0.618034);
    let cube = signs([1.0, 1.0, 1.0]);
    let all = [
        (
            "tetrahedron",
            vec![
                [1.0, 1.0, 1.0],
                [1.0, -1.0, -1.0],
                [-1.0, 1.0, -1.0],
                [-1.0, -1.0, 1.0],
            ],
        ),
        (
            "tetrahedron on a face",
            [ring(3, 0.0, -19.471221), vec![TOP]].concat(),
        ),
        ("octahedron", octahedron()),
        ("cube of ones", cube.clone()),
        ("cube and octahedron", [cube.clone(), octahedron()].concat()),
        ("cuboctahedron", rotations([1.0, 1.0, 0.0])),
        ("icosahedron", rotations([0.0, 1.0, phi])),
        (
            "dodecahedron",
            [cube, rotations([0.0, inverse, phi])].concat(),
        ),
        ("rhombicuboctahedron", rotations([1.0, 1.0, 2.4142137])),
        (
            "cuboctahedron and axes",
            [rotations([1.0, 1.0, 0.0]), octahedron()].concat(),
        ),
    ];
    let mut layouts = Vec::new();
    for (name, positions) in all {
        let mut shuffled = positions.clone();
        for n in (1..shuffled.len()).rev() {
            shuffled.swap(n, r.below(n as u64 + 1) as usize);
        }
        layouts.push(layout(name, &positions));
        layouts.push(layout(
            format!("{name}, reversed"),
            &positions.into_iter().rev().collect::<Vec<_>>(),
        ));
        layouts.push(layout(format!("{name}, shuffled"), &shuffled));
    }
    layouts
}

/// The directions of the imaginary speakers, two and one at a time.
fn candidates() -> Vec<Layout> {
    let all = [octahedron(), signs([1.0, 1.0, 1.0])].concat();
    let mut layouts = Vec::new();
    for (i, a) in all.iter().enumerate() {
        for b in &all[i..] {
            layouts.push(layout(format!("candidates {a:?} {b:?}"), &[*a, *b]));
        }
        layouts.push(layout(
            format!("cube and octahedron without {a:?}"),
            &all.iter().filter(|p| *p != a).copied().collect::<Vec<_>>(),
        ));
    }
    layouts
}

// ---- edges

fn tolerance_edges() -> Vec<Layout> {
    let mut all = Vec::new();
    for e in edges() {
        let Tolerance { name, line, .. } = TOLERANCES[e.tolerance];
        for (number, positions) in e.number.iter().zip(&e.layouts) {
            let mirrored: Vec<Position> = positions.iter().map(|[x, y, z]| [-x, -y, *z]).collect();
            let reversed: Vec<Position> = positions.iter().rev().copied().collect();
            all.push(layout(
                format!("{name}, line {line}, at {number:e}"),
                positions,
            ));
            all.push(layout(
                format!("{name}, line {line}, at {number:e}, mirrored"),
                &mirrored,
            ));
            all.push(layout(
                format!("{name}, line {line}, at {number:e}, reversed"),
                &reversed,
            ));
        }
    }
    for k in 0..9 {
        all.push(layout(
            format!("four of a circle, {k} places in"),
            &third_of_four(f32::from_bits(0xc0a00000 - k)),
        ));
        all.push(layout(
            format!("four of a circle, {k} places out"),
            &third_of_four(f32::from_bits(0xc0a00000 + k)),
        ));
    }
    all
}

/// Rings and pairs at the planar limit, on both sides. Origin: vbap.rs line 52, in degrees 5.0019217.
fn planar_limit() -> Vec<Layout> {
    let mut all = Vec::new();
    for elevation in [5.0019, 5.00192, 5.001921, 5.001922, 5.00193, 5.002, 5.1] {
        for n in [2, 3, 8] {
            all.push(layout(
                format!("ring of {n} up {elevation}"),
                &ring(n, 0.0, elevation),
            ));
            all.push(layout(
                format!("ring of {n} down {elevation}"),
                &ring(n, 0.0, -elevation),
            ));
        }
        all.push(layout(
            format!("ring of 8, one up {elevation}"),
            &[ring(7, 0.0, 0.0), vec![at(20.0, elevation)]].concat(),
        ));
    }
    all
}

/// Positions on an axis with every choice of the zeros' signs.
fn zeros() -> Vec<Layout> {
    let signed = |[x, y, z]: Position| -> Vec<Position> {
        let both = |v: f32| if v == 0.0 { vec![0.0, -0.0] } else { vec![v] };
        let pairs = both(x)
            .into_iter()
            .flat_map(|x| both(y).into_iter().map(move |y| (x, y)));
        pairs
            .flat_map(|(x, y)| both(z).into_iter().map(move |z| [x, y, z]))
            .collect()
    };
    let mut all = Vec::new();
    for a in signed(BACK) {
        for b in signed(BACK) {
            all.push(layout(format!("{a:?} F {b:?}"), &[a, F, b]));
            all.push(layout(format!("{a:?} {b:?}"), &[a, b]));
        }
    }
    for (place, axis) in octahedron().into_iter().enumerate() {
        for p in signed(axis) {
            let mut positions = octahedron();
            positions[place] = p;
            all.push(layout(format!("octahedron with {p:?}"), &positions));
            all.push(layout(format!("{p:?} alone"), &[p]));
            all.push(layout(
                format!("{p:?} beside a raised speaker"),
                &[p, at(33.0, 21.0)],
            ));
        }
    }
    all.push(layout(
        "signed zeros only",
        &[[0.0, -0.0, 0.0], [-0.0, -0.0, -0.0], [0.0; 3]],
    ));
    all
}

fn coincident() -> Vec<Layout> {
    let same = |p: Position, n: usize| vec![p; n];
    let small = dome(&[(8, 0.0, 0.0), (4, 0.0, 40.0), (1, 0.0, 90.0)]);
    let mut all = Vec::new();
    for p in [F, TOP, [1.0, 1.0, 1.0], [0.3, 0.4, -0.5]] {
        for n in [2, 3, 4, 40] {
            all.push(layout(format!("{n} times {p:?}"), &same(p, n)));
            all.push(layout(
                format!("{n} times {p:?} and F"),
                &[same(p, n.min(39)), vec![F]].concat(),
            ));
        }
    }
    for (i, p) in octahedron().into_iter().enumerate() {
        all.push(layout(
            format!("octahedron, {i} again last"),
            &[octahedron(), vec![p]].concat(),
        ));
        all.push(layout(
            format!("octahedron, {i} again first"),
            &[vec![p], octahedron()].concat(),
        ));
        all.push(layout(
            format!("octahedron, {i} twice more"),
            &[octahedron(), vec![p, [p[0] * 2.0, p[1] * 2.0, p[2] * 2.0]]].concat(),
        ));
    }
    for (i, p) in small.iter().enumerate() {
        all.push(layout(
            format!("dome of 13, {i} again last"),
            &[small.clone(), vec![*p]].concat(),
        ));
        all.push(layout(
            format!("dome of 13, {i} again first"),
            &[vec![*p], small.clone()].concat(),
        ));
    }
    for n in [4, 5, 6, 8, 12] {
        all.push(layout(
            format!("ring of {n}, two at the zenith last"),
            &[ring(n, 22.5, 0.0), vec![TOP, TOP]].concat(),
        ));
        all.push(layout(
            format!("ring of {n}, two at the zenith first"),
            &[vec![TOP, TOP], ring(n, 22.5, 0.0)].concat(),
        ));
        all.push(layout(
            format!("ring of {n}, each twice"),
            &[ring(n, 0.0, 0.0), ring(n, 0.0, 0.0)].concat(),
        ));
        all.push(layout(
            format!("raised ring of {n}, each twice"),
            &[ring(n, 0.0, 20.0), ring(n, 0.0, 20.0)].concat(),
        ));
    }
    all.push(layout(
        "four speakers, silent hole",
        &[[-1.0, -1.0, -1.0], [-1.0, -1.0, 0.0], TOP, TOP],
    ));
    all
}

/// Document 01's proving ground, and inputs whose readings docs/DECISIONS.md tells.
fn documents() -> Vec<Layout> {
    let corners = [1.0, -1.0, 1.0, -1.0, 1.0, 1.0, -1.0, 1.0, -1.0];
    let numbers = |name: &str, numbers: Vec<f32>| Layout {
        name: name.to_string(),
        numbers,
        lfe: vec![],
    };
    vec![
        numbers("no positions", vec![]),
        layout("F alone", &[F]),
        Layout::new("F as LFE", &[F], &[0]),
        layout("1e-6 is dropped", &[[0.0, 0.0, 1e-6]]),
        layout("1e-5 is active", &[[0.0, 0.0, 1e-5]]),
        layout("F, F", &[F, F]),
        layout("F, F, F", &[F, F, F]),
        numbers("40 times F", repeated(&[], F, 40)),
        numbers("41 times F", repeated(&[], F, 41)),
        layout("forty well-spread speakers in front", &front(40)),
        layout("thirty-nine well-spread speakers in front", &front(39)),
        layout("thirty-eight well-spread speakers in front", &front(38)),
        numbers("three corners and 25 copies", repeated(&corners, LEFT, 25)),
        numbers("three corners and 26 copies", repeated(&corners, LEFT, 26)),
        numbers("three corners and 27 copies", repeated(&corners, LEFT, 27)),
        numbers("three corners and 37 copies", repeated(&corners, LEFT, 37)),
        layout("(-0, 0, 1), F, (0, 0, 1)", &[[-0.0, 0.0, 1.0], F, BACK]),
        layout(
            "forty in front, turned right",
            &front(40)
                .iter()
                .map(|[x, y, z]| [-z, *y, *x])
                .collect::<Vec<_>>(),
        ),
        layout(
            "forty in front, turned up",
            &front(40)
                .iter()
                .map(|[x, y, z]| [*x, -z, *y])
                .collect::<Vec<_>>(),
        ),
        layout(
            "forty in front, turned back",
            &front(40)
                .iter()
                .map(|[x, y, z]| [*x, *y, -z])
                .collect::<Vec<_>>(),
        ),
        layout(
            "forty in front in millimetres",
            &rounded(&front(40), 6.0, 1000.0),
        ),
    ]
}

/// Two or three speakers that need many imaginary ones: near, but not on, cube diagonals.
fn many_imaginary() -> Vec<Layout> {
    vec![
        layout(
            "two speakers, six imaginary",
            &[[-1.0, -1.0, -1.0001407], [1.0, -0.99999386, 1.0]],
        ),
        layout(
            "two speakers, seven imaginary",
            &[[-0.9999926, -1.0, -1.0], [1.0007308, -1.0004683, 1.0]],
        ),
        layout("two speakers, eight imaginary", &eight_imaginary()),
        layout(
            "three speakers, eight imaginary",
            &[
                [-1.0, -1.0, 0.99999714],
                [1.0, -1.0, -1.0000001],
                [1.0, -1.0, 1.0],
            ],
        ),
    ]
}

/// The two speakers with the most imaginary ones that were found.
pub fn eight_imaginary() -> Vec<Position> {
    vec![
        [1.0, -1.000003, -1.000024],
        [-1.0000017, -1.0000042, 0.9999982],
    ]
}

/// The layout with the most imaginary speakers that was found among those whose hull closes: one
/// beside the zenith, two next to opposite cube diagonals.
pub fn nine_imaginary() -> Vec<Position> {
    [
        [0xba9a_ad71u32, 0x3f80_0c25, 0x3a8d_b7f5],
        [0x3f7f_f9f3, 0xbf80_0331, 0xbf80_0232],
        [0xbf80_022c, 0x3f80_00b4, 0x3f80_006e],
    ]
    .map(|p| p.map(f32::from_bits))
    .to_vec()
}

// ---- hulls that stay open

/// The six axes in the candidates' order. Origin: vbap.rs lines 66 to 71.
pub const AXES: [Position; 6] = [TOP, [0.0, -1.0, 0.0], BACK, F, RIGHT, LEFT];

/// The eight corners of the cube, from (1, 1, 1) on, the last coordinate changing first.
pub fn corners() -> Vec<Position> {
    signs([1.0, 1.0, 1.0])
}

/// The fewest speakers found whose hull is open at the end: a speaker in each candidate's
/// direction, and the corners' a second time.
pub fn open_hull() -> Vec<Position> {
    [AXES.to_vec(), corners(), corners()].concat()
}

/// Four groups of speakers, each within 1e-6 of a corner of a tetrahedron of the cube, that lose
/// every face of every list: ten imaginary speakers are made, and the hull is still open. Origin:
/// searched, one group after the other, by the rule of docs/RATIONALE.md, section 2.
const GROUPS: [[u32; 3]; 35] = [
    [0x3f18_6edd, 0x3f18_6edd, 0x3f18_6edd],
    [0x3f7f_fa1d, 0x3f7f_fa1a, 0x3f7f_fa1e],
    [0x3f75_030a, 0x3f75_0310, 0x3f75_030c],
    [0x3f71_9ec6, 0x3f71_9ec2, 0x3f71_9eca],
    [0x3f6c_9a87, 0x3f6c_9a93, 0x3f6c_9a8a],
    [0x3f79_a239, 0x3f79_a233, 0x3f79_a235],
    [0x3f6a_949f, 0x3f6a_9496, 0x3f6a_9498],
    [0x3f67_7313, 0x3f67_7314, 0x3f67_731b],
    [0x3f21_3b69, 0x3f21_3b69, 0x3f21_3b64],
    [0xbf25_4a0f, 0xbf25_4a0f, 0x3f25_4a0f],
    [0xbf3d_70f6, 0xbf3d_70f3, 0x3f3d_70f2],
    [0xbf25_56ff, 0xbf25_5700, 0x3f25_5702],
    [0xbf72_5be1, 0xbf72_5be8, 0x3f72_5be2],
    [0xbf79_95f7, 0xbf79_9605, 0x3f79_95fa],
    [0xbf77_b1de, 0xbf77_b1df, 0x3f77_b1e6],
    [0xbf65_6c9b, 0xbf65_6c95, 0x3f65_6c92],
    [0xbf23_5e4f, 0xbf23_5e4d, 0x3f23_5e54],
    [0xbf4d_9ecb, 0xbf4d_9ec2, 0x3f4d_9ec0],
    [0x3f87_da81, 0xbf87_da81, 0xbf87_da81],
    [0x3f7c_3090, 0xbf7c_3091, 0xbf7c_3095],
    [0x3f55_f609, 0xbf55_f607, 0xbf55_f60e],
    [0x3f15_31bb, 0xbf15_31b9, 0xbf15_31b8],
    [0x3f57_5122, 0xbf57_511a, 0xbf57_511c],
    [0x3f7f_f944, 0xbf7f_f94c, 0xbf7f_f947],
    [0x3f8b_18f3, 0xbf8b_18fb, 0xbf8b_18f5],
    [0x3f42_bd2e, 0xbf42_bd2d, 0xbf42_bd36],
    [0x3f31_7f72, 0xbf31_7f6e, 0xbf31_7f6b],
    [0xbf4f_7c7e, 0x3f4f_7c7e, 0xbf4f_7c7e],
    [0xbf6f_5613, 0x3f6f_561a, 0xbf6f_5613],
    [0xbf83_9f9f, 0x3f83_9f9d, 0xbf83_9f9f],
    [0xbf8d_2337, 0x3f8d_2337, 0xbf8d_233a],
    [0xbf1a_a24c, 0x3f1a_a255, 0xbf1a_a24c],
    [0xbf5e_67af, 0x3f5e_67b0, 0xbf5e_67b8],
    [0xbf91_3418, 0x3f91_3413, 0xbf91_3416],
    [0xbf55_2f14, 0x3f55_2f0e, 0xbf55_2f0c],
];

/// The layout with ten imaginary speakers; its hull is open at the end.
pub fn ten_imaginary() -> Vec<Position> {
    GROUPS.iter().map(|p| p.map(f32::from_bits)).collect()
}

/// Six groups of speakers, each within 4e-6 of a place that is no candidate, that lose every face of
/// every list: all fourteen candidates become imaginary speakers, and the hull is still open. Origin:
/// searched, places first, then one group after the other (docs/RATIONALE.md, section 2).
const SIX_GROUPS: [[u32; 3]; 38] = [
    [0xc029_81d9, 0xbfe0_c5c3, 0x3fdf_0ec0],
    [0xc005_ade2, 0xbfb1_4367, 0x3faf_e931],
    [0xbfed_7095, 0xbf9d_6d4d, 0x3f9c_39d3],
    [0xbfce_1db4, 0xbf88_a895, 0x3f87_9da9],
    [0xc017_92f3, 0xbfc8_fe11, 0x3fc7_7578],
    [0xc037_ac95, 0xbff3_8f09, 0x3ff1_b359],
    [0xbfcb_cd22, 0xbf87_1fae, 0x3f86_17c9],
    [0xbfb1_f579, 0xbf6b_fae6, 0x3f6a_2e07],
    [0xc02b_0294, 0xbfe2_c40d, 0x3fe1_0921],
    [0xbf82_f3b4, 0xbf88_14aa, 0xbfcf_a593],
    [0xbfe8_ddfd, 0xbff1_fcc3, 0xc038_a018],
    [0xbfcd_3010, 0xbfd5_394d, 0xc022_ae1e],
    [0xbf3a_fe26, 0xbf42_5100, 0xbf94_412e],
    [0xbf4e_94d0, 0xbf56_ac16, 0xbfa3_c8ff],
    [0xbf86_828c, 0xbf8b_c72e, 0xbfd5_49be],
    [0x3fb4_000f, 0xbf99_4b84, 0xbf99_a919],
    [0x400b_9c31, 0xbfed_cb5f, 0xbfee_5c8d],
    [0x3f92_e8f9, 0xbf7a_3a67, 0xbf7a_d332],
    [0x3fe4_2826, 0xbfc2_4e95, 0xbfc2_c530],
    [0x3f9a_3ceb, 0xbf83_5ad8, 0xbf83_ab04],
    [0x3f60_8758, 0xbf3f_37f0, 0xbf3f_aca6],
    [0x3fb9_675a, 0x4030_0fdd, 0xbfb5_e068],
    [0x3ee7_bfb6, 0x3f5c_1276, 0xbee3_5711],
    [0x3f95_e79b, 0x400e_5a0d, 0xbf93_0d93],
    [0x3f3f_db4f, 0x3fb6_3094, 0xbf3c_34eb],
    [0x3f11_fa72, 0x3f8a_9f6b, 0xbf0f_3383],
    [0x3f53_a682, 0x3fc8_fc75, 0xbf4f_9fb3],
    [0xbfd5_21cf, 0x4025_635c, 0x3fdb_52f7],
    [0xbf40_52b0, 0x3f95_3d92, 0x3f45_e90e],
    [0xbef6_023a, 0x3f3e_e669, 0x3efd_27ec],
    [0xbfd9_c2d3, 0x4028_faee, 0x3fe0_1672],
    [0xbfb7_ff4c, 0x400e_c7aa, 0x3fbd_57c0],
    [0xbfe3_d52b, 0x4030_cb95, 0x3fea_739f],
    [0x3f11_e264, 0xbf0f_880d, 0x3f93_143c],
    [0x3f6a_3c9f, 0xbf66_757a, 0x3fec_27b7],
    [0x3f76_a77d, 0xbf72_ad0a, 0x3ff8_ac9c],
    [0x3efa_e897, 0xbef6_dc98, 0x3f7c_f683],
    [0x3f96_57e3, 0xbf93_eb2a, 0x4017_931a],
];

/// The layout whose loop ends with fourteen imaginary speakers and an open hull.
pub fn fourteen_imaginary() -> Vec<Position> {
    SIX_GROUPS.iter().map(|p| p.map(f32::from_bits)).collect()
}

/// The loop's ends beside the closed hull, and what lies next to them.
pub fn ends() -> Vec<Layout> {
    let beside: Vec<Position> = corners().into_iter().flat_map(|c| [c, c]).collect();
    let thrice = [corners(), corners(), corners()].concat();
    let lengths = [2.0, 0.5, 1.5].map(|by| corners().into_iter().map(move |p| p.map(|x| x * by)));
    let [double, half, more] = lengths.map(Iterator::collect::<Vec<Position>>);
    let off: Vec<Position> = AXES
        .iter()
        .map(|p| p.map(|x| if x == 0.0 { 0.0005 } else { x }))
        .collect();
    let mut all = vec![
        layout("three speakers, nine imaginary", &nine_imaginary()),
        layout("open hull", &open_hull()),
        layout(
            "open hull, a corner's two side by side",
            &[AXES.to_vec(), beside.clone()].concat(),
        ),
        layout(
            "open hull, corners thrice",
            &[AXES.to_vec(), thrice].concat(),
        ),
        layout(
            "open hull, each axis twice too",
            &[AXES.to_vec(), AXES.to_vec(), beside].concat(),
        ),
        layout(
            "open hull, corners at other distances",
            &[AXES.to_vec(), double, half].concat(),
        ),
        layout(
            "open hull, corners at a distance of no power of two",
            &[AXES.to_vec(), corners(), more].concat(),
        ),
        layout(
            "open hull, axes a little off",
            &[off, corners(), corners()].concat(),
        ),
        Layout::new(
            "open hull with an LFE among the corners",
            &[open_hull(), vec![[1.0, 1.0, 1.0]]].concat(),
            &[6],
        ),
        layout("open hull, ten imaginary", &ten_imaginary()),
        layout(
            "open hull, ten imaginary, without its last",
            &ten_imaginary()[..34],
        ),
        layout(
            "closed: axes and corners once",
            &[AXES.to_vec(), corners()].concat(),
        ),
        layout(
            "closed: corners before the axes",
            &[corners(), AXES.to_vec(), corners()].concat(),
        ),
        layout(
            "closed: axes last",
            &[corners(), corners(), AXES.to_vec()].concat(),
        ),
        layout(
            "closed: the axes twice, the corners once",
            &[corners(), AXES.to_vec(), AXES.to_vec()].concat(),
        ),
    ];
    for n in 0..AXES.len() + corners().len() {
        let mut fewer = open_hull();
        let gone = fewer.remove(n);
        all.push(layout(format!("open hull without its {gone:?}"), &fewer));
    }
    all.push(layout(
        "open hull, fourteen imaginary",
        &fourteen_imaginary(),
    ));
    all.push(layout(
        "open hull, fourteen imaginary, without its last",
        &fourteen_imaginary()[..37],
    ));
    all
}

/// Every count of numbers around the refusals.
fn lengths() -> Vec<Layout> {
    let circle = ring(45, 0.0, 0.0).concat();
    let counts = (0..16).chain(117..=130);
    counts
        .map(|n| Layout {
            name: format!("{n} numbers"),
            numbers: circle[..n].to_vec(),
            lfe: vec![],
        })
        .collect()
}

fn lfe_lists() -> Vec<Layout> {
    let small = || dome(&[(5, 0.0, 0.0), (2, 0.0, 45.0)]);
    let lists: [&[usize]; 12] = [
        &[0],
        &[6],
        &[7],
        &[3, 3, 3],
        &[1 << 63],
        &[u64::MAX as usize, 1 << 63, 7, 8],
        &[0, 1, 2, 3, 4, 5, 6],
        &[6, 5, 4, 3, 2, 1],
        &[1, 2, 3, 4, 5, 6],
        &[5, 6],
        &[256, 257, 1 << 32],
        &[0, 256, 0, 2, 1 << 63, 2],
    ];
    let all_forty: Vec<usize> = (0..40).collect();
    let mut all: Vec<Layout> = lists
        .iter()
        .map(|l| Layout::new(format!("LFE {l:?}"), &small(), l))
        .collect();
    all.push(Layout::new(
        "forty speakers, all LFE",
        &front(40),
        &all_forty,
    ));
    all.push(Layout::new(
        "forty speakers, all but one LFE",
        &front(40),
        &all_forty[..39],
    ));
    all.push(Layout::new(
        "forty speakers, all but two LFE",
        &front(40),
        &all_forty[..38],
    ));
    all.push(Layout::new(
        "forty in front, one of them LFE",
        &front(40),
        &[17],
    ));
    all.push(Layout {
        name: "LFE without positions".to_string(),
        numbers: vec![],
        lfe: vec![0, 1],
    });
    all.push(Layout {
        name: "refused with 1, with LFE".to_string(),
        numbers: vec![0.0; 4],
        lfe: vec![0],
    });
    all.push(Layout {
        name: "refused with 2, all LFE".to_string(),
        numbers: vec![1.0; 123],
        lfe: (0..41).collect(),
    });
    all
}

/// Broken, huge, tiny and subnormal numbers in each place.
fn values() -> Vec<Layout> {
    let nans = [0x7fc00000, 0x7f800001, 0xffc00000].map(f32::from_bits);
    let odd = [
        nans[0],
        nans[1],
        nans[2],
        f32::INFINITY,
        f32::NEG_INFINITY,
        f32::MAX,
        -f32::MAX,
        1e-45,
        -1e-45,
        1e-38,
        1e-6,
        1e30,
    ];
    let mut all = Vec::new();
    for v in odd {
        for place in 0..3 {
            let mut p = [0.25, 0.5, -1.0];
            p[place] = v;
            all.push(layout(format!("{p:?} among three"), &[F, p, RIGHT]));
            let mut q = [0.0; 3];
            q[place] = v;
            all.push(layout(
                format!("{q:?} among three"),
                &[at(40.0, 30.0), q, at(-40.0, 20.0)],
            ));
        }
        all.push(layout(format!("only {v:e}"), &[[v; 3]; 2]));
    }
    let scales = [1e-6, 1e-3, 1e3, 1e30, 3e38];
    all.extend(scales.map(|s| {
        layout(
            format!("octahedron times {s:e}"),
            &octahedron()
                .iter()
                .map(|p| p.map(|x| x * s))
                .collect::<Vec<_>>(),
        )
    }));
    all
}

/// Layouts as houses have them; the ordinary ones come first.
pub fn houses() -> Vec<Layout> {
    [standards(), rings(), domes(), prisms(), halves()].concat()
}

/// Every chosen layout; the draws only shuffle solids.
pub fn chosen(r: &mut Random) -> Vec<Layout> {
    [
        documents(),
        many_imaginary(),
        houses(),
        planes(),
        solids(r),
        candidates(),
        tolerance_edges(),
        planar_limit(),
        zeros(),
        coincident(),
        lengths(),
        lfe_lists(),
        values(),
        ends(),
    ]
    .concat()
}
