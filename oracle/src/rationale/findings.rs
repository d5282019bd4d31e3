//! Further numbers that docs/RATIONALE.md quotes: elevation over a ring, the crossfade's shape, how
//! far the candidates reach, angles beyond the pole, a back speaker with −0, and the take-back page.

use super::{
    built, change, degrees, direction, edge_panners, has_near, print_cover, real_triplets, row,
    rows, stored, summary, told, DIRECTIONS, SEED,
};
use crate::chosen_layouts::{eight_imaginary, five_around, nine_imaginary, raised_centre};
use crate::edges::{edges, Position, F, LEFT, RIGHT, TOP};
use crate::layouts::{at, fan, ordinary, ring, triples};
use crate::random::Random;
use crate::record::{Kind, Panner};
use crate::session::{open, Session};
use crate::source::take_lists;
use crate::source::vbap_measured::VbapPanner;
use crate::standins::{sin_cos32, PI64};
use crate::tolerances::{with, AXIS, DET, IMAGINARY, ORIGIN, PLANAR, POLE, TIE};

/// Either side of the planar band for a source, and a ring 4 degrees up without the band.
fn spread() {
    let quad = built(&fan(&[-45.0, 45.0, -135.0, 135.0], 0.0));
    for bits in [0x3db2ca58u32, 0x3db2ca59] {
        let el = f32::from_bits(bits);
        println!(
            "  quad at azimuth 45, elevation {}: {:?}",
            told(el),
            row(&quad, degrees(45.0), el, 4)
        );
    }
    let up = built(&ring(4, 0.0, 4.0));
    let at_speaker = || row(&up, 0.0, degrees(4.0), 4);
    println!(
        "  ring of 4 up 4, at its first speaker: {:.4?}; without the band: {:.4?}",
        at_speaker(),
        with(PLANAR, 0.0, at_speaker)
    );
}

/// The far speaker's gain in stereo's rear gap by the exponent of its shape.
fn crossfade_shape() {
    for az in [60.0, 90.0, 120.0, 150.0, 180.0] {
        let t = (az - 30.0) / 300.0;
        let far = |n: i32| {
            let shaped = f64::powi(t, n) / (f64::powi(t, n) + f64::powi(1.0 - t, n));
            (shaped * PI64 / 2.0).sin()
        };
        println!("  stereo at {az}: gain of the far speaker with exponent 1 {:.4}, 2 {:.4}, 4 {:.4}, 8 {:.4}", far(1), far(2), far(4), far(8));
    }
    let stereo = built(&[at(-30.0, 0.0), at(30.0, 0.0)]);
    rows(
        "stereo, as it is",
        &stereo,
        &[
            (60.0, 0.0),
            (90.0, 0.0),
            (120.0, 0.0),
            (150.0, 0.0),
            (180.0, 0.0),
        ],
    );
}

/// The fourteen candidates. Origin: vbap.rs lines 65 to 77.
fn candidates() -> Vec<[f64; 3]> {
    let h = 1.0 / 3.0f64.sqrt();
    let axes =
        (0..3).flat_map(|i| [1.0, -1.0].map(|s| [0, 1, 2].map(|c| if c == i { s } else { 0.0 })));
    let diagonals = (0..8).map(|n| [4, 2, 1].map(|bit| if n & bit == 0 { h } else { -h }));
    axes.chain(diagonals).collect()
}

fn dot(a: [f64; 3], b: [f64; 3]) -> f64 {
    a.iter().zip(b).map(|(x, y)| x * y).sum()
}

/// The distance of the plane through three points, outward where no candidate lies beyond it.
fn face_distance(all: &[[f64; 3]], [a, b, c]: [[f64; 3]; 3]) -> Option<f64> {
    let (u, v) = (
        [0, 1, 2].map(|i| b[i] - a[i]),
        [0, 1, 2].map(|i| c[i] - a[i]),
    );
    let n = [
        u[1] * v[2] - u[2] * v[1],
        u[2] * v[0] - u[0] * v[2],
        u[0] * v[1] - u[1] * v[0],
    ];
    let length = dot(n, n).sqrt();
    let d = dot(n, a) / length;
    let beyond = |p: &[f64; 3]| (dot(n, *p) / length) * d.signum() > d.abs() + 1e-9;
    (length > 1e-9 && !all.iter().any(beyond)).then_some(d.abs())
}

/// How far a direction may be from the next candidate, and the nearest face of their hull.
fn reach() {
    let all = candidates();
    let mut least = f64::INFINITY;
    for i in 0..14 {
        for j in 0..i {
            for k in 0..j {
                if let Some(d) = face_distance(&all, [all[i], all[j], all[k]]) {
                    least = least.min(d);
                }
            }
        }
    }
    println!("  hull of the fourteen candidates: its nearest face is {least:.4} from the listener, so no direction is farther than {:.2} degrees from one", least.acos() * 180.0 / PI64);
    let mut r = Random::new(SEED);
    let mut farthest = f64::INFINITY;
    for _ in 0..DIRECTIONS {
        let (az, el) = direction(&mut r);
        let ((sa, ca), (se, ce)) = (sin_cos32(az), sin_cos32(el));
        let s = [sa * ce, se, -ca * ce].map(f64::from);
        farthest = farthest.min(
            all.iter()
                .map(|c| dot(*c, s))
                .fold(f64::NEG_INFINITY, f64::max),
        );
    }
    println!(
        "    of {DIRECTIONS} directions the farthest is {:.2} degrees off",
        farthest.acos() * 180.0 / PI64
    );
    println!(
        "    1 - 1e-6 is {:.4} degrees; a face then stands at least {:.4} off",
        (1.0f64 - 1e-6).acos() * 180.0 / PI64,
        (least.acos() + (1.0f64 - 1e-6).acos()).cos()
    );
}

/// Imaginary speakers for which no real one stands in, and hulls of fewer than four points.
fn neighbours() {
    let (mut points, mut alone, mut most) = (0, 0, 0);
    for layout in stored() {
        let p = layout.opened().panner;
        points += p.num_imag;
        alone += p.num_nbrs[..p.num_imag].iter().filter(|&&n| n == 0).count();
        most = p.num_nbrs[..p.num_imag]
            .iter()
            .map(|&n| n as usize)
            .fold(most, usize::max);
    }
    println!("  {points} imaginary speakers of the stored layouts: {alone} without neighbours, at most {most} neighbours");
    let bottom: Position = [0.0, -1.0, 0.0];
    for (name, positions) in [
        ("top, bottom", vec![TOP, bottom]),
        ("top, bottom, front", vec![TOP, bottom, F]),
        ("(0.0014, 1, 0), front", vec![[0.0014, 1.0, 0.0], F]),
        ("(-0.0014, 1, 0), front", vec![[-0.0014, 1.0, 0.0], F]),
    ] {
        take_lists();
        let p = built(&positions);
        let lists: Vec<(usize, bool)> = take_lists().iter().map(|b| (b.length, b.closed)).collect();
        println!(
            "  {name}: lists (triplets, closed) {lists:?}; {}",
            summary(&p.record())
        );
    }
}

fn beyond_the_pole() {
    let quad = built(&fan(&[-45.0, 45.0, -135.0, 135.0], 0.0));
    rows(
        "quad, elevation beyond the pole",
        &quad,
        &[(45.0, 80.0), (45.0, 90.0), (45.0, 100.0), (45.0, 180.0)],
    );
    for o in ordinary()
        .iter()
        .filter(|o| o.name == "cube" || o.name == "7.1.4")
    {
        let p = VbapPanner::new(&o.positions, &o.lfe);
        rows(o.name, &p, &[(0.0, 30.0), (0.0, 150.0), (180.0, 30.0)]);
    }
}

/// A ring of 4 whose back speaker has x = +0 or −0.
fn back_speaker() {
    let with_back = |x: f32| built(&[F, RIGHT, [x, 0.0, 1.0], LEFT]);
    let (plus, minus) = (with_back(0.0), with_back(-0.0));
    for (name, p) in [("+0", &plus), ("-0", &minus)] {
        let r = p.record();
        let pairs: Vec<(u8, u8, f32)> = r.pairs[..r.num_pairs]
            .iter()
            .map(|q| (q.a, q.b, q.start))
            .collect();
        println!("  front, right, back with {name}, left: pairs (from, to, start) {pairs:?}");
    }
    let (mut bits, mut greatest) = (0, 0.0f32);
    for step in 0..36_000 {
        let az = degrees(-180.0 + step as f64 / 100.0);
        let (a, b) = (row(&plus, az, 0.0, 4), row(&minus, az, 0.0, 4));
        bits += usize::from(a.iter().zip(&b).any(|(x, y)| x.to_bits() != y.to_bits()));
        greatest = greatest.max(change(&a, &b));
    }
    println!("    36000 azimuths: {bits} rows differ in a bit, by at most {greatest:e}");
}

/// The greatest entry of a hull's inverses.
fn greatest_entry(p: &VbapPanner) -> f32 {
    p.record()
        .inv
        .as_flattened()
        .iter()
        .fold(0.0f32, |m, x| m.max(x.abs()))
}

/// Inverses next to the limits of distance and determinant, and the least square of a mixed gain.
fn entries() {
    for (name, tolerance) in [("distance", ORIGIN), ("determinant", DET)] {
        let [below, above] = edge_panners(tolerance).map(|p| greatest_entry(&p));
        println!("  greatest entry of an inverse either side of the {name}: {below:e}, {above:e}");
    }
    let base = five_around();
    let beside = [
        f32::from_bits(base[0][0].to_bits() + 1),
        base[0][1],
        base[0][2],
    ];
    let both = built(&[&base[..], &[beside]].concat());
    println!(
        "  greatest entry with a speaker one float beside another: {:e}",
        greatest_entry(&both)
    );
    let mut least = f32::INFINITY;
    for step in 0..=1000 {
        for dot in [0.0, 0.25, 0.5, 0.75, 1.0] {
            let t = step as f32 / 1000.0;
            least = least.min((1.0 - t) * (1.0 - t) + t * t + 2.0 * t * (1.0 - t) * dot);
        }
    }
    println!("  mixed gain: least square over 1001 t and 5 dot products {least}");
}

/// The direction of point p, from the inverse of a triplet that holds it.
fn point(r: &Panner, p: usize) -> Option<[f64; 3]> {
    let t = (0..r.num_tris).find(|&t| r.idx[t].contains(&(p as u8)))?;
    let m = r.inv[t].map(f64::from);
    let [a, b, c] = [0, 3, 6].map(|i| [m[i], m[i + 1], m[i + 2]]);
    let cross = |u: [f64; 3], v: [f64; 3]| {
        [
            u[1] * v[2] - u[2] * v[1],
            u[2] * v[0] - u[0] * v[2],
            u[0] * v[1] - u[1] * v[0],
        ]
    };
    let det = dot(a, cross(b, c));
    let columns = [cross(b, c), cross(c, a), cross(a, b)];
    let corner = r.idx[t].iter().position(|&i| i as usize == p)?;
    Some(columns[corner].map(|x| (x / det * 1000.0).round() / 1000.0 + 0.0))
}

fn print_imaginary(name: &str, positions: &[Position]) {
    let r = built(positions).record();
    let found: Vec<Option<[f64; 3]>> = (0..r.num_imag).map(|k| point(&r, r.num_real + k)).collect();
    let words: Vec<String> = found
        .iter()
        .map(|d| d.map_or("in no triplet".to_string(), |d| format!("{d:?}")))
        .collect();
    println!("  imaginary speakers of {name}: {}", words.join(", "));
}

fn imaginary_directions() {
    for e in edges().iter().filter(|e| e.tolerance == TIE) {
        for (number, positions) in e.number.iter().zip(&e.layouts) {
            print_imaginary(&format!("two speakers, x {}", told(*number)), positions);
        }
    }
    print_imaginary(
        "three in front",
        &[at(-30.0, 0.0), at(30.0, 0.0), at(0.0, 40.0)],
    );
    print_imaginary("front-only, raised centre", &raised_centre(5.0));
    print_imaginary("two speakers that need eight", &eight_imaginary());
    print_imaginary("three speakers that need nine", &nine_imaginary());
}

/// Stored layouts that another limit of the axis changes: how near their speakers stand.
fn axis() {
    for layout in stored() {
        let new = || {
            VbapPanner::new(&triples(&layout.numbers), &layout.lfe)
                .record()
                .words()
        };
        if with(AXIS, 0.6, new) != new() {
            println!(
                "  axis 0.6 changes a layout of {} speakers: two of them within 0.001 {}",
                layout.numbers.len() / 3,
                has_near(&layout.opened().panner)
            );
        }
    }
}

/// How a ring of 8 changes when one speaker is raised past the planar limit.
fn raised() {
    let with_first = |up: f64| {
        let mut all = ring(8, 0.0, 0.0);
        all[0] = at(0.0, up);
        built(&all)
    };
    let (level, hull) = (with_first(5.0), with_first(5.01));
    println!(
        "  ring of 8, the first up 5.00: {}; up 5.01: {}",
        summary(&level.record()),
        summary(&hull.record())
    );
    let (mut greatest, mut place) = (0.0f32, 0.0);
    for step in 0..3600 {
        let az = step as f64 / 10.0;
        let (a, b) = (
            row(&level, degrees(az), 0.0, 8),
            row(&hull, degrees(az), 0.0, 8),
        );
        let change = change(&a, &b);
        if change > greatest {
            (greatest, place) = (change, az);
        }
    }
    println!("    on the horizon a gain changes by up to {greatest:.4}, at azimuth {place}");
    rows("up 5.00", &level, &[(place, 0.0), (0.0, 0.0), (0.0, 45.0)]);
    rows("up 5.01", &hull, &[(place, 0.0), (0.0, 0.0), (0.0, 45.0)]);
}

/// A face of four corners: which diagonal divides it, and what its middle plays.
fn diagonals() {
    let four = [
        at(-30.0, 20.0),
        at(30.0, 20.0),
        at(-30.0, -20.0),
        at(30.0, -20.0),
    ];
    rows(
        "four of a rectangle",
        &built(&four),
        &[(0.0, 0.0), (-10.0, 5.0), (10.0, 5.0)],
    );
    let turned = [four[1], four[0], four[3], four[2]];
    rows(
        "the same, left and right exchanged in the list",
        &built(&turned),
        &[(0.0, 0.0)],
    );
    for o in ordinary().iter().filter(|o| o.name == "7.1.4") {
        rows(
            "7.1.4, behind and up",
            &VbapPanner::new(&o.positions, &o.lfe),
            &[(180.0, 22.5), (170.0, 22.5), (-170.0, 22.5)],
        );
    }
}

/// Left, right and a centre raised by some degrees.
fn front_three(by: f64) -> VbapPanner {
    built(&[at(-30.0, 0.0), at(30.0, 0.0), at(0.0, by)])
}

/// Whether the three are a face, or the pole below has taken it.
fn own_face(by: f64) -> bool {
    real_triplets(&front_three(by).record()).contains(&[0, 1, 2])
}

fn raised_front() {
    for by in [5.0, 5.1, 8.0, 9.0, 12.0] {
        let p = front_three(by);
        let name = format!(
            "left, right, centre up {by}: {}, their own face {}",
            summary(&p.record()),
            own_face(by)
        );
        rows(&name, &p, &[(0.0, 0.0), (10.0, 0.0), (0.0, 2.0)]);
    }
    let (mut without, mut face) = (8.0, 9.0);
    while face - without > 1e-4 {
        let middle = (without + face) / 2.0;
        if own_face(middle) {
            face = middle;
        } else {
            without = middle;
        }
    }
    println!("  the three are a face from {face:.3} degrees on");
}

/// Two zenith speakers behind a ring, by the direction in which the ring is listed.
fn doubled_zenith() {
    for (name, turn) in [("right", 1.0), ("left", -1.0)] {
        let round: Vec<Position> = (0..8).map(|i| at(turn * 45.0 * i as f64, 0.0)).collect();
        let p = built(&[round, vec![TOP, TOP]].concat());
        print_cover(
            &format!("ring of 8 listed to the {name}, two zenith speakers last"),
            &p,
        );
        rows("its zenith", &p, &[(0.0, 90.0), (10.0, 60.0)]);
    }
}

/// A dome without a zenith speaker: the pole above takes the place of the top ring's own face.
fn over_the_top_ring() {
    for n in [3, 4, 6] {
        let dome = [ring(8, 0.0, 0.0), ring(n, 0.0, 60.0)].concat();
        let directions = [(0.0, 90.0), (0.0, 75.0), (180.0 / n as f64, 75.0)];
        rows(
            &format!("ring of 8 and ring of {n} at 60"),
            &built(&dome),
            &directions,
        );
        let alone = with(POLE, 2.0, || with(IMAGINARY, 0.0, || built(&dome)));
        rows("its real speakers alone", &alone, &directions);
    }
}

// ---- taking back

/// Quad, one source, rendered by blocks of one sample of 1.
fn quad_session() -> Option<Session> {
    let positions = fan(&[-45.0, 45.0, -135.0, 135.0], 0.0);
    open(&positions.concat(), &[], 1).2
}

fn block(s: &mut Session) -> u8 {
    s.render(1, &[1.0], &mut [0.0; 4])
}

/// The calls of docs/RATIONALE.md, section 4.
fn taking_back() -> Option<()> {
    let (mut long, mut short) = (quad_session()?, quad_session()?);
    let right = degrees(90.0);
    let numbers = [
        long.take_back(0),
        long.place(0, 0.0, 0.0),
        long.place(0, right, 0.0),
        block(&mut long),
        long.take_back(0),
        long.settle(0),
        long.place(1, 0.0, 0.0),
        block(&mut long),
    ];
    let direct = [short.place(0, 0.0, 0.0), block(&mut short)];
    println!(
        "  the long way {numbers:?}, straight {direct:?}: equal in every field {}",
        long.words() == short.words()
    );
    let mut kept = quad_session()?;
    let earlier = [
        kept.place(0, 0.0, 0.0),
        kept.place(0, right, 0.0),
        block(&mut kept),
        kept.take_back(0),
    ];
    println!(
        "  without the last render {earlier:?}: equal {}",
        kept.words() == short.words()
    );
    let over = |az: f64| {
        let mut s = quad_session()?;
        let numbers = [
            s.place(0, degrees(az), degrees(90.0)),
            block(&mut s),
            s.take_back(0),
        ];
        Some((numbers, s.words()))
    };
    let (a, b) = (over(0.0)?, over(90.0)?);
    println!(
        "  rendered over the pole at azimuth 0 and 90, then taken back {:?}: equal {}",
        a.0,
        a.1 == b.1
    );
    let placed = |az: f32| {
        let mut s = quad_session()?;
        s.place(0, az, 0.0);
        Some(s.words())
    };
    println!(
        "  placed at azimuth +0 and -0: equal {}",
        placed(0.0)? == placed(-0.0)?
    );
    Some(())
}

pub fn report() {
    println!("# elevation, crossfade, candidates");
    entries();
    axis();
    imaginary_directions();
    spread();
    crossfade_shape();
    reach();
    neighbours();
    beyond_the_pole();
    back_speaker();
    raised();
    diagonals();
    raised_front();
    doubled_zenith();
    over_the_top_ring();
    let hulls = stored()
        .iter()
        .filter(|l| l.opened().panner.kind == Kind::Hull)
        .count();
    println!("  {hulls} of the stored layouts are hulls");
    println!("# taking back");
    if taking_back().is_none() {
        println!("  quad was refused");
    }
}
