//! The numbers that docs/RATIONALE.md quotes, in its order, and docs/DIFFERENCES.md: `oracle rationale` prints them.
//! Experiments run on `vbap_measured`, which is the source while no tolerance is changed.

mod differences;
mod ends;
mod findings;

use crate::chosen_layouts::{
    eight_imaginary, five_around, nine_imaginary, raised_centre, rounded, wall,
};
use crate::edges::{edges, third_of_four, Edge, Position, F, TOP};
use crate::layout_line::Layout;
use crate::layouts::{at, front, opened, ring, triples};
use crate::lists::lists;
use crate::random::Random;
use crate::record::{Kind, Panner, MAX_TRIPLETS};
use crate::source::take_lists;
use crate::source::vbap_measured::{normalized_lerp_gain, ramp_add, VbapPanner};
use crate::standins::{atan2, rem_euclid32, sin64, sin_cos32, PI64};
use crate::tolerances::*;

/// Directions of each measured share, and the draws' seed (arbitrary).
const DIRECTIONS: usize = 20_000;
const SEED: u64 = 0x401;
/// A direction counts as a hole where even the best triplet has a gain below this.
const HOLE: f32 = -0.001;

fn degrees(x: f64) -> f32 {
    (x * PI64 / 180.0) as f32
}

fn told(x: f32) -> String {
    format!("{x:e} ({:08x})", x.to_bits())
}

fn built(positions: &[Position]) -> VbapPanner {
    VbapPanner::new(positions, &[])
}

/// The row of a direction in radians into a buffer of n.
fn row(p: &VbapPanner, az: f32, el: f32, n: usize) -> Vec<f32> {
    let mut out = vec![0.0; n];
    p.gains(az, el, &mut out);
    out
}

/// The greatest change of a gain between two rows.
fn change(a: &[f32], b: &[f32]) -> f32 {
    let changes = a.iter().zip(b).map(|(x, y)| (x - y).abs());
    changes.fold(0.0, f32::max)
}

/// The row of a direction in degrees, rounded for reading.
fn row_at(p: &VbapPanner, az: f64, el: f64) -> String {
    let gains = row(p, degrees(az), degrees(el), p.num_outputs());
    let words: Vec<String> = gains.iter().map(|g| format!("{g:.4}")).collect();
    format!("({az}, {el}): {}", words.join(" "))
}

fn rows(name: &str, p: &VbapPanner, directions: &[(f64, f64)]) {
    println!("  {name}");
    for (az, el) in directions {
        println!("    {}", row_at(p, *az, *el));
    }
}

/// Kind and counts of a layout.
fn summary(p: &Panner) -> String {
    match p.kind {
        Kind::Silent => "silent".to_string(),
        Kind::Mono => "mono".to_string(),
        Kind::Planar => {
            let laws = p.pairs[..p.num_pairs].iter().map(|q| {
                if q.law.is_some() {
                    "inverse"
                } else {
                    "crossfade"
                }
            });
            format!(
                "planar, {} pairs: {}",
                p.num_pairs,
                laws.collect::<Vec<_>>().join(", ")
            )
        }
        Kind::Hull => format!("hull, {} triplets, {} imaginary", p.num_tris, p.num_imag),
    }
}

/// The triplets of real speakers alone.
fn real_triplets(p: &Panner) -> Vec<[u8; 3]> {
    p.idx[..p.num_tris]
        .iter()
        .filter(|t| t.iter().all(|&i| (i as usize) < p.num_real))
        .copied()
        .collect()
}

// ---- what a layout leaves uncovered

/// The greatest smallest gain over the triplets. Origin: vbap.rs lines 514 to 531.
fn best_gain(p: &Panner, az: f32, el: f32) -> f32 {
    let ((sa, ca), (se, ce)) = (sin_cos32(az), sin_cos32(el));
    let s = [sa * ce, se, -ca * ce];
    let gain = |m: &[f32]| m[0] * s[0] + m[1] * s[1] + m[2] * s[2];
    let least = |m: &[f32; 9]| gain(&m[..3]).min(gain(&m[3..6])).min(gain(&m[6..]));
    p.inv[..p.num_tris]
        .iter()
        .map(least)
        .fold(f32::NEG_INFINITY, f32::max)
}

/// A direction drawn evenly over the sphere.
fn direction(r: &mut Random) -> (f32, f32) {
    loop {
        let [x, y, z] = [0, 1, 2].map(|_| r.within(-1.0, 1.0));
        let square = x * x + y * y + z * z;
        if square > 0.01 && square <= 1.0 {
            return (atan2(x, -z) as f32, atan2(y, (x * x + z * z).sqrt()) as f32);
        }
    }
}

/// Shares of the sphere in holes and silent, and the greatest change of a gain over 0.01 degrees.
struct Cover {
    holes: usize,
    silent: usize,
    jump: f32,
    silent_at: Option<(f32, f32)>,
}

fn cover(p: &VbapPanner) -> Cover {
    let (record, n, mut r) = (p.record(), p.num_outputs(), Random::new(SEED));
    let mut c = Cover {
        holes: 0,
        silent: 0,
        jump: 0.0,
        silent_at: None,
    };
    for _ in 0..DIRECTIONS {
        let (az, el) = direction(&mut r);
        let (here, beside) = (row(p, az, el, n), row(p, az + degrees(0.01), el, n));
        c.holes += usize::from(best_gain(&record, az, el) < HOLE);
        if here.iter().all(|g| *g == 0.0) {
            c.silent += 1;
            c.silent_at.get_or_insert((az, el));
        }
        c.jump = c.jump.max(change(&here, &beside));
    }
    c
}

fn print_cover(name: &str, p: &VbapPanner) {
    let c = cover(p);
    let share = |n: usize| 100.0 * n as f64 / DIRECTIONS as f64;
    println!(
        "  {name}: {}; holes {:.1} %, silent {:.2} % of the sphere; greatest change of a gain over 0.01 degrees {:.3}",
        summary(&p.record()),
        share(c.holes),
        share(c.silent),
        c.jump
    );
    if let Some((az, el)) = c.silent_at {
        println!("    silent at azimuth {}, elevation {}", told(az), told(el));
    }
}

// ---- over the stored layouts

/// The layouts of every stored list that `new` accepts.
fn stored() -> Vec<Layout> {
    let all = lists().flat_map(|l| l.layouts());
    all.filter(|l| l.opened().refusal == 0).collect()
}

/// A layout's record in words; the list lengths alone where one is beyond 80.
fn words(l: &Layout) -> Vec<u64> {
    take_lists();
    let p = VbapPanner::new(&triples(&l.numbers), &l.lfe);
    let lists = take_lists();
    if lists.iter().any(|b| b.length > MAX_TRIPLETS) {
        return lists.iter().map(|b| b.length as u64).collect();
    }
    p.record().words()
}

/// How often each test of `new` is met over the stored layouts, and how many records change
/// with another value. A negative value of a bound from below never holds.
fn over_stored() -> Result<(), String> {
    let layouts = stored();
    take_outcomes();
    let records: Vec<Vec<u64>> = layouts.iter().map(words).collect();
    let outcomes = take_outcomes();
    if layouts
        .iter()
        .zip(&records)
        .any(|(l, r)| l.opened().panner.words() != *r)
    {
        return Err("vbap_measured is not vbap_standins".to_string());
    }
    println!("over the {} stored layouts that new accepts: tests of new met, not met; records changed by another value", layouts.len());
    let others: [(usize, f64); 21] = [
        (UNIT, 0.0),
        (PLANAR, 0.0),
        (VBAP_GAP, f64::INFINITY),
        (SECOND_GAP, -1.0),
        (SECOND_GAP, 6.0),
        (COINCIDENT, -1.0),
        (PAIR_DET, -1.0),
        (EPS, 0.0),
        (EPS, 1e-12),
        (EPS, 1e-5),
        (NORMAL, -1.0),
        (ORIGIN, 0.0),
        (AXIS, 2.0),
        (AXIS, 0.6),
        (DET, -1.0),
        (POLE, -1.0),
        (CANDIDATE, -1.0),
        (TIE, 0.0),
        (IMAGINARY, 15.0),
        (IMAGINARY, 7.0),
        (IMAGINARY, 3.0),
    ];
    for (n, value) in others {
        let changed = layouts
            .iter()
            .zip(&records)
            .filter(|(l, r)| with(n, value, || words(l)) != **r)
            .count();
        let Tolerance {
            name,
            line,
            value: own,
        } = TOLERANCES[n];
        let [not_met, met] = outcomes[n];
        println!("  {name} (line {line}, {own:e}): met {met}, not met {not_met}; {value:e} changes {changed}");
    }
    Ok(())
}

/// Greatest change of a gain over some directions where ties between candidates are not kept.
fn without_ties() {
    let (mut records, mut audible, mut r) = (0, 0, Random::new(SEED));
    for layout in stored() {
        let new = || VbapPanner::new(&triples(&layout.numbers), &layout.lfe);
        let (p, q) = (new(), with(TIE, 0.0, new));
        let n = p.num_outputs();
        if with(TIE, 0.0, || words(&layout)) != words(&layout) {
            records += 1;
            let differ = |(az, el)| {
                row(&p, az, el, n)
                    .iter()
                    .zip(row(&q, az, el, n))
                    .any(|(a, b)| (a - b).abs() > 0.01)
            };
            audible += usize::from((0..300).any(|_| differ(direction(&mut r))));
        }
    }
    println!("  equal candidates: of {records} records that 0 changes, {audible} have a gain that changes by more than 0.01");
}

/// Whether two directions are less than 0.001 apart.
fn near(d: &Position, e: &Position) -> bool {
    let squares = d
        .iter()
        .zip(e)
        .map(|(a, b)| (*a as f64 - *b as f64) * (*a as f64 - *b as f64));
    squares.sum::<f64>() < 1e-6
}

/// Whether two real points of a hull are less than 0.001 apart.
fn has_near(p: &Panner) -> bool {
    let dirs = &p.pt_dir[..p.num_real];
    dirs.iter()
        .enumerate()
        .any(|(i, d)| dirs[..i].iter().any(|e| near(d, e)))
}

/// Speakers that stand alone by 0.001 and do not sound with gain 1 in their own direction.
fn own_direction() {
    let (mut speakers, mut weak, mut beside, mut least) = (0, 0, 0, 1.0f32);
    for layout in stored() {
        let record = layout.opened().panner;
        if record.kind != Kind::Hull {
            continue;
        }
        let (p, n) = (
            VbapPanner::new(&triples(&layout.numbers), &layout.lfe),
            record.num_real,
        );
        for (i, d) in record.pt_dir[..n].iter().enumerate() {
            if record.pt_dir[..n]
                .iter()
                .enumerate()
                .any(|(j, e)| j != i && near(d, e))
            {
                continue;
            }
            let [x, y, z] = d.map(f64::from);
            let gains = row(
                &p,
                atan2(x, -z) as f32,
                atan2(y, (x * x + z * z).sqrt()) as f32,
                record.num_outputs,
            );
            let gain = gains[record.pt_out[i] as usize];
            speakers += 1;
            weak += usize::from(gain < 0.999);
            beside += usize::from(gain < 0.999 && has_near(&record));
            least = least.min(gain);
        }
    }
    println!("  {speakers} speakers of hulls, 0.001 or more from the next: {weak} have a gain below 0.999 in their own direction, the least {least:.3}; {beside} of these in layouts with two speakers nearer than that");
}

/// Imaginary speakers and closed hulls over the stored layouts.
fn imaginary_over_stored() {
    let (mut counts, mut open, mut without_triplets) = ([0usize; 15], 0, 0);
    for layout in stored() {
        let given = layout.opened();
        if given.panner.kind == Kind::Hull {
            counts[given.imaginary] += 1;
            open += usize::from(given.lists.last().is_some_and(|b| !b.closed));
            without_triplets += usize::from(given.panner.num_tris == 0);
        }
    }
    println!("hulls by imaginary speakers, 0 to 14: {counts:?}; still open at the end {open}; without a triplet {without_triplets}");
}

// ---- the tolerances one by one

fn print_edge(e: &Edge) {
    let Tolerance { name, line, value } = TOLERANCES[e.tolerance];
    println!("{name} (line {line}, {value:e})");
    for (number, positions) in e.number.iter().zip(&e.layouts) {
        take_outcomes();
        let record = built(positions).record();
        let [not_met, met] = take_outcomes()[e.tolerance];
        println!(
            "  {}: {}; test met {met}, not met {not_met}",
            told(*number),
            summary(&record)
        );
    }
}

/// A dome of 12 with one more channel at the origin, not named as LFE.
fn at_the_origin() {
    let dome = [ring(8, 0.0, 0.0), ring(4, 0.0, 45.0), vec![[0.0; 3]]].concat();
    for value in [TOLERANCES[UNIT].value, -1.0] {
        take_lists();
        with(UNIT, value, || built(&dome));
        let lengths: Vec<usize> = take_lists().iter().map(|b| b.length).collect();
        println!("  dome of 12 and a channel at the origin, unit {value:e}: lists of {lengths:?} triplets");
    }
}

fn planar_and_gap() {
    let stereo = [at(-30.0, 0.0), at(30.0, 0.0)];
    let [low, high] = edge_panners(PLANAR);
    rows(
        "planar limit, planar",
        &low,
        &[(0.0, 0.0), (90.0, 5.0), (180.0, 0.0)],
    );
    rows(
        "planar limit, hull",
        &high,
        &[(0.0, 0.0), (90.0, 5.0), (180.0, 0.0)],
    );
    // 1 mm in 3 m.
    let uneven = [[-1.5, 0.001, -2.6], [1.5, 0.0, -2.6]];
    let directions = [(0.0, 0.0), (110.0, 0.0), (180.0, 0.0), (0.0, 45.0)];
    rows("stereo, the left one 1 mm up", &built(&uneven), &directions);
    rows(
        "the same without the planar limit",
        &with(PLANAR, 0.0, || built(&uneven)),
        &directions,
    );
    let [crossfade, inverse] = edge_panners(VBAP_GAP);
    rows(
        "gap just above the limit",
        &crossfade,
        &[(0.1, 0.0), (1.0, 0.0), (10.0, 0.0), (90.0, 0.0)],
    );
    rows(
        "gap just below the limit",
        &inverse,
        &[(0.1, 0.0), (1.0, 0.0), (10.0, 0.0), (90.0, 0.0)],
    );
    rows(
        "two speakers 179 degrees apart",
        &built(&[at(0.0, 0.0), at(179.0, 0.0)]),
        &[(10.0, 0.0), (45.0, 0.0)],
    );
    rows("stereo", &built(&stereo), &[(180.0, 0.0)]);
    rows(
        "stereo, inverse for every gap",
        &with(VBAP_GAP, f64::INFINITY, || built(&stereo)),
        &[(180.0, 0.0)],
    );
}

/// The two layouts of a tolerance's first edge.
fn edge_panners(tolerance: usize) -> [VbapPanner; 2] {
    let e = edges()
        .into_iter()
        .find(|e| e.tolerance == tolerance)
        .expect("an edge");
    e.layouts.map(|p| built(&p))
}

fn coincident_pairs() {
    let back_two = [[-0.0, 0.0, 1.0], [1e-10, 0.0, 1.0]];
    println!(
        "  second gap: two speakers 1e-10 apart at the back: {}",
        summary(&built(&back_two).record())
    );
    let two = || summary(&built(&[F, F]).record());
    println!(
        "  F, F: {}; without the second gap: {}",
        two(),
        with(SECOND_GAP, -1.0, two)
    );
    let three = [F, F, [1.0, 0.0, 0.0]];
    rows(
        "F, F and right",
        &built(&three),
        &[(0.0, 0.0), (45.0, 0.0), (-45.0, 0.0)],
    );
    rows(
        "the same, pairs of any gap",
        &with(COINCIDENT, -1.0, || built(&three)),
        &[(0.0, 0.0), (45.0, 0.0), (-45.0, 0.0)],
    );
    // The least gap of a pair is 1e-6, the greatest with an inverse pi - 1e-3.
    println!(
        "  least determinant of a pair: sin(1e-6) = {:e}, sin(pi - 1e-3) = {:e}",
        sin64(1e-6),
        sin64(PI64 - 1e-3)
    );
}

/// Shares of two-ring domes with holes, by the decimals their positions are rounded to and by
/// how far the upper ring is turned, in steps of the ring.
fn domes_by_decimals(turned: f64) {
    for places in [1e2, 1e3, 1e4, 1e5, 1e6, 1e7, 1e8] {
        let (mut holes, mut all) = (0, 0);
        for radius in [1.0, 2.5, 4.0] {
            for n in [3, 4, 5, 6, 8, 12] {
                for elevation in [20.0, 30.0, 40.0, 45.0, 60.0] {
                    for first in [0.0, 7.5, 11.25, 15.0, 20.0, 22.5, 30.0, 45.0] {
                        let upper = first + turned * 360.0 / n as f64;
                        let two = [ring(n, first, 0.0), ring(n, upper, elevation)].concat();
                        all += 1;
                        holes +=
                            usize::from(has_hole(&built(&rounded(&two, radius, places)).record()));
                    }
                }
            }
        }
        println!("  two rings of 3 to 12, the upper turned by {turned} steps, radius 1 to 4 m, rounded to 1/{places} m: {holes} of {all} have a hole");
    }
}

fn has_hole(p: &Panner) -> bool {
    let mut r = Random::new(SEED);
    (0..1500).any(|_| {
        let (az, el) = direction(&mut r);
        best_gain(p, az, el) < HOLE
    })
}

/// Two rings of 6 on a radius of 4 m, positions to the millimetre.
fn millimetre_dome() -> Vec<Position> {
    rounded(
        &[ring(6, 11.25, 0.0), ring(6, 11.25, 60.0)].concat(),
        4.0,
        1000.0,
    )
}

fn faces() {
    for z in [
        0xc0a00000u32,
        0xc09fffff,
        0xc09ffffe,
        0xc09ffffd,
        0xc09ffffc,
    ] {
        let p = built(&third_of_four(f32::from_bits(z)));
        println!(
            "  third of four at z {}: triplets of real speakers {:?}",
            told(f32::from_bits(z)),
            real_triplets(&p.record())
        );
        print_cover("it", &p);
    }
    print_cover("first of four moved in by one place", &edge_panners(EPS)[1]);
    print_cover(
        "dome of two rings of 6, as computed",
        &built(&[ring(6, 11.25, 0.0), ring(6, 11.25, 60.0)].concat()),
    );
    let dome = built(&millimetre_dome());
    print_cover("dome of two rings of 6, 4 m, millimetres", &dome);
    rows("its rows", &dome, &[(-23.472, 43.499), (-23.461, 43.499)]);
    domes_by_decimals(0.0);
    domes_by_decimals(0.5);
    let two = |n, el| [ring(n, 0.0, 0.0), ring(n, 0.0, el)].concat();
    let wrong = |eps: f64| {
        let all = [4, 6, 8, 12]
            .into_iter()
            .flat_map(|n| [20.0, 30.0, 40.0, 45.0, 60.0].map(|el| two(n, el)));
        all.filter(|p| has_hole(&with(EPS, eps, || built(p).record())))
            .count()
    };
    println!(
        "  of 20 two-ring domes as computed, with a hole: EPS 1e-7 {}, EPS 0 {}",
        wrong(1e-7),
        wrong(0.0)
    );
    let cube: Vec<Position> = (0..8)
        .map(|n| [4, 2, 1].map(|bit| if n & bit == 0 { -1.0 } else { 1.0 }))
        .collect();
    println!(
        "  cube: {}; with the x axis always: {}",
        summary(&built(&cube).record()),
        summary(&with(AXIS, 2.0, || built(&cube).record()))
    );
}

fn degenerate() {
    let two = [F, F, TOP];
    for (n, d) in [(1e-9, 1e-9), (-1.0, 1e-9), (1e-9, -1.0), (-1.0, -1.0)] {
        let p = with(NORMAL, n, || with(DET, d, || built(&two)));
        let finite = p.record().inv.as_flattened().iter().all(|x| x.is_finite());
        println!(
            "  F, F, top with normal {n:e}, determinant {d:e}: {}, all finite {finite}",
            summary(&p.record())
        );
    }
    let [open, closed] = edge_panners(ORIGIN);
    rows(
        "left and right a hair behind, below the limit",
        &open,
        &[(90.0, 0.0), (100.0, 0.0), (135.0, 0.0)],
    );
    rows(
        "above it",
        &closed,
        &[(90.0, 0.0), (100.0, 0.0), (135.0, 0.0)],
    );
    let flat = [[-1.0, 0.0, 0.0], [1.0, 0.0, 0.0], [0.0, 1.0, -1.0]];
    rows(
        "exactly at the sides",
        &built(&flat),
        &[(135.0, 0.0), (180.0, 0.0)],
    );
    rows(
        "the same without the test",
        &with(ORIGIN, 0.0, || built(&flat)),
        &[(135.0, 0.0), (180.0, 0.0)],
    );
    print_near_coincident();
}

/// Two speakers a few places apart: the greatest change that the second makes to the others' gains.
fn print_near_coincident() {
    let base = five_around();
    let alone = built(&base);
    for places in [1u32, 5, 20, 100, 1000] {
        let mut beside = base[0];
        beside[0] = f32::from_bits(beside[0].to_bits() + places);
        let both = built(&[&base[..], &[beside]].concat());
        let mut greatest = 0.0f32;
        for step in 0..2000 {
            let t = step as f64 / 2000.0;
            let v = [0, 1, 2].map(|c| base[0][c] as f64 * (1.0 - t) + base[4][c] as f64 * t);
            let (az, el) = (
                atan2(v[0], -v[2]) as f32,
                atan2(v[1], (v[0] * v[0] + v[2] * v[2]).sqrt()) as f32,
            );
            let (a, b) = (row(&both, az, el, 6), row(&alone, az, el, 5));
            greatest = (1..5).map(|i| (a[i] - b[i]).abs()).fold(greatest, f32::max);
        }
        println!(
            "  a second speaker {:e} beside the first: other gains change by up to {greatest:.4}",
            beside[0] - base[0][0]
        );
    }
}

fn closing() {
    let [on, off] = edge_panners(POLE);
    rows(
        "zenith speaker within the tolerance",
        &on,
        &[(0.0, 90.0), (90.0, 89.0)],
    );
    rows("one place outside", &off, &[(0.0, 90.0), (90.0, 89.0)]);
    let zenith = [ring(4, 0.0, 0.0), vec![TOP]].concat();
    print_cover("ring of 4 and zenith", &built(&zenith));
    print_cover(
        "the same with a pole on the zenith speaker",
        &with(POLE, -1.0, || built(&zenith)),
    );
    for (name, positions, fewer) in [
        ("two speakers, eight imaginary", eight_imaginary(), 7.0),
        ("three speakers, nine imaginary", nine_imaginary(), 8.0),
    ] {
        print_cover(name, &built(&positions));
        print_cover(
            &format!("the same with at most {fewer}"),
            &with(IMAGINARY, fewer, || built(&positions)),
        );
        print_cover(
            "the same with at most four",
            &with(IMAGINARY, 4.0, || built(&positions)),
        );
    }
    let centre = raised_centre(5.0);
    let directions = [(0.0, 0.0), (0.0, 1.0), (0.0, 3.0), (10.0, 0.0)];
    rows("front-only, raised centre", &built(&centre), &directions);
    rows(
        "its real speakers alone",
        &with(POLE, 2.0, || with(IMAGINARY, 0.0, || built(&centre))),
        &directions,
    );
    for by in [0.1, 5.0, 8.0, 9.0] {
        let face = real_triplets(&built(&raised_centre(by)).record()).contains(&[0, 1, 2]);
        println!("  centre raised by {by} degrees: left, right and centre are a face: {face}");
    }
    for (name, positions) in [
        ("wall of 8 by 5", wall(8, 5)),
        ("front half sphere of 39", front(39)),
        ("of 40", front(40)),
    ] {
        let o = opened(&positions.concat(), &[], 1);
        println!(
            "  {name}: number {}, lists of {:?} triplets",
            o.refusal,
            o.lengths()
        );
    }
}

fn coincident_hulls() {
    for n in [4, 5, 8, 12] {
        print_cover(
            &format!("ring of {n}, two zenith speakers last"),
            &built(&[ring(n, 0.0, 0.0), vec![TOP, TOP]].concat()),
        );
        print_cover(
            &format!("two zenith speakers first, ring of {n}"),
            &built(&[vec![TOP, TOP], ring(n, 0.0, 0.0)].concat()),
        );
    }
    print_cover(
        "four speakers, two of them in one place",
        &built(&[[-1.0, -1.0, -1.0], [-1.0, -1.0, 0.0], TOP, TOP]),
    );
}

// ---- rows

/// By how much the azimuth lies beyond the end of the pair that comes nearest to containing it.
fn excess(p: &VbapPanner, az: f32) -> f32 {
    let record = p.record();
    let pairs = &record.pairs[..record.num_pairs];
    pairs
        .iter()
        .map(|q| rem_euclid32(az - q.start, std::f32::consts::TAU) - q.gap)
        .fold(f32::INFINITY, f32::min)
}

fn inside() {
    let (eight, silent) = (built(&ring(8, 0.0, 0.0)), f32::from_bits(0x4213a7a5));
    let around = [0x4213a7a4u32, 0x4213a7a5, 0x4213a7a6].map(f32::from_bits);
    for az in around {
        println!(
            "  ring of 8 at azimuth {}: {:?}",
            told(az),
            row(&eight, az, 0.0, 8)
        );
    }
    println!(
        "  there the nearest pair misses by {:e}",
        excess(&eight, silent)
    );
    let (many, az) = (built(&ring(27, 0.0, 0.0)), f32::from_bits(0xbf6e4bae));
    println!(
        "  ring of 27 at azimuth {}: the nearest pair misses by {:e}",
        told(az),
        excess(&many, az)
    );
    let sounding = |r: Vec<f32>| r.iter().position(|g| *g > 0.5);
    println!(
        "  there speaker {:?} sounds; without INSIDE_EPS speaker {:?}",
        sounding(row(&many, az, 0.0, 27)),
        sounding(with(INSIDE, 0.0, || row(&many, az, 0.0, 27)))
    );
    println!(
        "  norm: ring of 8 at azimuth {} without the test: {:?}",
        told(silent),
        with(NORM, -1.0, || row(&eight, silent, 0.0, 8))
    );
    print_silent_rings();
}

/// Azimuths next to a pair's start, by turns: in no pair, silent.
fn print_silent_rings() {
    for turns in 0..8 {
        let (mut all, mut none, mut silent) = (0, 0, 0);
        for n in 2..=40 {
            let p = built(&ring(n, 0.0, 0.0));
            let record = p.record();
            for q in &record.pairs[..record.num_pairs] {
                for start in [
                    q.start as f64 + turns as f64 * 2.0 * PI64,
                    q.start as f64 - turns as f64 * 2.0 * PI64,
                ] {
                    for place in -60i32..=60 {
                        let az =
                            f32::from_bits((start as f32).to_bits().wrapping_add(place as u32));
                        take_outcomes();
                        let gains = row(&p, az, 0.0, n);
                        all += 1;
                        none += usize::from(take_outcomes()[INSIDE][1] == 0);
                        silent += usize::from(gains.iter().all(|g| *g == 0.0));
                    }
                }
            }
        }
        println!("  rings of 2 to 40, {turns} turns off, 60 floats to each side of a speaker: {all} azimuths, {none} in no pair, {silent} silent");
    }
}

/// Four speakers for the short buffers: left, right, up and back.
fn short_layout() -> VbapPanner {
    built(&[at(-30.0, 0.0), at(30.0, 0.0), at(0.0, 60.0), at(180.0, 0.0)])
}

fn short_buffers() {
    let stereo = built(&[at(-30.0, 0.0), at(30.0, 0.0)]);
    println!(
        "  stereo at 10 degrees: {:?}; into a buffer of one: {:?}",
        row(&stereo, degrees(10.0), 0.0, 2),
        row(&stereo, degrees(10.0), 0.0, 1)
    );
    let p = short_layout();
    for n in [4, 2, 1] {
        println!(
            "  hull at (10, 20) into {n}: {:?}",
            row(&p, degrees(10.0), degrees(20.0), n)
        );
    }
    // The azimuth at which the first speaker's own power passes 1e-12, by halving.
    let (mut loud, mut still) = (degrees(29.9999).to_bits(), degrees(30.0).to_bits());
    while still - loud > 1 {
        let middle = (loud + still) / 2;
        if row(&p, f32::from_bits(middle), 0.0, 1)[0] > 0.5 {
            loud = middle
        } else {
            still = middle
        }
    }
    for az in [loud, still].map(f32::from_bits) {
        println!(
            "  hull at azimuth {} into 1: {:?}; into 4: {:?}",
            told(az),
            row(&p, az, 0.0, 1),
            row(&p, az, 0.0, 4)
        );
    }
    let hole = built(&[[-1.0, -1.0, -1.0], [-1.0, -1.0, 0.0], TOP, TOP]);
    if let Some((az, el)) = cover(&hole).silent_at {
        println!(
            "  power: in a silent hole {:?}; without the test {:?}",
            row(&hole, az, el, 4),
            with(POWER, -1.0, || row(&hole, az, el, 4))
        );
    }
}

/// The last gain of a ramp over n samples of 1.
fn last_gain(from: f32, to: f32, n: usize) -> f32 {
    let mut out = vec![0.0; n];
    ramp_add(&mut out, &vec![1.0; n], from, to);
    out[n - 1]
}

fn ramps_and_mixes() {
    let first = (1..=1024)
        .find(|&n| last_gain(0.0, 1.0, n) != 1.0)
        .expect("a length");
    println!(
        "  ramp 0 to 1 over {first}: last gain {}; over every shorter block 1",
        told(last_gain(0.0, 1.0, first))
    );
    let half = f32::from_bits(0x3f3504f3);
    println!(
        "  ramp {} to 0 over 5: last gain {}",
        told(half),
        told(last_gain(half, 0.0, 5))
    );
    let mut r = Random::new(SEED);
    let (mut missed, mut greatest) = (0, 0.0f32);
    for _ in 0..DIRECTIONS {
        let (n, from, to) = (
            r.pick(&[64, 128, 256, 480, 512, 1024]),
            r.unit() as f32,
            r.unit() as f32,
        );
        let last = last_gain(from, to, n);
        missed += usize::from(last != to);
        greatest = greatest.max((last - to).abs());
    }
    println!("  {DIRECTIONS} ramps between gains of 0 to 1: {missed} miss the target, by at most {greatest:e}");
    let mixed = |dot, t| normalized_lerp_gain(0.25, 0.75, dot, t);
    for t in [0.0, 0.5] {
        println!(
            "  mixed gain of 0.25, 0.75 at t {t}: dot 0 {}, dot NaN {}",
            mixed(0.0, t),
            mixed(f32::NAN, t)
        );
    }
}

/// Prints every number that docs/RATIONALE.md and docs/DIFFERENCES.md quote.
pub fn report() -> Result<(), String> {
    println!("# either side of each tolerance");
    edges().iter().for_each(print_edge);
    println!("# directions and pairs");
    at_the_origin();
    planar_and_gap();
    coincident_pairs();
    println!("# faces");
    faces();
    degenerate();
    println!("# closing the hull");
    closing();
    imaginary_over_stored();
    coincident_hulls();
    ends::report();
    println!("# rows, ramps, mixed gains");
    inside();
    short_buffers();
    ramps_and_mixes();
    findings::report();
    differences::report();
    println!("# all stored layouts");
    own_direction();
    without_ties();
    over_stored()
}
