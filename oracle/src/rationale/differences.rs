//! The numbers that docs/DIFFERENCES.md quotes, in its order: the source beside Pulkki 1997, and
//! the port beside the source.

use super::{built, change, cover, degrees, edge_panners, row, rows, stored, summary, told};
use crate::chosen_layouts::open_hull;
use crate::edges::{third_of_four, Position, BACK, F, LEFT, RIGHT, TOP};
use crate::layout_line::Layout;
use crate::layouts::{at, fan, front, opened, ring, triples};
use crate::random::Random;
use crate::record::{Kind, Panner};
use crate::session::{open, Session};
use crate::source::{vbap_libm, vbap_measured, vbap_standins};
use crate::standins::{
    clamp32, max32, min32, powi4, rem_euclid32, rem_euclid64, sin_cos32, sin_cos64, PI64,
};
use crate::tolerances::{with, PLANAR, VBAP_GAP};

/// The draws' seed (arbitrary).
const SEED: u64 = 0x402;

// ---- Pulkki 1997, in 64 bits

fn unit(p: Position) -> [f64; 3] {
    let v = p.map(f64::from);
    let length = v.iter().map(|x| x * x).sum::<f64>().sqrt();
    v.map(|x| x / length)
}

fn cross(a: [f64; 3], b: [f64; 3]) -> [f64; 3] {
    let at = |i: usize, j: usize| a[i] * b[j] - a[j] * b[i];
    [at(1, 2), at(2, 0), at(0, 1)]
}

fn dot(a: [f64; 3], b: [f64; 3]) -> f64 {
    a.iter().zip(b).map(|(x, y)| x * y).sum()
}

/// The direction times the inverse of the base, scaled to power 1.
fn pulkki(base: [Position; 3], azimuth: f64, elevation: f64) -> Vec<f64> {
    let ([a, b, c], s) = (base.map(unit), unit(at(azimuth, elevation)));
    let rows = [cross(b, c), cross(c, a), cross(a, b)];
    let gains = rows.map(|r| dot(r, s) / dot(a, cross(b, c)));
    scaled(&gains)
}

/// The same of a pair on the horizon.
fn pulkki_pair(a: Position, b: Position, azimuth: f64) -> Vec<f64> {
    let (a, b, s) = (unit(a), unit(b), unit(at(azimuth, 0.0)));
    let minor = |u: [f64; 3], v: [f64; 3]| u[0] * v[2] - v[0] * u[2];
    scaled(&[minor(s, b) / minor(a, b), minor(a, s) / minor(a, b)])
}

fn scaled(gains: &[f64]) -> Vec<f64> {
    let power = gains.iter().map(|g| g * g).sum::<f64>().sqrt();
    gains.iter().map(|g| g / power).collect()
}

fn print_pulkki(name: &str, gains: &[f64]) {
    println!("    Pulkki, {name}: {gains:.4?}");
}

// ---- the source and Pulkki

fn one_place() {
    rows(
        "F alone",
        &built(&[F]),
        &[(0.0, 0.0), (90.0, 45.0), (180.0, 0.0)],
    );
    rows(
        "F, F",
        &built(&[F, F]),
        &[(0.0, 0.0), (90.0, 0.0), (180.0, 0.0), (0.0, 90.0)],
    );
    let three = built(&[F, F, F]);
    println!(
        "  F, F, F: {}; silent {} of 20000 directions",
        summary(&three.record()),
        cover(&three).silent
    );
    let two_and_right = built(&[F, F, RIGHT]);
    for step in -8..=8 {
        let az = 22.5 * step as f64;
        let gains = row(&two_and_right, degrees(az), 0.0, 3);
        println!("    F, F and right at {az}: {gains:.4?}");
    }
}

fn wide_gaps() {
    rows(
        "F and back",
        &built(&[F, BACK]),
        &[(30.0, 0.0), (60.0, 0.0), (90.0, 0.0)],
    );
    let [crossfade, inverse] = edge_panners(VBAP_GAP);
    for (name, p, x) in [
        ("above", crossfade, 0x3a831113u32),
        ("below", inverse, 0x3a831114),
    ] {
        rows(&format!("gap just {name} pi - 1e-3"), &p, &[(10.0, 0.0)]);
        print_pulkki(
            "(10, 0)",
            &pulkki_pair(F, [f32::from_bits(x), 0.0, 1.0], 10.0),
        );
    }
    print_pulkki(
        "two speakers 180.5 degrees apart, (10, 0)",
        &pulkki_pair(F, at(180.5, 0.0), 10.0),
    );
}

fn heights() {
    let quad = built(&fan(&[-45.0, 45.0, -135.0, 135.0], 0.0));
    let lifted = [ring(4, 0.0, 0.0)[1..].to_vec(), vec![at(0.0, 5.0)]].concat();
    rows(
        "quad",
        &quad,
        &[
            (45.0, 0.0),
            (45.0, 5.0),
            (45.0, 45.0),
            (45.0, 90.0),
            (45.0, -45.0),
        ],
    );
    let directions = [(0.0, 0.0), (0.0, 5.0), (45.0, 0.0)];
    rows(
        "right, back, left, and front 5 degrees up",
        &built(&lifted),
        &directions,
    );
    rows(
        "the same as a hull",
        &with(PLANAR, 0.0, || built(&lifted)),
        &directions,
    );
}

fn outside() {
    let three = [at(-30.0, 0.0), at(30.0, 0.0), at(0.0, 40.0)];
    let p = built(&three);
    println!("  three in front: {}", summary(&p.record()));
    let directions = [(0.0, 20.0), (90.0, 0.0), (180.0, 0.0), (0.0, -90.0)];
    rows("three in front", &p, &directions);
    for (az, el) in directions {
        print_pulkki(
            &format!("({az}, {el}), unusable where negative"),
            &pulkki(three, az, el),
        );
    }
}

/// The gains of a triplet, before anything is cut. Origin: vbap.rs lines 521 to 525.
fn raw(m: &[f32; 9], az: f32, el: f32) -> [f32; 3] {
    let ((sa, ca), (se, ce)) = (sin_cos32(az), sin_cos32(el));
    let s = [sa * ce, se, -ca * ce];
    [0, 3, 6].map(|r| m[r] * s[0] + m[r + 1] * s[1] + m[r + 2] * s[2])
}

fn least(g: [f32; 3]) -> f32 {
    min32(min32(g[0], g[1]), g[2])
}

/// Of a hull's triplets that have no negative gain: how many, the first, and the greatest.
fn containing(p: &Panner, az: f32, el: f32) -> (usize, usize, usize) {
    let all: Vec<f32> = p.inv[..p.num_tris]
        .iter()
        .map(|m| least(raw(m, az, el)))
        .collect();
    let first = all.iter().position(|&g| g >= 0.0).unwrap_or(all.len());
    let best = (0..all.len()).fold(0, |b, i| if all[i] > all[b] { i } else { b });
    (all.iter().filter(|&&g| g >= 0.0).count(), first, best)
}

/// A direction that lies in several triplets, where the first that contains it is not the chosen one.
fn choices() {
    let four = built(&third_of_four(f32::from_bits(0xc09ffffd)));
    let record = four.record();
    let (mut several, mut other, mut greatest, mut at_most) = (0, 0, 0.0f32, (0.0, 0.0));
    for x in -200..=200 {
        for y in 0..=200 {
            let (az, el) = (degrees(0.25 * x as f64), degrees(0.25 * y as f64));
            let (count, first, best) = containing(&record, az, el);
            several += usize::from(count > 1);
            if count > 1 && first != best {
                other += 1;
                let p = vbap_measured::VbapPanner::of_record(&only(&record, first));
                let (a, b) = (row(&four, az, el, 4), row(&p, az, el, 4));
                let change = change(&a, &b);
                if change > greatest {
                    (greatest, at_most) = (change, (az, el));
                }
            }
        }
    }
    println!("  four of a circle, the third at z c09ffffd: of 80601 directions in front {several} lie in several triplets, in {other} the first is not the chosen one");
    let (az, el) = at_most;
    let (_, first, best) = containing(&record, az, el);
    println!(
        "    greatest change {greatest:.4} at azimuth {}, elevation {}",
        told(az),
        told(el)
    );
    for t in [best, first] {
        let gains = row(
            &vbap_measured::VbapPanner::of_record(&only(&record, t)),
            az,
            el,
            4,
        );
        println!("    triplet {:?}: {gains:.4?}", record.idx[t]);
    }
}

/// The record with one triplet alone.
fn only(p: &Panner, t: usize) -> Panner {
    let mut one = p.clone();
    (one.num_tris, one.idx[0], one.inv[0]) = (1, p.idx[t], p.inv[t]);
    one
}

fn cut_gains() {
    let hole = built(&[[-1.0, -1.0, -1.0], [-1.0, -1.0, 0.0], TOP, TOP]);
    let (az, el) = (f32::from_bits(0x3efc2814), f32::from_bits(0x3e257ed4));
    let record = hole.record();
    let (count, _, best) = containing(&record, az, el);
    println!("  silent hole: {count} triplets contain the direction; the chosen one is {:?} with gains {:?}", record.idx[best], raw(&record.inv[best], az, el));
    println!("    row {:?}", row(&hole, az, el, 4));
    let dome = built(&super::millimetre_dome());
    let (az, el) = (degrees(-23.461), degrees(43.499));
    let (count, _, best) = containing(&dome.record(), az, el);
    println!("  dome in millimetres at (-23.461, 43.499): {count} triplets contain it; chosen gains {:?}", raw(&dome.record().inv[best], az, el));
}

/// A hull without triplets: the open one of 22 speakers, and the smallest record made by hand.
fn no_triplet() {
    let open = built(&open_hull());
    for (az, el) in [(36.0, 0.0), (37.0, 0.0), (45.0, 0.0), (0.0, 90.0)] {
        let gains = row(&open, degrees(az), degrees(el), 22);
        let one = gains.iter().position(|g| *g != 0.0);
        println!("  22 speakers, open hull, at ({az}, {el}): slot {one:?} alone");
    }
    let mut record = built(&[F, TOP, RIGHT]).record();
    record.num_tris = 0;
    let p = vbap_measured::VbapPanner::of_record(&record);
    rows(
        "F, top and right, a record with no triplet",
        &p,
        &[(40.0, 0.0), (50.0, 0.0), (180.0, 0.0), (45.0, 0.0)],
    );
}

// ---- bases that the source drops

/// Right, left and up, all a hair in front: their plane passes the listener at about z.
fn near_plane(z: f32) -> [Position; 3] {
    [[1.0, 0.0, -z], [-1.0, 0.0, -z], [0.0, 1.0, -z]]
}

/// Either side of the distance that a face must have (line 303).
fn near_faces() {
    for bits in [0x38d1b717u32, 0x38d1b718] {
        let three = near_plane(f32::from_bits(bits));
        let p = built(&three);
        let real = super::real_triplets(&p.record());
        rows(
            &format!(
                "right, left and up, {} in front: {}, of real speakers {real:?}",
                told(f32::from_bits(bits)),
                summary(&p.record())
            ),
            &p,
            &[(0.0, 0.0), (30.0, 0.0), (0.0, 45.0)],
        );
        for (az, el) in [(0.0, 0.0), (30.0, 0.0), (0.0, 45.0)] {
            print_pulkki(&format!("({az}, {el})"), &pulkki(three, az, el));
        }
    }
}

/// Either side of the area (line 274) and of the determinant (line 345): a source half way between
/// two speakers x apart.
fn thin_faces() {
    for bits in [0x3009705fu32, 0x30097060, 0x3089705f, 0x30897060] {
        let x = f32::from_bits(bits);
        let three = [F, [x, 0.0, -1.0], TOP];
        let p = built(&three);
        let base = super::real_triplets(&p.record()).contains(&[0, 1, 2]);
        println!(
            "  F, x {} to its right, top: {}, their own triplet {base}; at azimuth x/2 the row {:?}, at azimuth x/2 and elevation 45 {:.4?}",
            told(x),
            summary(&p.record()),
            row(&p, x / 2.0, 0.0, 3),
            row(&p, x / 2.0, degrees(45.0), 3)
        );
        let half = x as f64 / 2.0 * 180.0 / PI64;
        print_pulkki("half way", &pulkki_in_64(three, half, 0.0));
        print_pulkki("half way, 45 up", &pulkki_in_64(three, half, 45.0));
    }
}

/// `pulkki` with the source's direction in 64 bits too.
fn pulkki_in_64(base: [Position; 3], azimuth: f64, elevation: f64) -> Vec<f64> {
    let ((sa, ca), (se, ce)) = (
        sin_cos64(azimuth * PI64 / 180.0),
        sin_cos64(elevation * PI64 / 180.0),
    );
    let ([a, b, c], s) = (base.map(unit), [sa * ce, se, -ca * ce]);
    let rows = [cross(b, c), cross(c, a), cross(a, b)];
    scaled(&rows.map(|r| dot(r, s) / dot(a, cross(b, c))))
}

/// A zenith speaker just too far from the pole for it to be left out (lines 370 and 385).
fn beside_the_pole() {
    let zenith = [f32::from_bits(0x3ab95d2c), 1.0, 0.0];
    let p = built(&[RIGHT, LEFT, BACK, F, zenith]);
    rows("ring of 4 and a zenith speaker", &p, &[(0.0, 90.0)]);
    print_pulkki(
        "left, back and zenith at (0, 90)",
        &pulkki_in_64([LEFT, BACK, zenith], 0.0, 90.0),
    );
}

/// Two speakers at right angles, so near that `unit` drops them (line 158), and a place farther.
fn short_vectors() {
    for bits in [0x358637bdu32, 0x358637be] {
        let z = f32::from_bits(bits);
        let two = [[0.0, 0.0, -z], [z, 0.0, 0.0]];
        let p = built(&two);
        rows(
            &format!("front and right at {}: {}", told(z), summary(&p.record())),
            &p,
            &[(45.0, 0.0)],
        );
        print_pulkki("(45, 0)", &pulkki_pair(two[0], two[1], 45.0));
    }
}

/// Front, right and back: azimuths just beyond the right one, still played by the first pair
/// (line 57).
fn beyond_a_pair() {
    let p = built(&[F, RIGHT, BACK]);
    for places in [0u32, 1, 4, 8, 9, 12] {
        let az = f32::from_bits(std::f32::consts::FRAC_PI_2.to_bits() + places);
        let beyond = az as f64 - PI64 / 2.0;
        println!(
            "  front, right and back at azimuth {}, {beyond:.2e} beyond the right: row {:?}",
            told(az),
            row(&p, az, 0.0, 3)
        );
    }
}

/// Pairs with an inverse over the stored layouts: how many, and the least determinant.
fn pair_determinants() {
    let (mut pairs, mut least) = (0, f64::INFINITY);
    for layout in stored() {
        let p = layout.opened().panner;
        for q in p.pairs[..p.num_pairs].iter().filter(|q| q.law.is_some()) {
            pairs += 1;
            least = least.min(sin_cos64(q.gap as f64).0.abs());
        }
    }
    println!(
        "  {pairs} pairs with an inverse in the stored layouts: the least sine of a gap {least:e}"
    );
}

fn widths() {
    let stereo = [at(-30.0, 0.0), at(30.0, 0.0)];
    let (p, mut greatest) = (built(&stereo), 0.0f64);
    for step in -3000..=3000 {
        let az = step as f64 / 100.0;
        let exact = pulkki_pair(stereo[0], stereo[1], az);
        let gains = row(&p, degrees(az), 0.0, 2);
        greatest = gains
            .iter()
            .zip(&exact)
            .map(|(a, b)| (*a as f64 - b).abs())
            .fold(greatest, f64::max);
    }
    println!("  stereo, 6001 azimuths between the speakers: the row is off Pulkki's in 64 bits by at most {greatest:e}");
    print_pulkki("stereo at 10", &pulkki_pair(stereo[0], stereo[1], 10.0));
}

fn angles() {
    let five =
        vbap_measured::VbapPanner::new(&fan(&[-30.0, 30.0, 0.0, 45.0, -110.0, 110.0], 0.0), &[3]);
    for (name, az) in [("nan", f32::NAN), ("inf", f32::INFINITY), ("0", 0.0)] {
        println!(
            "  5.1 at azimuth {name}, elevation 0: {:?}",
            row(&five, az, 0.0, 6)
        );
    }
    println!(
        "  5.1 toward its LFE at 45: {:.4?}",
        row(&five, degrees(45.0), 0.0, 6)
    );
}

// ---- the port and the source

/// Slots, laws, triplets and neighbours of a record: all that is no float.
fn frame(p: &Panner) -> Vec<u64> {
    let mut w = vec![
        p.kind as u64,
        p.num_pairs as u64,
        p.num_tris as u64,
        p.num_imag as u64,
    ];
    for q in &p.pairs[..p.num_pairs] {
        w.extend([q.a as u64, q.b as u64, u64::from(q.law.is_some())]);
    }
    w.extend(p.idx[..p.num_tris].as_flattened().iter().map(|&i| i as u64));
    for k in 0..p.num_imag {
        w.extend(
            p.imag_nbrs[k][..p.num_nbrs[k] as usize]
                .iter()
                .map(|&s| s as u64),
        );
    }
    w
}

fn on_libm(l: &Layout) -> Panner {
    vbap_libm::VbapPanner::new(&triples(&l.numbers), &l.lfe).record()
}

/// Layouts whose pairs or triplets are others on the platform's library.
fn libraries() {
    let all = stored();
    let fits = |l: &&Layout| {
        let mut lengths = opened(&l.numbers, &l.lfe, 1).lengths();
        lengths.retain(|&n| n > 70);
        lengths.is_empty()
    };
    let few: Vec<&Layout> = all.iter().filter(fits).collect();
    let parted: Vec<&&Layout> = few
        .iter()
        .filter(|l| frame(&on_libm(l)) != frame(&l.opened().panner))
        .collect();
    let bits = few
        .iter()
        .filter(|l| on_libm(l).words() != l.opened().panner.words())
        .count();
    println!("  of {} stored layouts with lists of at most 70 triplets, {bits} have other bits on the platform's library, {} other pairs or triplets", few.len(), parted.len());
    let Some(least) = parted.iter().min_by_key(|l| l.numbers.len()) else {
        return;
    };
    let numbers: Vec<String> = least.numbers.iter().map(|x| format!("{x:?}")).collect();
    println!("    the smallest, {:?}: {}", least.name, numbers.join(" "));
    println!(
        "    here {}, there {}",
        summary(&least.opened().panner),
        summary(&on_libm(least))
    );
}

/// Where the platform's maximum, minimum, clamp, fourth power and rem_euclid give other bits.
fn library_calls() {
    for (a, b) in [(-0.0f32, -0.0f32), (-0.0, 0.0), (0.0, -0.0)] {
        println!(
            "  max({a:?}, {b:?}): platform {:?}, here {:?}; min: platform {:?}, here {:?}",
            a.max(b),
            max32(a, b),
            a.min(b),
            min32(a, b)
        );
    }
    let (mut r, mut parted) = (Random::new(SEED), [0usize; 3]);
    let tau = std::f32::consts::TAU;
    let same = |a: f32, b: f32| a.to_bits() == b.to_bits() || (a.is_nan() && b.is_nan());
    for _ in 0..1_000_000 {
        let x = f32::from_bits(r.bits() as u32);
        parted[0] += usize::from(!same(x.clamp(0.0, 1.0), clamp32(x)));
        parted[1] += usize::from(!same(x.powi(4), powi4(x)));
        parted[2] += usize::from(!same(x.rem_euclid(tau), rem_euclid32(x, tau)));
    }
    println!("  1000000 floats of any bits: clamp, powi(4) and rem_euclid(TAU) of the platform differ {parted:?} times");
    moduli();
    let level = vbap_libm::VbapPanner::new(&[RIGHT, LEFT, BACK, F], &[]);
    let mut out = [1.0f32; 4];
    level.gains(0.0, 0.0, &mut out);
    println!(
        "  right, left, back, front at (0, 0) on the platform: {out:?}; here {:?}",
        row(&built(&[RIGHT, LEFT, BACK, F]), 0.0, 0.0, 4)
    );
}

/// The moduli that rem_euclid is tried with, by their sort.
const MODULI: [&str; 8] = [
    "2 pi",
    "positive, any bits",
    "negative, any bits",
    "+0",
    "-0",
    "infinite",
    "minus infinite",
    "NaN",
];

/// A modulus of a sort, in 32 and in 64 bits.
fn modulus(r: &mut Random, sort: usize) -> (f32, f64) {
    let any = (
        f32::from_bits(r.bits() as u32 & 0x7fff_ffff),
        f64::from_bits(r.bits() & (u64::MAX >> 1)),
    );
    match sort {
        0 => (std::f32::consts::TAU, 2.0 * PI64),
        1 => any,
        2 => (-any.0, -any.1),
        3 => (0.0, 0.0),
        4 => (-0.0, -0.0),
        5 => (f32::INFINITY, f64::INFINITY),
        6 => (f32::NEG_INFINITY, f64::NEG_INFINITY),
        _ => (f32::NAN, f64::NAN),
    }
}

/// rem_euclid of the platform and of document 01 over moduli of every sort.
fn moduli() {
    let same32 = |a: f32, b: f32| a.to_bits() == b.to_bits() || (a.is_nan() && b.is_nan());
    let same64 = |a: f64, b: f64| a.to_bits() == b.to_bits() || (a.is_nan() && b.is_nan());
    let mut r = Random::new(SEED);
    for (sort, name) in MODULI.iter().enumerate() {
        let mut parted = [0usize; 3];
        for _ in 0..1_000_000 {
            let (m, n) = modulus(&mut r, sort);
            let (x, y) = (f32::from_bits(r.bits() as u32), f64::from_bits(r.bits()));
            let other = !same32(x.rem_euclid(m), rem_euclid32(x, m));
            parted[0] += usize::from(other);
            parted[1] += usize::from(!same64(y.rem_euclid(n), rem_euclid64(y, n)));
            parted[2] += usize::from(other && !(x % m < 0.0 && m < 0.0));
        }
        println!("  rem_euclid, modulus {name}: of 1000000 the platform differs in 32 bits {}, in 64 bits {}; of the former {} without a negative remainder and modulus", parted[0], parted[1], parted[2]);
    }
    let small = (1..4).flat_map(|m| (1..4).map(move |x| (x as f32, m as f32)));
    let signed = small.flat_map(|(x, m)| [(x, m), (-x, m), (x, -m), (-x, -m)]);
    for (x, m) in signed {
        let (there, here) = (x.rem_euclid(m), rem_euclid32(x, m));
        if !same32(there, here) {
            println!("    {x} by {m}: platform {there}, here {here}");
        }
    }
    println!(
        "    -1 by minus infinity: platform {}, here {}",
        (-1.0f32).rem_euclid(f32::NEG_INFINITY),
        rem_euclid32(-1.0, f32::NEG_INFINITY)
    );
}

fn capacities() {
    let many = vbap_standins::VbapPanner::new(&ring(41, 0.0, 0.0), &[]);
    let mut out = [0.0f32; 41];
    many.gains(0.0, 0.0, &mut out);
    println!(
        "  ring of 41: the source has {} outputs, slot 0 at (0, 0) {}; open gives {}",
        many.num_outputs(),
        out[0],
        opened(&ring(41, 0.0, 0.0).concat(), &[], 1).refusal
    );
    let wide = vbap_standins::VbapPanner::new(&front(40), &[]);
    let mut out = [0.0f32; 40];
    wide.gains(0.0, 0.0, &mut out);
    let power: f32 = out.iter().map(|g| g * g).sum();
    println!(
        "  forty in front: the source's row at (0, 0) has power {power:.6}; open gives {}",
        opened(&front(40).concat(), &[], 1).refusal
    );
    let number = |numbers: &[f32], sources| opened(numbers, &[], sources).refusal;
    println!(
        "  one number: {}; no numbers: {}; no source: {}; nine sources: {}",
        number(&[0.0], 1),
        number(&[], 1),
        number(&F, 0),
        number(&F, 9)
    );
}

/// The fewest speakers refused with 4 among rings with copies of the zenith speaker behind them.
fn fewest() {
    for (name, turn) in [("to the right", 1.0), ("to the left", -1.0)] {
        let mut found: Option<(usize, usize, Vec<usize>)> = None;
        for total in 3..=24 {
            for copies in 1..total - 1 {
                let round: Vec<Position> = (0..total - copies)
                    .map(|i| at(turn * 360.0 * i as f64 / (total - copies) as f64, 0.0))
                    .collect();
                let o = opened(&[round, vec![TOP; copies]].concat().concat(), &[], 1);
                if o.refusal == 4 && found.is_none() {
                    found = Some((total - copies, copies, o.lengths()));
                }
            }
        }
        println!("  rings listed {name}, zenith speakers last, up to 24 speakers: the first refused with 4 (ring, copies, lists) {found:?}");
    }
}

/// Records that are refused with 11, and what the source's own text makes of them.
fn made_by_hand() {
    let mut mono = built(&[F, RIGHT]).record();
    (mono.kind, mono.num_pairs, mono.num_slots, mono.mono) = (Kind::Mono, 0, 0, 2);
    let mut hull = built(&[F, TOP, RIGHT]).record();
    hull.idx[0][2] = 200;
    for (name, record) in [
        ("mono with slot 2 of 2 outputs", mono),
        ("a hull with point 200", hull),
    ] {
        let p = vbap_standins::VbapPanner::of_record(&record);
        let mut out = vec![1.0; record.num_outputs];
        p.gains(0.5, 0.1, &mut out);
        println!(
            "  {name}: malformed {}; the source's row at (0.5, 0.1) rad {out:?}",
            record.malformed()
        );
    }
}

/// The smallest calls of each number.
fn numbers() {
    let (_, _, Some(mut s)) = open(&F, &[], 1) else {
        return;
    };
    println!(
        "  F alone, one source: take back {}, place source 1 {}, settle {}",
        s.take_back(0),
        s.place(1, 0.0, 0.0),
        s.settle(0)
    );
    let placed: Vec<u8> = (0..17).map(|_| s.place(0, 0.0, 0.0)).collect();
    println!("    seventeen placements: {placed:?}");
    let mut render = |n: usize, samples: usize, outputs: usize| {
        s.render(n, &vec![0.0; samples], &mut vec![0.0; outputs])
    };
    println!(
        "    render of 0 {}, 1025 {}, 1024 {}; one sample too few {}; one output too many {}",
        render(0, 0, 0),
        render(1025, 1025, 1025),
        render(1024, 1024, 1024),
        render(2, 1, 2),
        render(2, 2, 3)
    );
    let mut nine = Session::fresh(built(&[F]).record(), 9);
    println!(
        "    a session made by hand with nine sources: settle {}",
        nine.settle(0)
    );
}

pub fn report() {
    println!("# the source and Pulkki");
    one_place();
    wide_gaps();
    heights();
    outside();
    choices();
    cut_gains();
    no_triplet();
    near_faces();
    thin_faces();
    beside_the_pole();
    short_vectors();
    beyond_a_pair();
    pair_determinants();
    widths();
    angles();
    println!("# the port and the source");
    libraries();
    library_calls();
    capacities();
    fewest();
    made_by_hand();
    numbers();
    let (s, c) = sin_cos64(PI64);
    println!(
        "  sine of PI64: here {s:?}, platform {:?}; cosine: here {c:?}, platform {:?}",
        PI64.sin(),
        PI64.cos()
    );
}
