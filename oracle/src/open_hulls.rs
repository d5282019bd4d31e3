//! Hulls that stay open, for docs/RATIONALE.md, section 2: when copies of speakers lose every face,
//! and the searches for fewer speakers and for more imaginary ones (`oracle open_hulls`).

use crate::chosen_layouts::{corners, nine_imaginary, open_hull, AXES};
use crate::edges::Position;
use crate::layouts::opened;
use crate::random::Random;

/// A direction in 64 bits.
pub type Place = [f64; 3];

fn cross(a: Place, b: Place) -> Place {
    let at = |i: usize, j: usize| a[i] * b[j] - a[j] * b[i];
    [at(1, 2), at(2, 0), at(0, 1)]
}

fn dot(a: Place, b: Place) -> f64 {
    a.iter().zip(b).map(|(x, y)| x * y).sum()
}

fn scaled(v: Place) -> Place {
    let length = dot(v, v).sqrt();
    v.map(|x| x / length)
}

/// The fourteen candidates, axes before corners.
pub fn candidates() -> Vec<Place> {
    let all = AXES.iter().copied().chain(corners());
    all.map(|p| scaled(p.map(f64::from))).collect()
}

// ---- faces of places, and which copies lose them

/// The faces of the hull of places that surround the origin, each as its corners to the left.
fn faces(places: &[Place]) -> Vec<Vec<usize>> {
    let n = places.len();
    let mut all = Vec::new();
    for i in 0..n {
        for j in i + 1..n {
            for k in j + 1..n {
                all.extend(face(places, [i, j, k]));
            }
        }
    }
    all
}

/// The face whose three lowest corners these are; none where they are no such corners.
fn face(places: &[Place], [i, j, k]: [usize; 3]) -> Option<Vec<usize>> {
    // Origin of both: vbap.rs lines 263 and 274.
    let (flat, least) = (1e-7, 1e-9);
    let less = |p: usize| [0, 1, 2].map(|c| places[p][c] - places[i][c]);
    let normal = cross(less(j), less(k));
    if dot(normal, normal).sqrt() < least {
        return None;
    }
    let turned = if dot(normal, places[i]) < 0.0 {
        -1.0
    } else {
        1.0
    };
    let normal = scaled(normal).map(|x| x * turned);
    let height = |p: &Place| dot(normal, *p) - dot(normal, places[i]);
    let mut set: Vec<usize> = (0..places.len())
        .filter(|&p| height(&places[p]) >= -flat)
        .collect();
    if places.iter().any(|p| height(p) > flat) || set[..3] != [i, j, k] {
        return None;
    }
    let helper = if normal[0].abs() < 0.9 {
        [1.0, 0.0, 0.0]
    } else {
        [0.0, 1.0, 0.0]
    };
    let u = cross(normal, helper);
    let v = cross(normal, u);
    let angle = |p: usize| f64::atan2(dot(places[p], v), dot(places[p], u));
    set.sort_by(|&a, &b| angle(a).total_cmp(&angle(b)));
    Some(set)
}

/// The corners behind the first-listed one that have to be doubled for a face to be lost: all but
/// the last, counted to the left.
fn lost(face: &[usize], first: usize, doubled: u32) -> bool {
    let n = face.len();
    let start = face.iter().position(|&p| p == first).unwrap_or(0);
    (1..n - 1).all(|s| doubled >> face[(start + s) % n] & 1 == 1)
}

/// An order of the places in which every face is lost, where these are doubled. A place may come
/// next when each face of it that has no earlier corner is lost; which of several is taken does
/// not matter, since a place that may come next may come next later too.
fn losing_order(faces: &[Vec<usize>], n: usize, doubled: u32) -> Option<Vec<usize>> {
    let mut order: Vec<usize> = Vec::new();
    while order.len() < n {
        let open = |f: &&Vec<usize>| !f.iter().any(|p| order.contains(p));
        let next = (0..n).find(|v| {
            let mut own = faces.iter().filter(open).filter(|f| f.contains(v));
            !order.contains(v) && own.all(|f| lost(f, *v, doubled))
        });
        order.push(next?);
    }
    Some(order)
}

/// Of all sets of doubled candidates: how many of each size lose every face in some order, and
/// one of the least.
pub fn doubled_candidates() -> ([usize; 15], Option<(u32, Vec<usize>)>) {
    let (places, mut sizes, mut least) = (candidates(), [0; 15], None::<(u32, Vec<usize>)>);
    let faces = faces(&places);
    for doubled in 0..1u32 << places.len() {
        if let Some(order) = losing_order(&faces, places.len(), doubled) {
            sizes[doubled.count_ones() as usize] += 1;
            if least
                .as_ref()
                .is_none_or(|(d, _)| doubled.count_ones() < d.count_ones())
            {
                least = Some((doubled, order));
            }
        }
    }
    (sizes, least)
}

/// The rule behind `lost` against the source: drawn orders of the candidates, some of them twice.
/// Gives how many layouts were drawn, in how many the source's first list has another length, and
/// how many had no triplet.
pub fn rule_against_source(count: usize, seed: u64) -> (usize, usize, usize) {
    let mut r = Random::new(seed);
    let (places, all) = (candidates(), [AXES.to_vec(), corners()].concat());
    let faces = faces(&places);
    let (mut other, mut none) = (0, 0);
    for _ in 0..count {
        let mut order: Vec<usize> = (0..14).collect();
        (1..14)
            .rev()
            .for_each(|n| order.swap(n, r.below(n as u64 + 1) as usize));
        if r.below(3) == 0 {
            order.sort();
        }
        let doubled = (r.bits() | if r.below(2) == 0 { 0x3fc0 } else { 0 }) as u32 & 0x3fff;
        let copies: Vec<usize> = (0..14).filter(|p| doubled >> p & 1 == 1).collect();
        let rank = |p: &usize| order.iter().position(|q| q == p);
        let kept: usize = faces
            .iter()
            .map(|f| {
                let first = *f.iter().min_by_key(|p| rank(p)).unwrap_or(&0);
                let start = f.iter().position(|&p| p == first).unwrap_or(0);
                let last = f[(start + 2) % 3];
                usize::from(!lost(f, first, doubled)) * (1 + (doubled >> last & 1) as usize)
            })
            .sum();
        let numbers: Vec<Position> = order.iter().chain(&copies).map(|&p| all[p]).collect();
        other += usize::from(opened(&numbers.concat(), &[], 1).lengths().first() != Some(&kept));
        none += usize::from(kept == 0);
    }
    (count, other, none)
}

// ---- searches

/// A place: anywhere, between two candidates, in the middle of three, or of small whole numbers.
fn further_place(r: &mut Random, all: &[Place]) -> Option<Place> {
    let mut one = || all[r.below(all.len() as u64) as usize];
    let (a, b, c) = (one(), one(), one());
    let t = r.unit();
    let v = match r.below(4) {
        0 => [0, 1, 2].map(|_| r.within(-1.0, 1.0)),
        1 => [0, 1, 2].map(|i| a[i] * t + b[i] * (1.0 - t)),
        2 => [0, 1, 2].map(|i| a[i] + b[i] + c[i]),
        _ => [0, 1, 2].map(|_| r.between(-2, 2) as f64),
    };
    (dot(v, v) > 1e-3).then(|| scaled(v))
}

/// Sets of so many of the first n places.
fn sets(n: usize, size: usize) -> impl Iterator<Item = u32> {
    (0..1u32 << n).filter(move |s| s.count_ones() as usize == size)
}

/// One to five places beside the candidates: the fewest speakers that lose every face, doubled
/// places counted twice, where they are fewer than `least`.
fn with_further_places(r: &mut Random, least: usize) -> Option<usize> {
    let mut places = candidates();
    for _ in 0..1 + r.below(5) {
        let Some(place) = further_place(r, &places[..14]) else {
            continue;
        };
        // Origin: vbap.rs line 385.
        if places.iter().all(|p| dot(*p, place) < 1.0 - 1e-6) {
            places.push(place);
        }
    }
    let (n, faces) = (places.len(), faces(&places));
    let corners = |f: &Vec<usize>| f.iter().fold(0u32, |s, p| s | 1 << p);
    let all: Vec<u32> = faces.iter().map(corners).collect();
    (4..least - n)
        .find(|&size| {
            sets(n, size)
                .filter(|s| all.iter().all(|f| f & s != 0))
                .any(|s| losing_order(&faces, n, s).is_some())
        })
        .map(|size| n + size)
}

/// A position moved by about so much.
fn moved(r: &mut Random, p: Position, by: f64) -> Position {
    p.map(|x| (x as f64 + r.within(-by, by)) as f32)
}

/// The triplets of the last list where the hull is closed, none where it is open; more than any
/// list has where the layout is no hull.
fn left(positions: &[Position]) -> usize {
    let given = opened(&positions.concat(), &[], 1);
    let last = given.lists.last();
    last.map_or(1000, |l| usize::from(l.closed) * l.length)
}

/// Speakers moved, exchanged, copied and put elsewhere in the list, by small steps within the
/// tolerances, from a layout without one of its speakers; the first whose hull is open at the end.
fn one_fewer(r: &mut Random, from: &[Position], steps: usize) -> Option<Vec<Position>> {
    let mut now = from.to_vec();
    now.remove(r.below(now.len() as u64) as usize);
    let mut cost = left(&now);
    for step in 0..steps {
        if cost == 0 {
            return Some(now);
        }
        let mut next = now.clone();
        let (i, j) = (
            r.below(next.len() as u64) as usize,
            r.below(next.len() as u64) as usize,
        );
        match r.below(10) {
            0 => next[i] = next[j],
            1 => next.swap(i, j),
            2 => {
                let one = next.remove(i);
                next.insert(j, one);
            }
            3 => next[i] = moved(r, next[j], 1e-6),
            _ => {
                let by = r.pick(&[5e-8, 2e-7, 6e-7, 2e-6]);
                next[i] = moved(r, next[i], by);
            }
        }
        let found = left(&next);
        let warmth = 1.2 * (1.0 - step as f64 / steps as f64) + 0.05;
        let worse = found as f64 - cost as f64;
        if worse <= 0.0 || r.unit() < (-worse / warmth).exp() {
            (now, cost) = (next, found);
        }
    }
    (cost == 0).then_some(now)
}

/// The most imaginary speakers of layouts around a start: two to seven speakers next to
/// candidates, or the nine's own with up to four more.
fn most_imaginary(r: &mut Random, steps: usize) -> (usize, Vec<Position>) {
    let all = [AXES.to_vec(), corners()].concat();
    let near = |r: &mut Random| {
        let (by, one) = (f64::powf(10.0, r.within(-7.0, -2.0)), r.pick(&all));
        moved(r, one, by)
    };
    let (mut now, more) = match r.below(2) {
        0 => (vec![], 2 + r.below(6)),
        _ => (nine_imaginary(), r.below(5)),
    };
    (0..more).for_each(|_| now.push(near(r)));
    let imaginary = |p: &[Position]| opened(&p.concat(), &[], 1).imaginary;
    let mut most = imaginary(&now);
    for _ in 0..steps {
        let (mut next, i) = (now.clone(), r.below(now.len() as u64) as usize);
        let by = f64::powf(10.0, r.within(-7.5, -2.5));
        match r.below(8) {
            0 => next[i] = near(r),
            1 => next.swap(i, 0),
            2 => next[i] = moved(r, next[i].map(|x| -x), by),
            _ => next[i] = moved(r, next[i], by),
        }
        let found = imaginary(&next);
        if found >= most {
            (now, most) = (next, found);
        }
    }
    (most, now)
}

/// Runs the three searches, so many rounds of each.
pub fn search(rounds: u64, seed: u64) {
    let (mut r, mut least) = (Random::new(seed), open_hull().len());
    for _ in 0..rounds {
        least = with_further_places(&mut r, least).unwrap_or(least);
    }
    println!("{rounds} draws of one to five places beside the candidates: the fewest speakers that lose every face {least}");
    let (each, starts) = (2_000, rounds / 100 + 1);
    // Coordinates of 1.9 have neighbours 6e-8 of their size apart, finer than those of 1.
    let mut fewest: Vec<Position> = open_hull().iter().map(|p| p.map(|x| x * 1.9)).collect();
    for _ in 0..starts {
        if let Some(found) = one_fewer(&mut r, &fewest, each) {
            fewest = found;
        }
    }
    println!("{starts} walks of {each} steps, each from the fewest so far without one: open at the end with {} speakers", fewest.len());
    let (each, starts) = (200, rounds / 4 + 1);
    let mut most = (0, vec![]);
    for _ in 0..starts {
        let found = most_imaginary(&mut r, each);
        if found.0 > most.0 {
            most = found;
        }
    }
    println!(
        "{starts} walks of {each} steps among layouts of two to seven speakers: at most {} imaginary",
        most.0
    );
}
