//! The numbers of docs/RATIONALE.md, section 2, on how closing a hull ends: examples of the ends, what
//! an open hull plays, and when copies of speakers lose every face.

use super::{
    best_gain, built, change, degrees, direction, print_cover, row, stored, summary, DIRECTIONS,
    HOLE, SEED,
};
use crate::chosen_layouts::{
    corners, ends, fourteen_imaginary, nine_imaginary, open_hull, ten_imaginary, AXES,
};
use crate::edges::Position;
use crate::layout_line::Layout;
use crate::layouts::opened;
use crate::open_hulls::{candidates, doubled_candidates, rule_against_source, Place};
use crate::random::Random;
use crate::record::Kind;
use crate::source::take_lists;
use crate::standins::{sin_cos32, PI64};
use crate::tolerances::{with, CANDIDATE};

/// The lists that a layout builds, how many imaginary speakers, and whether it ends closed.
fn print_end(name: &str, positions: &[Position]) {
    let given = opened(&positions.concat(), &[], 1);
    let lists: Vec<(usize, bool)> = given.lists.iter().map(|b| (b.length, b.closed)).collect();
    println!(
        "  {name}: {} speakers, number {}, lists (triplets, closed) {lists:?}; {}",
        positions.len(),
        given.refusal,
        summary(&given.panner)
    );
}

/// A speaker's direction in 64 bits.
fn direction_of(p: &Position) -> Place {
    let v = p.map(f64::from);
    let length = v.iter().map(|x| x * x).sum::<f64>().sqrt();
    v.map(|x| x / length)
}

fn dot(a: &Place, b: &Place) -> f64 {
    a.iter().zip(b).map(|(x, y)| x * y).sum()
}

/// The groups of speakers that nearly coincide, in the order of the list: how many, the greatest
/// distance within it, its first direction, and how far off the nearest candidate is.
fn print_groups(positions: &[Position]) {
    let apart = |a: &Place, b: &Place| {
        let square: f64 = a.iter().zip(b).map(|(x, y)| (x - y) * (x - y)).sum();
        square.sqrt()
    };
    let mut groups: Vec<Vec<Place>> = Vec::new();
    for d in positions.iter().map(direction_of) {
        match groups.iter_mut().find(|g| apart(&g[0], &d) < 1e-4) {
            Some(group) => group.push(d),
            None => groups.push(vec![d]),
        }
    }
    for g in &groups {
        let pairs = g.iter().flat_map(|a| g.iter().map(move |b| (a, b)));
        let widest = pairs.map(|(a, b)| apart(a, b)).fold(0.0, f64::max);
        let nearest = candidates()
            .iter()
            .map(|c| dot(c, &g[0]))
            .fold(-1.0, f64::max);
        println!(
            "    a group of {} at {:.4?}, {widest:.2e} wide, {:.2} degrees from the nearest candidate",
            g.len(),
            g[0],
            nearest.acos() * 180.0 / PI64
        );
    }
}

/// The slots of a row that are not +0, with their gains.
fn sounding(gains: &[f32]) -> Vec<(usize, f32)> {
    let all = gains.iter().copied().enumerate();
    all.filter(|(_, g)| *g != 0.0).collect()
}

/// What the open hull plays: which speakers, how far off, and how the row changes.
fn open_rows() {
    let p = built(&open_hull());
    println!(
        "  open hull at azimuth 0.3, elevation 0.2 rad: {:?}",
        sounding(&row(&p, 0.3, 0.2, 22))
    );
    for (az, el) in [
        (0.0, 0.0),
        (36.0, 0.0),
        (37.0, 0.0),
        (45.0, 0.0),
        (45.0, 35.264),
        (0.0, 90.0),
    ] {
        let gains = row(&p, degrees(az), degrees(el), 22);
        println!("    at ({az}, {el}): {:?}", sounding(&gains));
    }
    let (mut r, mut alone, mut used, mut farthest) = (Random::new(SEED), 0, [false; 22], 1.0f64);
    let (mut jump, mut weak) = (0.0f32, 0);
    for _ in 0..DIRECTIONS {
        let (az, el) = direction(&mut r);
        let gains = row(&p, az, el, 22);
        let all = sounding(&gains);
        alone += usize::from(all.len() == 1 && all[0].1 == 1.0);
        weak += usize::from(all.is_empty());
        all.iter().for_each(|(slot, _)| used[*slot] = true);
        jump = jump.max(change(&gains, &row(&p, az + degrees(0.01), el, 22)));
        let ((sa, ca), (se, ce)) = (sin_cos32(az), sin_cos32(el));
        let s = [sa * ce, se, -ca * ce];
        let d = p.record().pt_dir[all[0].0];
        farthest = farthest.min((0..3).map(|i| d[i] as f64 * s[i] as f64).sum());
    }
    let silent: Vec<usize> = (0..22).filter(|n| !used[*n]).collect();
    println!("    of {DIRECTIONS} directions {alone} play one speaker with gain 1, {weak} none; never heard are the slots {silent:?}");
    println!(
        "    the speaker heard is up to {:.1} degrees off; greatest change of a gain over 0.01 degrees {jump:.3}",
        farthest.acos() * 180.0 / PI64
    );
    let step = (36_000..37_000).find(|n| row(&p, degrees(*n as f64 / 1000.0), 0.0, 22)[3] == 0.0);
    println!("    on the horizon slot 3 gives way at {step:?} thousandths of a degree");
}

/// The layouts next to the open hull: what is left of their sphere.
fn beside() {
    let without = |n: usize| {
        let mut fewer = open_hull();
        fewer.remove(n);
        fewer
    };
    print_cover("the 22 without the front", &built(&without(3)));
    print_cover(
        "the 22 without one of the corners' copies",
        &built(&without(6)),
    );
    let first = [corners(), AXES.to_vec(), corners()].concat();
    print_cover("the 22, corners before the axes", &built(&first));
    let plain = [AXES.to_vec(), corners()].concat();
    print_cover("the fourteen, each once", &built(&plain));
    for n in [0, 3, 6] {
        print_end(&format!("the 22 without slot {n}"), &without(n));
    }
    take_lists();
    let p = with(CANDIDATE, -1.0, || built(&open_hull()));
    println!(
        "  the 22 with candidates on top of speakers allowed: lists of {:?} triplets; {}",
        take_lists().iter().map(|b| b.length).collect::<Vec<_>>(),
        summary(&p.record())
    );
    println!(
        "    at azimuth 0.3, elevation 0.2 rad: {:?}",
        sounding(&row(&p, 0.3, 0.2, 22))
    );
}

/// When copies of the candidates lose every face.
fn copies() {
    let (sizes, least) = doubled_candidates();
    println!("  sets of doubled candidates that lose every face in some order, by their size 0 to 14: {sizes:?}");
    if let Some((doubled, order)) = least {
        let places: Vec<usize> = (0..14).filter(|p| doubled >> p & 1 == 1).collect();
        println!("    the least: places {places:?} (0 to 5 axes, 6 to 13 corners), listed in the order {order:?}");
    }
    let (drawn, other, none) = rule_against_source(3000, SEED);
    println!("    the rule against the source over {drawn} drawn orders and copies: {other} lists of another length; {none} without a triplet");
}

/// Over the stored layouts: the hulls that are open at the end, and those that have holes.
fn over_stored() {
    let hulls: Vec<Layout> = stored()
        .into_iter()
        .filter(|l| l.opened().panner.kind == Kind::Hull)
        .collect();
    let open: Vec<&Layout> = hulls
        .iter()
        .filter(|l| l.opened().lists.last().is_some_and(|b| !b.closed))
        .collect();
    let with_triplets = open.iter().filter(|l| l.opened().panner.num_tris > 0);
    println!(
        "  {} stored hulls: {} open at the end, {} of these with a triplet; their names {:?}",
        hulls.len(),
        open.len(),
        with_triplets.count(),
        open.iter().map(|l| l.name.as_str()).collect::<Vec<_>>()
    );
    let empty = hulls.iter().filter(|l| {
        let lists = l.opened().lists;
        lists.first().is_some_and(|b| b.length == 0) && lists.last().is_some_and(|b| b.closed)
    });
    println!(
        "    closed at the end though the first list has no triplet: {}",
        empty.count()
    );
    let mut r = Random::new(SEED);
    let all: Vec<(f32, f32)> = (0..300).map(|_| direction(&mut r)).collect();
    let holes = hulls.iter().filter(|l| {
        let p = l.opened().panner;
        p.num_tris > 0 && all.iter().any(|(az, el)| best_gain(&p, *az, *el) < HOLE)
    });
    println!(
        "    with a hole in one of 300 directions: {}",
        holes.count()
    );
    println!("    layouts of the list `ends`: {}", ends().len());
}

pub fn report() {
    println!("# the ends of closing");
    print_end(
        "closed at once: the cube's corners and the axes, each once",
        &[AXES.to_vec(), corners()].concat(),
    );
    print_end("closed after nine imaginary speakers", &nine_imaginary());
    print_end("open, no candidate left", &open_hull());
    print_end(
        "open, no candidate left, after ten imaginary speakers",
        &ten_imaginary(),
    );
    let groups = built(&ten_imaginary());
    for (az, el) in [(17.188734, 11.459156), (45.0, 30.0), (0.0, 90.0)] {
        let gains = row(&groups, degrees(az), degrees(el), 35);
        println!("    it plays at ({az}, {el}): {:?}", sounding(&gains));
    }
    print_end("without its last speaker", &ten_imaginary()[..34]);
    print_end("open, fourteen imaginary speakers", &fourteen_imaginary());
    print_groups(&fourteen_imaginary());
    let groups = built(&fourteen_imaginary());
    for (az, el) in [(17.188734, 11.459156), (45.0, 30.0), (0.0, 90.0)] {
        let gains = row(&groups, degrees(az), degrees(el), 38);
        println!("    it plays at ({az}, {el}): {:?}", sounding(&gains));
    }
    print_end("without its last speaker", &fourteen_imaginary()[..37]);
    open_rows();
    beside();
    copies();
    over_stored();
}
