//! Records of layouts made by hand: odd values in well-formed ones, and malformed ones.

use crate::edges::{Position, BACK, F, LEFT, RIGHT, TOP};
use crate::layout_line::Layout;
use crate::layouts::fan;
use crate::random::Random;
use crate::record::{Kind, Pair, Panner, MAX_IMAGINARY, MAX_OUTPUTS, MAX_TRIPLETS};
use crate::standins::{HALF_PI, PI64, TWO_PI};
use crate::values::F32;

/// A record, with a name for people.
pub struct Made {
    pub name: String,
    pub record: Panner,
}

fn made(name: impl Into<String>, record: Panner) -> Made {
    Made {
        name: name.into(),
        record,
    }
}

/// Three corner numbers and the inverse.
type Triplet = ([u8; 3], [f32; 9]);

// ---- records from their parts

fn of_kind(kind: Kind, outputs: usize) -> Panner {
    Panner {
        kind,
        num_outputs: outputs,
        ..Panner::empty()
    }
}

fn planar(outputs: usize, pairs: &[Pair], slots: &[u8]) -> Panner {
    let mut p = of_kind(Kind::Planar, outputs);
    p.num_pairs = pairs.len();
    p.pairs[..pairs.len()].copy_from_slice(pairs);
    p.num_slots = slots.len();
    p.slots[..slots.len()].copy_from_slice(slots);
    p
}

fn hull(outputs: usize, real: &[(u8, Position)], tris: &[Triplet], imag: &[&[u8]]) -> Panner {
    let mut p = of_kind(Kind::Hull, outputs);
    p.num_real = real.len();
    for (n, (slot, direction)) in real.iter().enumerate() {
        (p.pt_out[n], p.pt_dir[n]) = (*slot, *direction);
    }
    p.num_tris = tris.len();
    for (n, (corners, inverse)) in tris.iter().enumerate() {
        (p.idx[n], p.inv[n]) = (*corners, *inverse);
    }
    p.num_imag = imag.len();
    for (k, slots) in imag.iter().enumerate() {
        p.num_nbrs[k] = slots.len() as u8;
        p.imag_nbrs[k][..slots.len()].copy_from_slice(slots);
    }
    p
}

fn pair(start: f32, gap: f32, a: u8, b: u8, law: Option<[f32; 4]>) -> Pair {
    Pair {
        start,
        gap,
        a,
        b,
        law,
    }
}

/// The inverse of right, top and front in this order, times a number.
fn corner(times: f32) -> [f32; 9] {
    [times, 0.0, 0.0, 0.0, times, 0.0, 0.0, 0.0, -times]
}

/// Right, top and front in the slots 0, 1 and 2.
fn three() -> Vec<(u8, Position)> {
    vec![(0, RIGHT), (1, TOP), (2, F)]
}

/// Zeros, ones, NaNs of both kinds, infinities, greatest and least values, about the tolerances
/// 1e-6 and 1e-12, and where a square overflows.
fn odd_values() -> Vec<f32> {
    let mut v = vec![
        0.0,
        -0.0,
        1.0,
        -1.0,
        f32::INFINITY,
        f32::NEG_INFINITY,
        f32::MAX,
        -f32::MAX,
        1e-6,
        1e-12,
        1.8e19,
        1.9e19,
    ];
    v.extend([0x7fc0_0000, 0xff80_0001, 1].map(f32::from_bits));
    v
}

// ---- planar

const QUARTER: f32 = HALF_PI as f32;

/// The law of two speakers 45 degrees to the left and to the right of the front.
fn front_law() -> [f32; 4] {
    // Origin: the root of one half, in 32 bits.
    let h = f32::from_bits(0x3f35_04f3);
    [-h, -h, h, -h]
}

fn odd_pairs() -> Vec<Made> {
    let mut all = Vec::new();
    let eighth = -(PI64 / 4.0) as f32;
    for v in odd_values() {
        all.push(made(
            format!("gap {v:e}"),
            planar(2, &[pair(0.0, v, 0, 1, None)], &[0, 1]),
        ));
        all.push(made(
            format!("start {v:e}"),
            planar(2, &[pair(v, QUARTER, 0, 1, None)], &[0, 1]),
        ));
        all.push(made(
            format!("start {v:e} with a law, then another pair"),
            {
                let pairs = [
                    pair(v, QUARTER, 0, 1, Some(front_law())),
                    pair(1.0, 3.0, 2, 0, None),
                ];
                planar(3, &pairs, &[0, 1, 2])
            },
        ));
        for place in 0..4 {
            let mut law = front_law();
            law[place] = v;
            all.push(made(
                format!("law entry {place} is {v:e}"),
                planar(2, &[pair(eighth, QUARTER, 0, 1, Some(law))], &[0, 1]),
            ));
        }
        all.push(made(
            format!("law of {v:e}"),
            planar(2, &[pair(eighth, QUARTER, 1, 0, Some([v; 4]))], &[1]),
        ));
    }
    // Either side of the norm's tolerance. Origin: vbap.rs line 493, 1e-12.
    for bits in 0x2b8c_bccau32..=0x2b8c_bccf {
        let x = f32::from_bits(bits);
        all.push(made(
            format!("law of norm {x:e}"),
            planar(2, &[pair(0.0, 7.0, 0, 1, Some([x, 0.0, 0.0, 0.0]))], &[0]),
        ));
        all.push(made(
            format!("law of norms {x:e}"),
            planar(2, &[pair(0.0, 7.0, 0, 1, Some([x, 0.0, x, 0.0]))], &[]),
        ));
    }
    all
}

fn odd_rings() -> Vec<Made> {
    let whole = |a, b, law| pair(0.0, TWO_PI as f32, a, b, law);
    let forty: Vec<u8> = (0..40).collect();
    let narrow: Vec<Pair> = (0..40)
        .map(|n| pair(n as f32 * 0.125, 0.125, n, (n + 1) % 40, None))
        .collect();
    let overlapping: Vec<Pair> = (0..40)
        .map(|n| {
            pair(
                3.0 - n as f32 * 0.15,
                1.0,
                n,
                39 - n,
                (n % 2 == 0).then(front_law),
            )
        })
        .collect();
    vec![
        made("no pair, three slots", planar(3, &[], &[0, 1, 2])),
        made("no pair, no slot, no output", planar(0, &[], &[])),
        made("no slot", planar(3, &[whole(0, 2, None)], &[])),
        made(
            "one slot on both ends, crossfade",
            planar(2, &[whole(1, 1, None)], &[0, 1]),
        ),
        made(
            "one slot on both ends, law",
            planar(2, &[whole(1, 1, Some(front_law()))], &[1]),
        ),
        made(
            "one output on both ends",
            planar(1, &[whole(0, 0, None)], &[0]),
        ),
        made(
            "slots beside those of the pair",
            planar(4, &[whole(0, 1, None)], &[2, 3]),
        ),
        made(
            "a slot forty times",
            planar(3, &[whole(0, 1, None)], &[1; 40]),
        ),
        made(
            "slots twice and out of order",
            planar(4, &[whole(3, 1, Some(front_law()))], &[3, 1, 3, 0, 1]),
        ),
        made(
            "more outputs than slots",
            planar(40, &[whole(39, 20, None)], &[39, 20]),
        ),
        made("forty narrow pairs", planar(40, &narrow, &forty)),
        made("forty overlapping pairs", planar(40, &overlapping, &forty)),
        made(
            "the same pair twice, other slots",
            planar(4, &[whole(0, 1, None), whole(2, 3, None)], &[0, 1, 2, 3]),
        ),
        made(
            "pairs of gap 0",
            planar(
                3,
                &[
                    pair(0.0, 0.0, 0, 1, None),
                    pair(0.0, 0.0, 1, 2, Some(front_law())),
                ],
                &[0, 1, 2],
            ),
        ),
    ]
}

// ---- hull

fn odd_inverses() -> Vec<Made> {
    let mut all = Vec::new();
    let rear = ([1, 0, 2], [1.0, 0.0, 0.0, 0.0, 1.0, 0.0, 0.0, 0.0, 1.0]);
    for v in odd_values() {
        for place in 0..9 {
            let mut inverse = corner(1.0);
            inverse[place] = v;
            all.push(made(
                format!("inverse entry {place} is {v:e}"),
                hull(3, &three(), &[([0, 1, 2], inverse), rear], &[]),
            ));
        }
        all.push(made(
            format!("inverse of {v:e}"),
            hull(3, &three(), &[([0, 1, 2], [v; 9])], &[]),
        ));
        all.push(made(format!("two inverses of {v:e} about another"), {
            hull(
                3,
                &three(),
                &[
                    ([0, 1, 2], [v; 9]),
                    ([2, 1, 0], corner(0.5)),
                    ([1, 1, 1], [v; 9]),
                ],
                &[],
            )
        }));
        all.push(made(
            format!("direction of {v:e}"),
            hull(3, &[(1, [v; 3]), (2, [0.5, v, 0.5]), (0, F)], &[], &[]),
        ));
        all.push(made(
            format!("imaginary gain of {v:e}"),
            hull(
                3,
                &three()[..2],
                &[([0, 1, 2], [v, 0.0, 0.0, 0.0, 1.0, 0.0, v, v, v])],
                &[&[0, 2]],
            ),
        ));
    }
    // Either side of the power's tolerance. Origin: vbap.rs line 574, 1e-12.
    for bits in 0x3586_37bbu32..=0x3586_37c0 {
        let x = f32::from_bits(bits);
        all.push(made(
            format!("inverse times {x:e}"),
            hull(3, &three(), &[([0, 1, 2], corner(x))], &[]),
        ));
    }
    for x in [1e-20, 1e-19, 1e-7, 1e18, 1.8e19, 1.9e19, 3e38] {
        all.push(made(
            format!("inverse times {x:e}"),
            hull(3, &three(), &[([0, 1, 2], corner(x))], &[]),
        ));
    }
    all
}

fn odd_hulls() -> Vec<Made> {
    let one = |corners| vec![(corners, corner(1.0))];
    let forty: Vec<u8> = (0..40).collect();
    let imaginary = |slots: &[u8]| hull(40, &three()[..2], &one([0, 1, 2]), &[slots]);
    let turned = |times: f32| [-times, 0.0, 0.0, 0.0, times, 0.0, 0.0, 0.0, times];
    vec![
        made("no real point, no triplet", hull(3, &[], &[], &[])),
        made("nothing at all, no output", hull(0, &[], &[], &[])),
        made(
            "no triplet, one real point",
            hull(3, &[(2, LEFT)], &[], &[]),
        ),
        made("no triplet, three real points", hull(3, &three(), &[], &[])),
        made(
            "no triplet, equal directions",
            hull(4, &[(3, RIGHT), (1, RIGHT), (0, BACK), (2, BACK)], &[], &[]),
        ),
        made(
            "no triplet, imaginary points",
            hull(3, &three(), &[], &[&[0, 1], &[]]),
        ),
        made(
            "no real point, one triplet",
            hull(3, &[], &one([0, 1, 2]), &[&[0], &[1, 2], &[]]),
        ),
        made("a corner thrice", hull(3, &three(), &one([1, 1, 1]), &[])),
        made("corners falling", hull(3, &three(), &one([2, 1, 0]), &[])),
        made(
            "all points in one slot",
            hull(3, &[(1, RIGHT), (1, TOP), (1, F)], &one([0, 1, 2]), &[]),
        ),
        made(
            "equal triplets, other corners",
            hull(
                3,
                &three(),
                &[([2, 0, 1], corner(1.0)), ([0, 1, 2], corner(1.0))],
                &[],
            ),
        ),
        made(
            "equal smallest gains",
            hull(
                3,
                &three(),
                &[([0, 1, 2], corner(1.0)), ([0, 1, 2], turned(1.0))],
                &[],
            ),
        ),
        made(
            "the second is greater",
            hull(
                3,
                &three(),
                &[([0, 1, 2], corner(1.0)), ([1, 2, 0], corner(1.5))],
                &[],
            ),
        ),
        made("imaginary without neighbours", imaginary(&[])),
        made("imaginary with one neighbour", imaginary(&[1])),
        made("a neighbour thrice", imaginary(&[5, 5, 5])),
        made("a neighbour forty times", imaginary(&[7; 40])),
        made("forty neighbours", imaginary(&forty)),
        made(
            "an imaginary corner thrice",
            hull(2, &[(0, F)], &one([1, 1, 1]), &[&[0, 1]]),
        ),
        made(
            "three imaginary corners",
            hull(
                3,
                &[(0, F)],
                &one([3, 1, 2]),
                &[&[0, 1], &[1, 2], &[2, 0, 1]],
            ),
        ),
        made(
            "fourteen imaginary points",
            hull(
                3,
                &[(0, F)],
                &one([14, 13, 1]),
                &[&[0u8, 1][..]; MAX_IMAGINARY],
            ),
        ),
        made("every count at its limit", full()),
    ]
}

/// Forty real points, eighty triplets, fourteen imaginary points with forty neighbours each.
fn full() -> Panner {
    let mut p = of_kind(Kind::Hull, MAX_OUTPUTS);
    (p.num_real, p.num_tris, p.num_imag) = (MAX_OUTPUTS, MAX_TRIPLETS, MAX_IMAGINARY);
    p.num_nbrs = [MAX_OUTPUTS as u8; MAX_IMAGINARY];
    for n in 0..MAX_OUTPUTS {
        p.pt_out[n] = (n * 7 % MAX_OUTPUTS) as u8;
        p.pt_dir[n] = [n as f32 - 20.0, 7.0, 5.0 - n as f32];
        p.imag_nbrs
            .iter_mut()
            .for_each(|slots| slots[n] = (MAX_OUTPUTS - 1 - n) as u8);
    }
    for t in 0..MAX_TRIPLETS {
        let point = |step: usize| (t * step % (MAX_OUTPUTS + MAX_IMAGINARY)) as u8;
        p.idx[t] = [point(1), point(5), 53 - point(11)];
        p.inv[t] = std::array::from_fn(|e| ((t * 37 + e * 11) % 29) as f32 - 14.0);
    }
    p
}

// ---- malformed, and numbers that nothing reaches

/// The four kinds, with numbers only in their own fields, and none out of range.
fn plain() -> [Panner; 4] {
    let mut mono = of_kind(Kind::Mono, 3);
    mono.mono = 2;
    let pairs = [
        pair(0.0, 3.0, 0, 1, None),
        pair(3.0, 3.5, 1, 2, Some(front_law())),
    ];
    let tris = [([0, 1, 2], corner(1.0)), ([1, 3, 4], corner(-1.0))];
    [
        of_kind(Kind::Silent, 3),
        mono,
        planar(3, &pairs, &[0, 1, 2]),
        hull(3, &three(), &tris, &[&[0, 1], &[2]]),
    ]
}

fn edited(base: &Panner, edit: impl Fn(&mut Panner)) -> Panner {
    let mut p = base.clone();
    edit(&mut p);
    p
}

/// Each number out of range by one, or as far as a byte goes.
fn out_of_range() -> Vec<Made> {
    let [silent, mono, planar, hull] = plain();
    let mut all = Vec::new();
    for base in [&silent, &mono, &planar, &hull] {
        for outputs in [0, 1, 2, 4, 40, 41, 42, 128, 255] {
            all.push(made(
                format!("{:?} with {outputs} outputs", base.kind),
                edited(base, |p| p.num_outputs = outputs),
            ));
        }
    }
    for far in [3, 4, 255] {
        all.push(made(
            format!("mono slot {far}"),
            edited(&mono, |p| p.mono = far),
        ));
        all.push(made(
            format!("slot {far} as a"),
            edited(&planar, |p| p.pairs[1].a = far),
        ));
        all.push(made(
            format!("slot {far} as b"),
            edited(&planar, |p| p.pairs[0].b = far),
        ));
        all.push(made(
            format!("slot {far} of the ring"),
            edited(&planar, |p| p.slots[2] = far),
        ));
        all.push(made(
            format!("slot {far} of a real point"),
            edited(&hull, |p| p.pt_out[2] = far),
        ));
        all.push(made(
            format!("slot {far} of a neighbour"),
            edited(&hull, |p| p.imag_nbrs[1][0] = far),
        ));
    }
    for (place, far) in [(0, 5), (1, 5), (2, 5), (0, 6), (2, 255)] {
        all.push(made(
            format!("point {far} in place {place}"),
            edited(&hull, |p| p.idx[1][place] = far),
        ));
        all.push(made(
            format!("point {far} in place {place} of the first"),
            edited(&hull, |p| p.idx[0][place] = far),
        ));
    }
    all.push(made(
        "one imaginary point fewer",
        edited(&hull, |p| p.num_imag = 1),
    ));
    all.push(made(
        "one real point fewer",
        edited(&hull, |p| p.num_real = 2),
    ));
    all
}

/// Numbers out of range where the kind does not reach them: well-formed.
fn unreached() -> Vec<Made> {
    let [_, mono, planar, hull] = plain();
    let mut mixed = hull.clone();
    (mixed.num_pairs, mixed.pairs) = (planar.num_pairs, planar.pairs);
    (mixed.num_slots, mixed.slots) = (planar.num_slots, planar.slots);
    mixed.mono = 1;
    let kinds = [Kind::Silent, Kind::Mono, Kind::Planar, Kind::Hull];
    let mut all: Vec<Made> = kinds
        .iter()
        .map(|k| {
            made(
                format!("all fields, {k:?}"),
                edited(&mixed, |p| p.kind = *k),
            )
        })
        .collect();
    all.push(made(
        "silent, all numbers out of range",
        edited(&mixed, |p| (p.kind, p.num_outputs) = (Kind::Silent, 0)),
    ));
    all.push(made(
        "mono, points and slots out of range",
        edited(&mixed, |p| {
            (p.kind, p.mono, p.num_outputs) = (Kind::Mono, 0, 1)
        }),
    ));
    all.push(made(
        "planar, points and mono out of range",
        edited(&mixed, |p| {
            (p.kind, p.mono, p.idx[1], p.pt_out[0]) = (Kind::Planar, 9, [9; 3], 9)
        }),
    ));
    all.push(made(
        "hull, slots and mono out of range",
        edited(&mixed, |p| {
            (p.mono, p.pairs[0].a, p.slots[1]) = (200, 200, 200)
        }),
    ));
    all.push(made(
        "mono slot in a silent record",
        edited(&mono, |p| (p.kind, p.mono) = (Kind::Silent, 255)),
    ));
    all
}

/// Every chosen record.
pub fn chosen() -> Vec<Made> {
    [
        odd_rings(),
        odd_pairs(),
        odd_hulls(),
        odd_inverses(),
        out_of_range(),
        unreached(),
    ]
    .into_iter()
    .flatten()
    .collect()
}

// ---- draws

/// A float for a record: mostly of ordinary size.
fn value(r: &mut Random) -> f32 {
    match r.below(12) {
        0 => r.pick(&odd_values()),
        1 => f32::from_bits(F32.any(r) as u32),
        2 => r.between(-1, 1) as f32,
        3 => r.within(-1e3, 1e3) as f32,
        _ => r.within(-2.0, 2.0) as f32,
    }
}

/// A number below `below`, one time in 60 not.
fn number(r: &mut Random, below: usize) -> u8 {
    let beyond = u64::from(r.below(60) == 0);
    r.below((below as u64 + 2 * beyond).max(1)) as u8
}

fn drawn_pair(r: &mut Random, outputs: usize) -> Pair {
    let law = (r.below(2) == 0).then(|| [0; 4].map(|_| value(r)));
    let (start, gap) = match r.below(6) {
        0 => (value(r), value(r)),
        _ => (r.within(-PI64, PI64) as f32, r.within(0.0, 4.0) as f32),
    };
    pair(start, gap, number(r, outputs), number(r, outputs), law)
}

fn drawn_planar(r: &mut Random) -> Panner {
    let outputs = 1 + r.below(6) as usize;
    let pairs: Vec<Pair> = (0..r.below(5)).map(|_| drawn_pair(r, outputs)).collect();
    let slots: Vec<u8> = (0..r.below(7)).map(|_| number(r, outputs)).collect();
    planar(outputs, &pairs, &slots)
}

fn drawn_hull(r: &mut Random) -> Panner {
    let (outputs, n, imaginary) = (
        1 + r.below(6) as usize,
        r.below(6) as usize,
        r.below(4) as usize,
    );
    let real: Vec<(u8, Position)> = (0..n)
        .map(|_| (number(r, outputs), [0; 3].map(|_| value(r))))
        .collect();
    let few = if n + imaginary == 0 { 0 } else { r.below(7) };
    let tris: Vec<Triplet> = (0..few)
        .map(|_| {
            (
                [0; 3].map(|_| number(r, n + imaginary)),
                [0; 9].map(|_| value(r)),
            )
        })
        .collect();
    let lists: Vec<Vec<u8>> = (0..imaginary)
        .map(|_| (0..r.below(5)).map(|_| number(r, outputs)).collect())
        .collect();
    hull(
        outputs,
        &real,
        &tris,
        &lists.iter().map(Vec::as_slice).collect::<Vec<_>>(),
    )
}

/// A record of `new`, one of its numbers or floats replaced.
fn changed(r: &mut Random, from: &[Panner]) -> Panner {
    let mut p = from[r.below(from.len() as u64) as usize].clone();
    let place = |r: &mut Random, count: usize| r.below(count.max(1) as u64) as usize;
    let outputs = p.num_outputs;
    match r.below(10) {
        0 => p.pairs[place(r, p.num_pairs)].start = value(r),
        1 => p.pairs[place(r, p.num_pairs)].gap = value(r),
        2 => p.pairs[place(r, p.num_pairs)].law = Some([0; 4].map(|_| value(r))),
        3 => p.pairs[place(r, p.num_pairs)].a = number(r, outputs),
        4 => p.slots[place(r, p.num_slots)] = number(r, outputs),
        5 => p.pt_out[place(r, p.num_real)] = number(r, outputs),
        6 => p.idx[place(r, p.num_tris)][r.below(3) as usize] = number(r, p.num_real + p.num_imag),
        7 => p.imag_nbrs[place(r, p.num_imag)][0] = number(r, outputs),
        8 => p.num_outputs = r.below(44) as usize,
        _ => p.inv[place(r, p.num_tris)][r.below(9) as usize] = value(r),
    }
    p
}

/// Layouts whose records are changed: of up to eight speakers.
fn bases() -> Vec<Panner> {
    let ring = |n: usize, el: f64| {
        fan(
            &(0..n)
                .map(|i| 360.0 * i as f64 / n as f64)
                .collect::<Vec<_>>(),
            el,
        )
    };
    let all = [
        ring(2, 0.0),
        ring(5, 0.0),
        vec![F, F],
        ring(4, 30.0),
        [ring(4, 0.0), vec![TOP]].concat(),
        vec![F, TOP, RIGHT],
        vec![F],
    ];
    all.iter()
        .map(|p| Layout::new("", p, &[]).opened().panner)
        .collect()
}

/// So many drawn records.
pub fn drawn(r: &mut Random, count: usize) -> Vec<Made> {
    let bases = bases();
    (0..count)
        .map(|n| match n % 3 {
            0 => drawn_planar(r),
            1 => drawn_hull(r),
            _ => changed(r, &bases),
        })
        .map(|record| made("", record))
        .collect()
}
