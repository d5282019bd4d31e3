//! Sessions made by hand: counts and sources out of range, broken floats, and places in use that
//! no session of `open` uses.

use crate::call_line::Made;
use crate::layouts::MAX_SOURCES;
use crate::made_records;
use crate::random::Random;
use crate::record::{Panner, MAX_OUTPUTS};
use crate::row_directions::{special_azimuths, special_elevations};
use crate::session::{Session, DEPTH};
use crate::standins::{HALF_PI, PI64};

/// A float for a place that nothing reaches.
fn stray(r: &mut Random) -> f32 {
    match r.below(4) {
        0 => f32::from_bits(r.pick(&[0x7fc0_0000, 0xff80_0001, 0x7f80_0000, 0x8000_0000, 1])),
        1 => f32::from_bits(r.bits() as u32),
        _ => r.within(-2.0, 2.0) as f32,
    }
}

/// A start gain: mostly from 0 to 1.
fn gain(r: &mut Random) -> f32 {
    match r.below(10) {
        0 => stray(r),
        1 => 0.0,
        _ => r.unit() as f32,
    }
}

fn direction(r: &mut Random) -> [f32; 2] {
    match r.below(8) {
        0 => [r.pick(&special_azimuths()), r.pick(&special_elevations())],
        1 => [stray(r), stray(r)],
        _ => [
            r.within(-PI64, PI64) as f32,
            r.within(-HALF_PI, HALF_PI) as f32,
        ],
    }
}

/// How many directions of a source stand: few, or nearly all.
fn standing(r: &mut Random) -> usize {
    match r.below(6) {
        0 | 1 => 0,
        2 => DEPTH - r.below(2) as usize,
        _ => 1 + r.below(4) as usize,
    }
}

/// Lists and start rows over a record, some of the unused places filled.
fn filled(r: &mut Random, panner: Panner, sources: usize, strays: u64) -> Session {
    let (outputs, mut s) = (
        panner.num_outputs.min(MAX_OUTPUTS),
        Session::fresh(panner, sources),
    );
    for source in 0..sources.min(MAX_SOURCES) {
        let n = standing(r);
        s.counts[source] = n as u8;
        for j in 0..n {
            s.standing[(source * DEPTH + j) * 2..][..2].copy_from_slice(&direction(r));
        }
        if r.below(2) == 0 {
            s.starts[source * MAX_OUTPUTS..][..outputs].fill_with(|| gain(r));
        }
    }
    for _ in 0..strays {
        let place = r.below(s.standing.len() as u64) as usize;
        s.standing[place] = stray(r);
        let place = r.below(s.starts.len() as u64) as usize;
        s.starts[place] = stray(r);
    }
    s
}

/// Counts and sources out of range, now and then.
fn broken(r: &mut Random, s: &mut Session) {
    let place = r.below(MAX_SOURCES as u64) as usize;
    match r.below(12) {
        0 => s.sources = r.pick(&[0, 9, 255]),
        1 => s.counts[place] = r.pick(&[17, 18, 128, 255]),
        2 => s.counts[place] = DEPTH as u8,
        _ => {}
    }
}

/// Counts of the record out of range, or beyond what it lists, now and then.
fn recounted(r: &mut Random, p: &mut Panner) {
    if r.below(12) != 0 {
        return;
    }
    let count = r.pick(&[15, 41, 81, 255, 14, 40, 2]);
    match r.below(6) {
        0 => p.num_pairs = count,
        1 => p.num_slots = count,
        2 => p.num_real = count,
        3 => p.num_tris = count,
        4 => p.num_imag = count,
        _ => p.num_nbrs[r.below(14) as usize] = count as u8,
    }
}

/// The record without the places that its counts do not reach: a line lists none of them.
fn listed_places(p: &Panner) -> Panner {
    let mut q = Panner {
        num_outputs: p.num_outputs,
        kind: p.kind,
        mono: p.mono,
        ..Panner::empty()
    };
    (q.num_pairs, q.num_slots, q.num_real) = (p.num_pairs, p.num_slots, p.num_real);
    (q.num_tris, q.num_imag) = (p.num_tris, p.num_imag);
    q.pairs[..p.num_pairs].copy_from_slice(&p.pairs[..p.num_pairs]);
    q.slots[..p.num_slots].copy_from_slice(&p.slots[..p.num_slots]);
    q.pt_out[..p.num_real].copy_from_slice(&p.pt_out[..p.num_real]);
    q.pt_dir[..p.num_real].copy_from_slice(&p.pt_dir[..p.num_real]);
    q.idx[..p.num_tris].copy_from_slice(&p.idx[..p.num_tris]);
    q.inv[..p.num_tris].copy_from_slice(&p.inv[..p.num_tris]);
    for k in 0..p.num_imag {
        let n = p.num_nbrs[k] as usize;
        q.num_nbrs[k] = p.num_nbrs[k];
        q.imag_nbrs[k][..n].copy_from_slice(&p.imag_nbrs[k][..n]);
    }
    q
}

fn of_record(r: &mut Random, name: String, record: &Panner) -> Made {
    let listed = listed_places(record);
    let sources = if r.below(6) == 0 {
        MAX_SOURCES
    } else {
        1 + r.below(3) as usize
    };
    let strays = if r.below(2) == 0 { 0 } else { r.below(8) };
    let mut session = filled(r, listed.clone(), sources, strays);
    broken(r, &mut session);
    recounted(r, &mut session.panner);
    Made {
        name,
        listed,
        session,
    }
}

/// A count of a record: its name, its limit, and how to set it.
type Count = (&'static str, usize, fn(&mut Panner, usize));

/// Every count of a session and of its record out of range by one in turn, and at its limit.
pub fn chosen(r: &mut Random) -> Vec<Made> {
    let mut all = Vec::new();
    let mut add = |name: String, edit: &dyn Fn(&mut Session)| {
        let mut listed = Panner::empty();
        listed.num_outputs = 2;
        let mut session = filled(r, listed.clone(), 2, 3);
        edit(&mut session);
        listed.num_outputs = session.panner.num_outputs;
        all.push(Made {
            name,
            listed,
            session,
        });
    };
    for sources in [0, 1, 2, 8, 9, 255] {
        add(format!("{sources} sources"), &|s| s.sources = sources);
    }
    for count in [16, 17] {
        for place in 0..MAX_SOURCES {
            add(format!("count {count} in place {place}"), &|s| {
                s.counts[place] = count
            });
        }
    }
    let counts: [Count; 6] = [
        ("outputs", 40, |p, n| p.num_outputs = n),
        ("pairs", 40, |p, n| p.num_pairs = n),
        ("planar slots", 40, |p, n| p.num_slots = n),
        ("real points", 40, |p, n| p.num_real = n),
        ("triplets", 80, |p, n| p.num_tris = n),
        ("imaginary points", 14, |p, n| p.num_imag = n),
    ];
    for over in [0, 1] {
        for (name, limit, set) in counts {
            let n = limit + over;
            add(format!("{n} {name}"), &|s| set(&mut s.panner, n));
        }
        for k in [0, 13] {
            add(format!("{} neighbours of point {k}", 40 + over), &|s| {
                s.panner.num_nbrs[k] = 40 + over as u8
            });
        }
    }
    all
}

/// A session over each chosen record, and over so many drawn ones.
pub fn over_records(r: &mut Random, drawn: usize) -> Vec<Made> {
    let records = made_records::chosen()
        .into_iter()
        .chain(made_records::drawn(r, drawn));
    let records: Vec<_> = records.collect();
    records
        .into_iter()
        .map(|m| of_record(r, m.name, &m.record))
        .collect()
}
