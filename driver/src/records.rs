//! The oracle's records as the boundary's arrays, and back. Floats are copied and not computed with.

use std::ops::Range;

use oracle::record::{Kind, Pair, Panner};
use oracle::session::Session as OracleSession;

use crate::boundary::{Record, Session, RECORD_BYTES, RECORD_FLOATS};

/// Where the parts of the bytes stand. Origin: `include/panner.h`.
pub const HEAD: Range<usize> = 0..8;
pub const PAIR_BYTES: Range<usize> = 8..128;
pub const SLOTS: Range<usize> = 128..168;
pub const PT_OUT: Range<usize> = 168..208;
pub const IDX: Range<usize> = 208..448;
pub const NUM_NBRS: Range<usize> = 448..462;
pub const IMAG_NBRS: Range<usize> = 462..RECORD_BYTES;
pub const SOURCES: usize = RECORD_BYTES;
pub const COUNTS: Range<usize> = 1023..1031;

/// And those of the floats.
pub const PAIR_NUMBERS: Range<usize> = 0..240;
pub const PT_DIR: Range<usize> = 240..360;
pub const INV: Range<usize> = 360..RECORD_FLOATS;
pub const STARTS: Range<usize> = RECORD_FLOATS..1400;
pub const STANDING: Range<usize> = 1400..1656;

/// The names of a session's parts, for a difference.
pub const BYTE_PARTS: [(&str, Range<usize>); 9] = [
    ("head", HEAD),
    ("pairs' bytes", PAIR_BYTES),
    ("slots", SLOTS),
    ("points' slots", PT_OUT),
    ("triplets", IDX),
    ("counts of neighbours", NUM_NBRS),
    ("neighbours", IMAG_NBRS),
    ("sources", SOURCES..COUNTS.start),
    ("counts", COUNTS),
];
pub const FLOAT_PARTS: [(&str, Range<usize>); 5] = [
    ("pairs' numbers", PAIR_NUMBERS),
    ("points' directions", PT_DIR),
    ("inverses", INV),
    ("start rows", STARTS),
    ("standing directions", STANDING),
];

/// Numbers and bytes of a pair; triplets of an entry's row of inverses.
const OF_PAIR: (usize, usize) = (6, 3);
const TRIPLETS: usize = 80;

/// The bytes and floats of a record, into the first places of such arrays. A count must fit a byte.
fn lay(p: &Panner, bytes: &mut [u8], floats: &mut [f32]) {
    let byte = |n: usize| u8::try_from(n).expect("a count that fits a byte");
    bytes[HEAD].copy_from_slice(&[
        byte(p.num_outputs),
        p.kind as u8,
        p.mono,
        byte(p.num_pairs),
        byte(p.num_slots),
        byte(p.num_real),
        byte(p.num_tris),
        byte(p.num_imag),
    ]);
    for (i, pair) in p.pairs.iter().enumerate() {
        let numbers = &mut floats[PAIR_NUMBERS][i * OF_PAIR.0..(i + 1) * OF_PAIR.0];
        numbers[..2].copy_from_slice(&[pair.start, pair.gap]);
        numbers[2..].copy_from_slice(&pair.law.unwrap_or([0.0; 4]));
        let three = [pair.a, pair.b, pair.law.is_some() as u8];
        bytes[PAIR_BYTES][i * OF_PAIR.1..(i + 1) * OF_PAIR.1].copy_from_slice(&three);
    }
    bytes[SLOTS].copy_from_slice(&p.slots);
    bytes[PT_OUT].copy_from_slice(&p.pt_out);
    floats[PT_DIR].copy_from_slice(p.pt_dir.as_flattened());
    bytes[IDX].copy_from_slice(p.idx.as_flattened());
    for (t, inverse) in p.inv.iter().enumerate() {
        for (e, &x) in inverse.iter().enumerate() {
            floats[INV][e * TRIPLETS + t] = x;
        }
    }
    bytes[NUM_NBRS].copy_from_slice(&p.num_nbrs);
    bytes[IMAG_NBRS].copy_from_slice(p.imag_nbrs.as_flattened());
}

/// The arrays of an oracle's record.
pub fn arrays(p: &Panner) -> Record {
    let mut r = Record::empty();
    lay(p, &mut r.bytes, &mut r.floats);
    r
}

/// Pair i of the arrays.
fn pair(bytes: &[u8], floats: &[f32], i: usize) -> Pair {
    let n = &floats[PAIR_NUMBERS][i * OF_PAIR.0..(i + 1) * OF_PAIR.0];
    let s = &bytes[PAIR_BYTES][i * OF_PAIR.1..(i + 1) * OF_PAIR.1];
    let law = [n[2], n[3], n[4], n[5]];
    Pair {
        start: n[0],
        gap: n[1],
        a: s[0],
        b: s[1],
        law: (s[2] == 1).then_some(law),
    }
}

/// The oracle's record in the first places of the arrays. The kind must be one of four.
fn taken(bytes: &[u8], floats: &[f32]) -> Panner {
    let head: [u8; 8] = bytes[HEAD].try_into().expect("eight bytes");
    let [outputs, kind, mono, pairs, slots, real, tris, imag] = head;
    let mut p = Panner::empty();
    p.num_outputs = outputs as usize;
    p.kind = [Kind::Silent, Kind::Mono, Kind::Planar, Kind::Hull][kind as usize];
    p.mono = mono;
    p.num_pairs = pairs as usize;
    p.pairs = std::array::from_fn(|i| pair(bytes, floats, i));
    p.num_slots = slots as usize;
    p.slots.copy_from_slice(&bytes[SLOTS]);
    p.num_real = real as usize;
    p.pt_out.copy_from_slice(&bytes[PT_OUT]);
    p.pt_dir.as_flattened_mut().copy_from_slice(&floats[PT_DIR]);
    p.num_tris = tris as usize;
    p.idx.as_flattened_mut().copy_from_slice(&bytes[IDX]);
    for (place, &x) in floats[INV].iter().enumerate() {
        p.inv[place % TRIPLETS][place / TRIPLETS] = x;
    }
    p.num_imag = imag as usize;
    p.num_nbrs.copy_from_slice(&bytes[NUM_NBRS]);
    p.imag_nbrs
        .as_flattened_mut()
        .copy_from_slice(&bytes[IMAG_NBRS]);
    p
}

/// The oracle's record of the arrays.
pub fn panner(r: &Record) -> Panner {
    taken(&r.bytes, &r.floats)
}

/// The arrays of an oracle's session.
pub fn session_arrays(s: &OracleSession) -> Session {
    let mut to = Session::empty();
    lay(&s.panner, &mut to.bytes, &mut to.floats);
    to.bytes[SOURCES] = u8::try_from(s.sources).expect("sources that fit a byte");
    to.bytes[COUNTS].copy_from_slice(&s.counts);
    to.floats[STANDING].copy_from_slice(&s.standing);
    to.floats[STARTS].copy_from_slice(&s.starts);
    to
}

/// The oracle's session of the arrays.
pub fn session(s: &Session) -> OracleSession {
    let panner = taken(&s.bytes, &s.floats);
    let mut to = OracleSession::fresh(panner, s.bytes[SOURCES] as usize);
    to.counts.copy_from_slice(&s.bytes[COUNTS]);
    to.standing.copy_from_slice(&s.floats[STANDING]);
    to.starts.copy_from_slice(&s.floats[STARTS]);
    to
}

/// The part in which two lists of arrays differ in a bit.
pub fn other_part(bytes: [&[u8]; 2], floats: [&[f32]; 2]) -> Option<&'static str> {
    let byte = bytes[0].iter().zip(bytes[1]).position(|(a, b)| a != b);
    let at = |parts: &[(&'static str, Range<usize>)], place: usize| {
        parts.iter().find(|(_, p)| p.contains(&place)).map(|p| p.0)
    };
    if let Some(place) = byte {
        return at(&BYTE_PARTS, place);
    }
    let bits = |l: &[f32]| l.iter().map(|x| x.to_bits()).collect::<Vec<u32>>();
    let float = bits(floats[0])
        .iter()
        .zip(bits(floats[1]))
        .position(|(a, b)| *a != b);
    float.and_then(|place| at(&FLOAT_PARTS, place))
}
