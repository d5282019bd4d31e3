//! Sessions of 8 sources on a dome of 40: a block through `render`, and calls on one source.

use std::hint::black_box;

use driver::boundary::{self, Session};
use driver::records::{session, STARTS};
use oracle::layouts::{triples, MAX_SOURCES};
use oracle::random::Random;
use oracle::record::MAX_OUTPUTS;
use oracle::session::{open, Session as OracleSession, DEPTH, MAX_BLOCK};

use crate::layouts::layout;
use crate::measure::{least, Bits};
use crate::ramps::drawn;
use crate::rows::{directions, Directions};
use crate::source::{OnLibm, Source, WithStandins};
use crate::table::{print, Aim};

const NAME: &str = "dome of 40";
/// Directions of one pass of place and take back.
const DIRECTIONS: usize = 1024;
/// Greatest elevation of the directions; any will do.
const HIGHEST: f64 = 1.5;
/// Seed of the draws (arbitrary).
const SEED: u64 = 0x5e55;

type Starts = [f32; MAX_SOURCES * MAX_OUTPUTS];

/// One session for each side, and the output buffer that all mix into.
#[derive(Clone)]
struct Sides {
    ours: Session,
    standins: OracleSession,
    libm: OracleSession,
    outputs: Vec<f32>,
}

impl Sides {
    /// Opened, with one standing direction for each source.
    fn new(d: &Directions) -> Sides {
        let l = layout(NAME);
        let mut ours = Session::empty();
        let mut made = 0;
        let answer = boundary::open(&l.numbers, &l.lfe, MAX_SOURCES, &mut made, &mut ours);
        let (number, imaginary, theirs) = open(&l.numbers, &l.lfe, MAX_SOURCES);
        assert_eq!((answer, made), (number.into(), imaginary));
        let mut theirs = theirs.expect("an accepted layout");
        for i in 0..MAX_SOURCES {
            assert_eq!(boundary::place(&mut ours, i, d.az[i], d.el[i]), 0);
            assert_eq!(theirs.place(i, d.az[i], d.el[i]), 0);
        }
        let libm = theirs.clone();
        let outputs = vec![0.0; MAX_OUTPUTS * MAX_BLOCK];
        Sides {
            ours,
            standins: theirs,
            libm,
            outputs,
        }
    }

    fn start_at(&mut self, starts: &Starts) {
        self.ours.floats[STARTS].copy_from_slice(starts);
        self.standins.starts = *starts;
        self.libm.starts = *starts;
    }

    /// Stops the run where ours and the oracle's session differ in a bit.
    fn same(&self) {
        let ours = session(&self.ours).words();
        assert!(ours == self.standins.words(), "sessions differ");
    }
}

/// Document 01's render by the source's own functions: its panner held ready, nothing refused.
fn render<P: Source>(panner: &P, s: &mut OracleSession, samples: &[f32], outputs: &mut [f32]) {
    let mut row = [0.0; MAX_OUTPUTS];
    for i in 0..MAX_SOURCES {
        let last = (i * DEPTH + s.counts[i] as usize - 1) * 2;
        panner.gains(s.standing[last], s.standing[last + 1], &mut row);
        let src = &samples[i * MAX_BLOCK..][..MAX_BLOCK];
        let starts = &mut s.starts[i * MAX_OUTPUTS..][..MAX_OUTPUTS];
        for (o, dst) in outputs.chunks_exact_mut(MAX_BLOCK).enumerate() {
            P::ramp_add(dst, src, starts[o], row[o]);
        }
        starts.copy_from_slice(&row);
    }
}

/// The sessions after a block; the run stops where ours, the oracle's and the source's loop leave
/// different bits.
fn rendered(before: &Sides, panner: &WithStandins, samples: &[f32]) -> Sides {
    let (mut s, mut oracle) = (before.clone(), before.clone());
    assert_eq!(
        boundary::render(&mut s.ours, MAX_BLOCK, samples, &mut s.outputs),
        0
    );
    assert_eq!(
        oracle
            .standins
            .render(MAX_BLOCK, samples, &mut oracle.outputs),
        0
    );
    assert!(s.outputs.bits() == oracle.outputs.bits(), "outputs differ");
    let mut outputs = before.outputs.clone();
    render(panner, &mut s.standins, samples, &mut outputs);
    assert!(s.outputs.bits() == outputs.bits(), "outputs differ");
    assert!(
        s.standins.words() == oracle.standins.words(),
        "sessions differ"
    );
    s.same();
    s
}

/// The sessions ahead of a block. Standing still: the start rows are the targets. Moving: they are
/// made by hand and have the target's gain in no place.
fn before(moving: bool, made: &Starts, panner: &WithStandins, samples: &[f32]) -> Sides {
    let mut first = Sides::new(&directions(MAX_SOURCES, 0.0, HIGHEST));
    first.start_at(made);
    let second = rendered(&first, panner, samples);
    let targets = &second.ours.floats[STARTS];
    assert!(made.iter().zip(targets).all(|(a, b)| a != b));
    let third = rendered(&second, panner, samples);
    let starts = &third.ours.floats[STARTS];
    assert!(starts.iter().zip(targets).all(|(a, b)| a == b));
    if moving {
        first
    } else {
        third
    }
}

/// Samples of a block, and start rows made by hand.
fn inputs() -> (Vec<f32>, Starts) {
    let mut r = Random::new(SEED);
    let samples = drawn(&mut r, MAX_SOURCES * MAX_BLOCK, -1.0, 1.0);
    let made = drawn(&mut r, MAX_SOURCES * MAX_OUTPUTS, 0.1, 0.9);
    (samples, made.try_into().expect("a gain for each place"))
}

/// Microseconds of a block. Where it moves, every block starts at the rows made by hand.
fn block(work: &str, moving: bool, aim: Aim) {
    let l = layout(NAME);
    let positions = triples(&l.numbers);
    let standins = WithStandins::new(&positions, &l.lfe);
    let libm = OnLibm::new(&positions, &l.lfe);
    let (samples, made) = inputs();
    let samples = &samples[..];
    let mut lent = before(moving, &made, &standins, samples);
    let begin = |starts: &mut [f32]| {
        if moving {
            starts.copy_from_slice(&made);
        }
    };
    let ours = |s: &mut Sides| {
        begin(&mut s.ours.floats[STARTS]);
        boundary::render(&mut s.ours, MAX_BLOCK, black_box(samples), &mut s.outputs);
    };
    let standins = |s: &mut Sides| {
        begin(&mut s.standins.starts);
        render(
            &standins,
            &mut s.standins,
            black_box(samples),
            &mut s.outputs,
        );
    };
    let libm = |s: &mut Sides| {
        begin(&mut s.libm.starts);
        render(&libm, &mut s.libm, black_box(samples), &mut s.outputs);
    };
    let times = least(&mut lent, [&ours, &standins, &libm]);
    print(work, times.map(|s| vec![s * 1e6]), aim);
}

/// The same of a block standing still, against `render` of the oracle's record.
fn block_of_record(work: &str) {
    let l = layout(NAME);
    let panner = WithStandins::new(&triples(&l.numbers), &l.lfe);
    let (samples, made) = inputs();
    let samples = &samples[..];
    let mut lent = before(false, &made, &panner, samples);
    let ours = |s: &mut Sides| {
        boundary::render(&mut s.ours, MAX_BLOCK, black_box(samples), &mut s.outputs);
    };
    let theirs = |s: &mut Sides| {
        s.standins
            .render(MAX_BLOCK, black_box(samples), &mut s.outputs);
    };
    let times = least(&mut lent, [&ours, &theirs]);
    let [ours, theirs] = times.map(|s| vec![s * 1e6]);
    print(work, [ours, theirs, vec![]], Aim::NONE);
}

/// Nanoseconds of a call on source 0, of which a pass has so many.
fn calls(
    work: &str,
    count: usize,
    ours: fn(&mut Session, &Directions),
    theirs: fn(&mut OracleSession, &Directions),
) {
    let d = directions(DIRECTIONS, 0.0, HIGHEST);
    let mut lent = Sides::new(&d);
    let ours = |s: &mut Sides| ours(black_box(&mut s.ours), black_box(&d));
    let theirs = |s: &mut Sides| theirs(black_box(&mut s.standins), black_box(&d));
    ours(&mut lent);
    theirs(&mut lent);
    lent.same();
    let times = least(&mut lent, [&ours, &theirs]);
    let [ours, theirs] = times.map(|s| vec![s * 1e9 / count as f64]);
    print(work, [ours, theirs, vec![]], Aim::NONE);
}

fn place_take_back(s: &mut Session, d: &Directions) {
    assert_eq!(boundary::place_take_back_all(s, 0, &d.az, &d.el), 0);
}

fn oracle_place_take_back(s: &mut OracleSession, d: &Directions) {
    for (az, el) in d.az.iter().zip(&d.el) {
        assert_eq!(s.place(0, *az, *el), 0);
        assert_eq!(s.take_back(0), 0);
    }
}

/// The same with a call for each, the session in and out each time.
fn place_and_take_back(s: &mut Session, d: &Directions) {
    for (az, el) in d.az.iter().zip(&d.el) {
        assert_eq!(boundary::place(s, 0, *az, *el), 0);
        assert_eq!(boundary::take_back(s, 0), 0);
    }
}

fn settle(s: &mut Session, _: &Directions) {
    assert_eq!(boundary::settle(s, 0), 0);
}

fn oracle_settle(s: &mut OracleSession, _: &Directions) {
    assert_eq!(s.settle(0), 0);
}

pub fn lines() {
    let ramping = Aim::NONE.libm(1.0 / 3.0);
    block(
        "block of 8 × 40 × 1,024, standing still, µs",
        false,
        Aim::NONE,
    );
    block("block of 8 × 40 × 1,024, all ramping, µs", true, ramping);
    block_of_record("render standing still, the oracle's record, µs");
    let pair = "place and take back, the oracle's record, ns";
    calls(pair, DIRECTIONS, place_take_back, oracle_place_take_back);
    let each = "place, then take back, in and out each time, ns";
    calls(each, DIRECTIONS, place_and_take_back, oracle_place_take_back);
    calls("settle, the oracle's record, ns", 1, settle, oracle_settle);
    let bytes = [size_of::<Session>(), size_of::<OracleSession>()];
    let [ours, theirs] = bytes.map(|n| vec![n as f64]);
    print(
        "session, the oracle's record, bytes",
        [ours, theirs, vec![]],
        Aim::NONE,
    );
}
