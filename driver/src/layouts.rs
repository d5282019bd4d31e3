//! Layouts of `new` and `open`, records made by hand, and the rows of both.

use driver::boundary::{self, Record, Session};
use driver::records::{arrays, other_part, session_arrays, HEAD, PAIR_BYTES};
use oracle::layout_line::{Layout, Words};
use oracle::layouts::{opened, triples, Opened};
use oracle::made_records;
use oracle::random::Random;
use oracle::random_layouts::draw;
use oracle::record::{Kind, Panner, MAX_IMAGINARY, MAX_OUTPUTS, MAX_TRIPLETS};
use oracle::row_directions::{calls, Plan};
use oracle::rows::{Call, Subject};
use oracle::session::Session as OracleSession;
use oracle::source::vbap_standins::VbapPanner;

use crate::hex::{any, first_other, planted, word, words};
use crate::tally::Tally;

/// Rows of one layout or record.
const ROWS: usize = 110;

const PLAN: Plan = Plan {
    crossed: false,
    specials: 14,
    own: 6,
    own_lengths: false,
    borders: 24,
    candidates: 14,
    drawn: ROWS,
};

/// Every place of arrays that are about to be handed out, filled with something else.
fn filled(r: &mut Random) -> Session {
    let mut s = Session::empty();
    s.bytes.fill(r.bits() as u8);
    s.floats.fill(planted(r, 1)[0]);
    s
}

/// The same of a record.
fn filled_record(r: &mut Random) -> Record {
    let mut to = Record::empty();
    to.bytes.fill(r.bits() as u8);
    to.floats.fill(planted(r, 1)[0]);
    to
}

/// What the imaginary count holds before a call. Origin: above every count.
const BEFORE: usize = 1_000;

/// Whether the layout was accepted, by a call that answered with this number and left this imaginary count.
fn answered(call: &str, given: &Opened, told: (u32, usize)) -> Result<bool, String> {
    let accepted = given.refusal == 0;
    let imaginary = if accepted { given.imaginary } else { BEFORE };
    let expected = (u32::from(given.refusal), imaginary);
    if told == expected {
        return Ok(accepted);
    }
    let (number, left) = told;
    Err(format!(
        "{call} answers {number} and {left}, expected {expected:?}"
    ))
}

/// `new` and `open` on one layout: open's number, or what differs. Beside a refusal every lent place keeps its bits.
fn openings(r: &mut Random, layout: &Layout, sources: usize) -> Result<u32, String> {
    let (numbers, lfe) = (&layout.numbers[..], &layout.lfe[..]);
    let given = opened(numbers, lfe, 1);
    let before = filled_record(r);
    let (mut ours, mut imaginary) = (before.clone(), BEFORE);
    let number = boundary::new(numbers, lfe, &mut imaginary, &mut ours);
    let accepted = answered("new", &given, (number, imaginary))?;
    let told = if accepted {
        arrays(&given.panner)
    } else {
        before
    };
    if let Some(part) = other_part([&ours.bytes, &told.bytes], [&ours.floats, &told.floats]) {
        return Err(format!("new: another place among the {part}"));
    }
    let given = opened(numbers, lfe, sources);
    let before = filled(r);
    let (mut ours, mut imaginary) = (before.clone(), BEFORE);
    let number = boundary::open(numbers, lfe, sources, &mut imaginary, &mut ours);
    let accepted = answered("open", &given, (number, imaginary))?;
    let told = if accepted {
        session_arrays(&OracleSession::fresh(given.panner, sources))
    } else {
        before
    };
    match other_part([&ours.bytes, &told.bytes], [&ours.floats, &told.floats]) {
        Some(part) => Err(format!("open: another place among the {part}")),
        None => Ok(number),
    }
}

/// A layout that differs, with as few speakers as taking them away one by one gives.
fn smallest(r: &mut Random, layout: &Layout, sources: usize) -> String {
    let mut least = layout.clone();
    let mut at = 0;
    while at * 3 + 3 <= least.numbers.len() {
        let mut fewer = least.clone();
        fewer.numbers.drain(at * 3..at * 3 + 3);
        if openings(r, &fewer, sources).is_err() {
            least = fewer;
        } else {
            at += 1;
        }
    }
    let what = openings(r, &least, sources).err().unwrap_or_default();
    format!(
        "{what}\npositions {}\nlfe {:x?} sources {sources}",
        words(&least.numbers),
        least.lfe
    )
}

// ---- records made by hand

/// A record of any bits: counts about their limits, any numbers, any floats.
fn wild(r: &mut Random) -> Panner {
    let mut p = Panner::empty();
    let near = |r: &mut Random, limit: u64| {
        let beyond = if r.below(25) == 0 { 20 } else { 0 };
        r.below(limit + 1 + beyond) as usize
    };
    let any_byte = |r: &mut Random, below: usize| {
        if r.below(200) == 0 {
            r.bits() as u8
        } else {
            r.below(below.max(1) as u64) as u8
        }
    };
    p.kind = r.pick(&[
        Kind::Silent,
        Kind::Mono,
        Kind::Planar,
        Kind::Hull,
        Kind::Planar,
        Kind::Hull,
    ]);
    (p.num_outputs, p.num_pairs, p.num_slots) = (near(r, 40), near(r, 40), near(r, 40));
    (p.num_real, p.num_tris, p.num_imag) = (near(r, 40), near(r, 80), near(r, 14));
    let (outputs, points) = (p.num_outputs, p.num_real + p.num_imag);
    p.mono = any_byte(r, outputs);
    for pair in &mut p.pairs {
        (pair.start, pair.gap) = (any(r), any(r));
        (pair.a, pair.b) = (any_byte(r, outputs), any_byte(r, outputs));
        pair.law = (r.below(2) == 0).then(|| [0; 4].map(|_| any(r)));
    }
    p.slots
        .iter_mut()
        .chain(&mut p.pt_out)
        .for_each(|s| *s = any_byte(r, outputs));
    p.imag_nbrs
        .as_flattened_mut()
        .iter_mut()
        .for_each(|s| *s = r.below(outputs.max(1) as u64) as u8);
    p.num_nbrs.iter_mut().for_each(|n| *n = r.below(41) as u8);
    p.pt_dir
        .as_flattened_mut()
        .iter_mut()
        .for_each(|x| *x = any(r));
    p.idx
        .as_flattened_mut()
        .iter_mut()
        .for_each(|n| *n = r.below(points.max(1) as u64) as u8);
    p.inv
        .as_flattened_mut()
        .iter_mut()
        .for_each(|x| *x = any(r));
    p
}

/// A record made by hand.
pub fn by_hand(r: &mut Random) -> Panner {
    match r.below(4) {
        0 => wild(r),
        n => made_records::drawn(r, 3).swap_remove(n as usize - 1).record,
    }
}

/// Arrays with an unknown kind or law: 11 from every call, every array unchanged.
fn no_record(r: &mut Random, record: &Panner) -> Result<(), String> {
    let mut a = arrays(record);
    if r.below(2) == 0 {
        a.bytes[HEAD][1] = 4 + r.below(252) as u8;
    } else {
        a.bytes[PAIR_BYTES][r.below(40) as usize * 3 + 2] = 2 + r.below(254) as u8;
    }
    let before = planted(r, 9);
    let mut out = before.clone();
    let number = boundary::gains(&a, 0.5, 0.25, &mut out);
    let mut count = BEFORE;
    let good = number == 11
        && first_other(&out, &before, 0).is_none()
        && boundary::num_outputs(&a, &mut count) == 11
        && count == BEFORE;
    if good {
        Ok(())
    } else {
        Err(format!("arrays of no record: gains answers {number}"))
    }
}

// ---- rows

/// One row, into a buffer of planted NaNs.
fn other_row(
    r: &mut Random,
    a: &Record,
    outputs: usize,
    panner: Option<&VbapPanner>,
    call: Call,
) -> Option<String> {
    let before = planted(r, call.length);
    let (mut ours, mut theirs) = (before.clone(), before);
    let number = boundary::gains(a, call.az, call.el, &mut ours);
    let expected = match panner {
        Some(p) => {
            p.gains(call.az, call.el, &mut theirs);
            0
        }
        None => 11,
    };
    let n = if expected == 0 {
        outputs.min(call.length)
    } else {
        0
    };
    if number != expected {
        return Some(format!("answers {number}, expected {expected}"));
    }
    let place = first_other(&ours, &theirs, n)?;
    Some(format!(
        "place {place} is {}, expected {}",
        word(ours[place]),
        word(theirs[place])
    ))
}

/// All rows of one width in one call.
fn other_rows(
    r: &mut Random,
    a: &Record,
    outputs: usize,
    panner: Option<&VbapPanner>,
    asked: &[Call],
) -> Option<String> {
    let width = outputs.min(40) + r.below(3) as usize;
    let (az, el): (Vec<f32>, Vec<f32>) = asked.iter().map(|c| (c.az, c.el)).unzip();
    let behind = r.below(3) as usize;
    let before = planted(r, width * asked.len() + behind);
    let (mut ours, mut theirs) = (before.clone(), before);
    let number = boundary::gains_all(a, &az, &el, width, &mut ours);
    let expected = if panner.is_some() { 0 } else { 11 };
    if number != expected {
        return Some(format!("gains_all answers {number}, expected {expected}"));
    }
    for (i, call) in asked.iter().enumerate() {
        let part = i * width..(i + 1) * width;
        let n = panner.map_or(0, |p| {
            p.gains(call.az, call.el, &mut theirs[part.clone()]);
            outputs.min(width)
        });
        if let Some(place) = first_other(&ours[part.clone()], &theirs[part], n) {
            return Some(format!("gains_all: row {i} differs at place {place}"));
        }
    }
    let end = width * asked.len();
    first_other(&ours[end..], &theirs[end..], 0)
        .map(|_| "gains_all: a place behind the rows".to_string())
}

/// A count is over its array.
fn counts_over(p: &Panner) -> bool {
    let most = p.num_real.max(p.num_pairs).max(p.num_slots);
    most > MAX_OUTPUTS
        || p.num_tris > MAX_TRIPLETS
        || p.num_imag > MAX_IMAGINARY
        || p.num_nbrs.iter().any(|&n| usize::from(n) > MAX_OUTPUTS)
}

/// The record in the words of the stored lists; by its fields where a count is over its array.
fn line(record: &Panner) -> String {
    if counts_over(record) {
        return format!("{record:x?}");
    }
    let mut line = Words::new("record");
    line.panner(record);
    line.line()
}

/// The directions and lengths that a record is asked at.
pub fn asked(r: &mut Random, record: &Panner, numbers: &[f32]) -> Vec<Call> {
    if counts_over(record) {
        let length = |r: &mut Random| r.below(44) as usize;
        return (0..ROWS)
            .map(|_| Call {
                az: any(r),
                el: any(r),
                length: length(r),
            })
            .collect();
    }
    let subject = Subject::of_record("", record.clone());
    let mut asked = calls(r, &subject, numbers, PLAN);
    asked.truncate(ROWS);
    asked
}

fn rows(
    r: &mut Random,
    record: &Panner,
    numbers: &[f32],
    panner: Option<&VbapPanner>,
    tally: &mut Tally,
) -> Result<(), String> {
    let a = arrays(record);
    let shown = |call: Call, what: String| {
        let (az, el) = (word(call.az), word(call.el));
        format!(
            "gains at {az} {el} into {}: {what}
{}",
            call.length,
            line(record)
        )
    };
    let expected = if panner.is_some() {
        (0, record.num_outputs)
    } else {
        (11, BEFORE)
    };
    let mut count = BEFORE;
    let number = boundary::num_outputs(&a, &mut count);
    tally.saw(number);
    if (number, count) != expected {
        return Err(format!(
            "num_outputs answers {number} and {count}, expected {expected:?}"
        ));
    }
    let asked = asked(r, record, numbers);
    for call in &asked {
        if let Some(what) = other_row(r, &a, record.num_outputs, panner, *call) {
            return Err(shown(*call, what));
        }
    }
    tally.rows += asked.len() as u64;
    if r.below(8) == 0 {
        let few = &asked[..asked.len().min(12)];
        if let Some(what) = other_rows(r, &a, record.num_outputs, panner, few) {
            return Err(what);
        }
    }
    no_record(r, record)
}

/// One layout with its rows, or one record made by hand with its rows.
pub fn case(r: &mut Random, tally: &mut Tally) -> Result<(), String> {
    if r.below(3) == 0 {
        let record = by_hand(r);
        let panner = (!record.malformed()).then(|| VbapPanner::of_record(&record));
        tally.records += 1;
        tally.malformed += u64::from(panner.is_none());
        return rows(r, &record, &[], panner.as_ref(), tally);
    }
    let layout = draw(r);
    let sources = r.below(10) as usize;
    tally.layouts += 1;
    match openings(r, &layout, sources) {
        Ok(number) => tally.saw(number),
        Err(_) => return Err(smallest(r, &layout, sources)),
    }
    let given = layout.opened();
    if given.refusal != 0 {
        return Ok(());
    }
    let panner = VbapPanner::new(&triples(&layout.numbers), &layout.lfe);
    rows(r, &given.panner, &layout.numbers, Some(&panner), tally)
}
