//! Lists of calls on a session: ours, the oracle's as a record, and, of an opened session, its history.

use driver::boundary::{self, Session};
use driver::records::{other_part, session, session_arrays, STARTS};
use oracle::history::History;
use oracle::layouts::MAX_SOURCES;
use oracle::random::Random;
use oracle::random_layouts::draw;
use oracle::session::{open, Call, Session as OracleSession, DEPTH, MAX_BLOCK};

use crate::hex::{any, first_other, planted, samples, word, words};
use crate::layouts::by_hand;
use crate::tally::Tally;

/// Where a list begins: the arguments of an accepted open, or none for a session made by hand.
#[derive(Clone)]
struct Beginning {
    opened: Option<(Vec<f32>, Vec<usize>)>,
    session: OracleSession,
}

/// A session of any bits over a record made by hand; now and then its counts are out of range.
fn made_by_hand(r: &mut Random) -> OracleSession {
    let sources = if r.below(12) == 0 {
        r.below(11) as usize
    } else {
        1 + r.below(MAX_SOURCES as u64) as usize
    };
    let mut s = OracleSession::fresh(by_hand(r), sources);
    let over = u64::from(r.below(12) == 0);
    s.counts
        .iter_mut()
        .for_each(|n| *n = r.below(DEPTH as u64 + 1 + over) as u8);
    let (standing, starts) = (planted(r, s.standing.len()), planted(r, s.starts.len()));
    for (x, p) in s.standing.iter_mut().zip(standing) {
        *x = if r.below(3) == 0 { p } else { any(r) };
    }
    for (x, p) in s.starts.iter_mut().zip(starts) {
        *x = if r.below(3) == 0 { p } else { any(r) };
    }
    s
}

/// An opened session, or one made by hand; none where the open is refused.
fn beginning(r: &mut Random) -> Option<Beginning> {
    if r.below(3) == 0 {
        return Some(Beginning {
            opened: None,
            session: made_by_hand(r),
        });
    }
    let layout = draw(r);
    let sources = 1 + r.below(MAX_SOURCES as u64) as usize;
    let session = open(&layout.numbers, &layout.lfe, sources).2?;
    Some(Beginning {
        opened: Some((layout.numbers, layout.lfe)),
        session,
    })
}

// ---- calls

fn angle(r: &mut Random) -> f32 {
    if r.below(4) == 0 {
        any(r)
    } else {
        r.within(-3.2, 3.2) as f32
    }
}

/// Samples, ordinary or of any bits; now and then one too many or too few of them.
fn buffer(r: &mut Random, wanted: usize) -> Vec<f32> {
    let n = if r.below(12) == 0 {
        r.below(wanted as u64 + 2) as usize
    } else {
        wanted
    };
    let ordinary = r.below(3) > 0;
    samples(r, n, ordinary)
}

fn block(r: &mut Random) -> usize {
    match r.below(40) {
        0 => r.pick(&[0, MAX_BLOCK + 1, usize::MAX, usize::MAX / 8]),
        1 => r.pick(&[MAX_BLOCK, 64, 100]),
        _ => 1 + r.below(9) as usize,
    }
}

/// A call; an eager list leans towards placing, so that lists fill up.
fn call(r: &mut Random, sources: usize, outputs: usize, eager: bool) -> Call {
    let beyond = u64::from(r.below(10) == 0);
    let source = match r.below(60) {
        0 => r.pick(&[usize::MAX, 1 << 32, 8, 255, 256]),
        _ => r.below((sources as u64 + beyond).max(1)) as usize,
    };
    match r.below(if eager { 24 } else { 10 }) {
        0 | 1 => Call::TakeBack { source },
        2 => Call::Settle { source },
        3 | 4 => {
            let length = block(r);
            let wanted = length.min(MAX_BLOCK);
            let mut outputs = buffer(r, outputs.min(41) * wanted);
            if r.below(4) == 0 {
                outputs = planted(r, outputs.len());
            }
            Call::Render {
                length,
                samples: buffer(r, sources * wanted),
                outputs,
            }
        }
        _ => Call::Place {
            source,
            az: angle(r),
            el: angle(r),
        },
    }
}

fn ours(s: &mut Session, call: &mut Call) -> u32 {
    match call {
        Call::Place { source, az, el } => boundary::place(s, *source, *az, *el),
        Call::TakeBack { source } => boundary::take_back(s, *source),
        Call::Settle { source } => boundary::settle(s, *source),
        Call::Render {
            length,
            samples,
            outputs,
        } => boundary::render(s, *length, samples, outputs),
    }
}

fn shown(call: &Call) -> String {
    match call {
        Call::Place { source, az, el } => format!("place {source:x} {} {}", word(*az), word(*el)),
        Call::TakeBack { source } => format!("take_back {source:x}"),
        Call::Settle { source } => format!("settle {source:x}"),
        Call::Render {
            length,
            samples,
            outputs,
        } => {
            format!(
                "render {length:x}\n  samples {}\n  outputs {}",
                words(samples),
                words(outputs)
            )
        }
    }
}

// ---- one list

/// What differs in the session: a start gain that a render wrote may be any NaN, every other bit counts.
fn other_session(ours: &Session, theirs: &OracleSession, rendered: bool) -> Option<String> {
    let mut told = session_arrays(theirs);
    for source in 0..MAX_SOURCES {
        let row = STARTS.start + source * 40..STARTS.start + (source + 1) * 40;
        let written = if rendered && source < theirs.sources {
            theirs.panner.num_outputs
        } else {
            0
        };
        if let Some(place) = first_other(&ours.floats[row.clone()], &told.floats[row.clone()], written) {
            return Some(format!("start gain {place} of source {source}"));
        }
        told.floats[row.clone()].copy_from_slice(&ours.floats[row]);
    }
    let part = other_part([&ours.bytes, &told.bytes], [&ours.floats, &told.floats])?;
    Some(format!("another place among the {part}"))
}

/// The first call of a list after which something differs, and what.
fn first_difference(
    from: &Beginning,
    list: &[Call],
    numbers: &mut Vec<u32>,
) -> Option<(usize, String)> {
    let mut theirs = from.session.clone();
    let mut s = session_arrays(&theirs);
    let mut history = from
        .opened
        .as_ref()
        .map(|(n, l)| History::beginning(n, l, theirs.sources));
    let mut rendered = false;
    for (at, call) in list.iter().enumerate() {
        let (mut our_call, mut their_call) = (call.clone(), call.clone());
        let number = ours(&mut s, &mut our_call);
        let expected = u32::from(theirs.call(&mut their_call));
        numbers.push(expected);
        if number != expected {
            return Some((at, format!("answers {number}, expected {expected}")));
        }
        if let Some(told) = history
            .as_mut()
            .map(|h| u32::from(h.call(call)))
            .filter(|n| *n != expected)
        {
            return Some((
                at,
                format!("the oracle's record answers {expected}, its history {told}"),
            ));
        }
        if let (Call::Render { outputs: a, .. }, Call::Render { outputs: b, .. }) =
            (&our_call, &their_call)
        {
            rendered |= expected == 0;
            let n = if expected == 0 { a.len() } else { 0 };
            if let Some(place) = first_other(a, b, n) {
                return Some((
                    at,
                    format!(
                        "output {place} is {}, expected {}",
                        word(a[place]),
                        word(b[place])
                    ),
                ));
            }
        }
        if let Some(what) = other_session(&s, &theirs, rendered) {
            return Some((at, what));
        }
    }
    let parted = history.is_some_and(|h| !h.stands_for(&theirs) || !h.stands_for(&session(&s)));
    parted.then(|| (list.len(), "the history says another session".to_string()))
}

/// The list up to the difference, without the calls that it does not need.
fn smallest(from: &Beginning, list: &[Call], at: usize) -> String {
    let mut least = list[..(at + 1).min(list.len())].to_vec();
    let mut place = 0;
    while place < least.len() {
        let mut fewer = least.clone();
        fewer.remove(place);
        if first_difference(from, &fewer, &mut Vec::new()).is_some() {
            least = fewer;
        } else {
            place += 1;
        }
    }
    let what = first_difference(from, &least, &mut Vec::new()).map_or(String::new(), |d| d.1);
    let begun = match &from.opened {
        Some((numbers, lfe)) => format!(
            "open {} lfe {lfe:x?} sources {}",
            words(numbers),
            from.session.sources
        ),
        None => format!("a session made by hand: {:x?}", from.session.words()),
    };
    let calls: Vec<String> = least.iter().map(shown).collect();
    format!("{what}\n{begun}\n{}", calls.join("\n"))
}

/// One list of up to 200 calls.
pub fn case(r: &mut Random, tally: &mut Tally) -> Result<(), String> {
    let Some(from) = beginning(r) else {
        return Ok(());
    };
    let (sources, outputs) = (from.session.sources, from.session.panner.num_outputs);
    let most = r.pick(&[20, 60, 200]);
    let (count, eager) = (r.below(most + 1), r.below(2) == 0);
    let list: Vec<Call> = (0..count)
        .map(|_| call(r, sources, outputs, eager))
        .collect();
    let mut numbers = Vec::new();
    let difference = first_difference(&from, &list, &mut numbers);
    tally.lists += 1;
    tally.calls += numbers.len() as u64;
    numbers.iter().for_each(|n| tally.saw(*n));
    difference.map_or(Ok(()), |(at, _)| Err(smallest(&from, &list, at)))
}
