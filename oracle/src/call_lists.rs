//! The lists of calls: which sessions, and which calls on each.

use crate::call_line::{Asked, Draws, Writer};
use crate::chosen_calls;
use crate::edges::F;
use crate::layout_line::Layout;
use crate::layouts::{front, ordinary, random_layout, repeated, MAX_SOURCES};
use crate::made_sessions;
use crate::random::Random;
use crate::row_directions::{special_azimuths, special_elevations};
use crate::session::MAX_BLOCK;
use crate::standins::{HALF_PI, PI64};

/// Lists over opened sessions, and drawn records with a list each.
const OPENED: usize = 2150;
const RECORDS: usize = 650;
/// The most calls of a list behind its opens, of which it has two at most: 200 in all.
const LONGEST: u64 = 198;

// ---- calls

/// An angle: mostly ordinary, else special or any bits.
fn angle(r: &mut Random, ordinary: f64, special: &[f32]) -> f32 {
    match r.below(12) {
        0 => r.pick(special),
        1 => f32::from_bits(r.bits() as u32),
        _ => r.within(-ordinary, ordinary) as f32,
    }
}

/// A block length: mostly 1 to 8, now and then none, the greatest or more.
fn block_length(r: &mut Random) -> usize {
    match r.below(400) {
        0 => MAX_BLOCK,
        1 => MAX_BLOCK + 1,
        2 => usize::MAX - r.below(3) as usize,
        3..=9 => 0,
        10..=19 => 1 + r.below(64) as usize,
        _ => 1 + r.below(8) as usize,
    }
}

/// The wanted length of a buffer, now and then another: none, one off, or any up to twice.
fn buffer_length(r: &mut Random, wanted: usize) -> usize {
    match r.below(40) {
        0 => 0,
        1 => wanted + 1,
        2 => wanted.saturating_sub(1),
        3 => r.below(2 * wanted as u64 + 2) as usize,
        _ => wanted,
    }
}

fn render(r: &mut Random, sources: usize, outputs: usize) -> Asked {
    let length = block_length(r);
    let most = length.min(MAX_BLOCK + 1);
    let (sources, outputs) = (sources.min(MAX_SOURCES), outputs.min(40));
    let samples = buffer_length(r, sources * most).min(MAX_SOURCES * (MAX_BLOCK + 1));
    let outputs = buffer_length(r, outputs * most).min(40 * (MAX_BLOCK + 1));
    Asked::Render {
        length,
        samples,
        outputs,
        seed: 1 + r.below(Draws::MODULUS - 1),
    }
}

/// A source number: mostly one that there is.
fn source_number(r: &mut Random, sources: usize) -> usize {
    match r.below(60) {
        0 => usize::MAX >> r.below(64),
        1 => sources + r.below(8) as usize,
        2 => sources,
        _ => r.below(sources.max(1) as u64) as usize,
    }
}

/// How a list leans: how many of 100 calls are take backs, settles and renders; the rest place.
type Leaning = [u64; 3];

/// Even, placing, taking back, and little but renders.
const LEANINGS: [Leaning; 4] = [[22, 6, 30], [4, 1, 12], [45, 3, 20], [10, 10, 60]];

fn call(r: &mut Random, sources: usize, outputs: usize, leaning: Leaning) -> Asked {
    let [back, settle, renders] = leaning;
    let source = source_number(r, sources);
    let n = r.below(100);
    if n < back {
        Asked::TakeBack { source }
    } else if n < back + settle {
        Asked::Settle { source }
    } else if n < back + settle + renders {
        render(r, sources, outputs)
    } else {
        Asked::Place {
            source,
            az: angle(r, PI64, &special_azimuths()),
            el: angle(r, HALF_PI, &special_elevations()),
        }
    }
}

/// How many calls a list has: mostly some tens, now and then the most.
fn calls_of(r: &mut Random) -> u64 {
    match r.below(40) {
        0 => LONGEST,
        1..=4 => r.below(LONGEST + 1),
        5..=7 => r.below(5),
        _ => 5 + r.below(50),
    }
}

fn calls(w: &mut Writer, r: &mut Random, count: u64, leaning: Leaning) {
    for _ in 0..count {
        let asked = call(r, w.session.sources, w.session.panner.num_outputs, leaning);
        w.ask(asked);
    }
}

// ---- opened sessions

/// A layout: of a house, drawn with up to so many speakers, or one that `open` refuses.
fn layout(r: &mut Random) -> Layout {
    let most = match r.below(40) {
        0 => 40,
        1..=4 => 1,
        5..=9 => 2,
        10..=24 => 5,
        _ => 9,
    };
    match r.below(60) {
        0 => Layout {
            name: String::new(),
            numbers: vec![1.0; 1 + r.below(130) as usize],
            lfe: vec![],
        },
        1 if r.below(4) == 0 => Layout::new("", &vec![F; 41 + r.below(2) as usize], &[]),
        1 => Layout {
            name: String::new(),
            numbers: repeated(&[1.0; 4], F, r.below(5) as usize),
            lfe: vec![3],
        },
        2 if r.below(6) == 0 => Layout::new("", &front(40), &[]),
        3..=5 => {
            let houses = ordinary();
            let house = &houses[r.below(houses.len() as u64) as usize];
            Layout::new("", &house.positions, &house.lfe)
        }
        _ => {
            let (numbers, lfe) = random_layout(r, most);
            Layout {
                name: String::new(),
                numbers,
                lfe,
            }
        }
    }
}

fn sources(r: &mut Random) -> usize {
    match r.below(40) {
        0 => r.pick(&[0, 9, 10, 255, 256, usize::MAX]),
        1..=6 => MAX_SOURCES,
        _ => 1 + r.below(4) as usize,
    }
}

/// Named lists, then drawn ones over opened sessions; now and then a list opens again.
pub fn opened(r: &mut Random) -> (String, String) {
    let mut w = Writer::new();
    chosen_calls::chosen(&mut w);
    for _ in 0..OPENED {
        let (count, leaning) = (calls_of(r), r.pick(&LEANINGS));
        let again = if r.below(16) == 0 {
            r.below(count + 1)
        } else {
            count
        };
        w.open(&layout(r), sources(r));
        calls(&mut w, r, again, leaning);
        if again < count {
            w.open(&layout(r), sources(r));
            calls(&mut w, r, count - again, leaning);
        }
        w.end();
    }
    (w.what(), w.text)
}

/// Lists over sessions made by hand.
pub fn made(r: &mut Random) -> (String, String) {
    let mut w = Writer::new();
    let mut all = made_sessions::chosen(r);
    all.extend(made_sessions::over_records(r, RECORDS));
    for made in all {
        let (count, leaning) = (calls_of(r) / 2, r.pick(&LEANINGS));
        w.give(&made);
        calls(&mut w, r, count, leaning);
        w.end();
    }
    (w.what(), w.text)
}
