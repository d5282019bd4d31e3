//! The oracle against itself: the session as a record and as a history, records of layouts
//! there and back, malformed records, and document 01's cases.

use crate::history::History;
use crate::layouts::{front, open_refusal, opened, random_layout, repeated, triples, MAX_SOURCES};
use crate::lists::INPUTS;
use crate::random::Random;
use crate::record::{Kind, Pair, Panner};
use crate::rows::same;
use crate::session::{open, Call, Session, DEPTH, MAX_BLOCK};
use crate::source::vbap_standins::{normalized_lerp_gain, ramp_add, VbapPanner};
use crate::standins::PI64;

/// Layouts, and call lists. The seed is arbitrary.
const LAYOUTS: usize = 3000;
const SEED: u64 = 0x301;

fn bits(row: &[f32]) -> Vec<u32> {
    row.iter().map(|x| x.to_bits()).collect()
}

// ---- call lists

fn angle(r: &mut Random) -> f32 {
    match r.below(8) {
        0 => f32::from_bits(r.bits() as u32),
        1 => r.pick(&[0.0, -0.0, f32::NAN, f32::INFINITY, f32::NEG_INFINITY]),
        _ => r.within(-PI64, PI64) as f32,
    }
}

/// Zero to `most` samples off the wanted number now and then, so that 9 and 10 occur.
fn buffer(r: &mut Random, wanted: usize) -> Vec<f32> {
    let n = if r.below(12) == 0 {
        r.below(wanted as u64 + 2) as usize
    } else {
        wanted
    };
    (0..n).map(|_| r.within(-1.0, 1.0) as f32).collect()
}

fn block_length(r: &mut Random) -> usize {
    match r.below(20) {
        0 => r.pick(&[0, MAX_BLOCK + 1, usize::MAX / 1000]),
        1 => MAX_BLOCK,
        _ => 1 + r.below(6) as usize,
    }
}

/// A random call; `eager` leans towards placing, so that lists fill up.
fn random_call(r: &mut Random, sources: usize, outputs: usize, eager: bool) -> Call {
    let beyond = u64::from(r.below(10) == 0);
    let source = r.below(sources as u64 + beyond) as usize;
    match r.below(if eager { 24 } else { 10 }) {
        0 | 1 => Call::TakeBack { source },
        2 => Call::Settle { source },
        3 | 4 => {
            let length = block_length(r);
            let wanted = length.min(MAX_BLOCK);
            Call::Render {
                length,
                samples: buffer(r, sources * wanted),
                outputs: buffer(r, outputs * wanted),
            }
        }
        _ => Call::Place {
            source,
            az: angle(r),
            el: angle(r),
        },
    }
}

/// The mix that the rows before and after a render say.
fn mixed(
    before: &[Vec<f32>],
    after: &[Vec<f32>],
    length: usize,
    samples: &[f32],
    outputs: &[f32],
) -> Vec<f32> {
    let mut out = outputs.to_vec();
    for (source, (g0, g1)) in before.iter().zip(after).enumerate() {
        for slot in 0..g0.len() {
            let src = &samples[source * length..(source + 1) * length];
            ramp_add(
                &mut out[slot * length..(slot + 1) * length],
                src,
                g0[slot],
                g1[slot],
            );
        }
    }
    out
}

/// One call on both; the returned number, where they agree in all. The call then holds the mix.
pub fn agree(session: &mut Session, history: &mut History, call: &mut Call) -> Result<u8, String> {
    let (before, asked) = (history.rows.clone(), call.clone());
    let number = history.call(&asked);
    let given = session.call(call);
    if given != number || !history.stands_for(session) {
        return Err(format!(
            "{asked:?}: record gives {given}, history {number}, or they part"
        ));
    }
    if let (
        Call::Render {
            length,
            samples,
            outputs,
        },
        Call::Render { outputs: found, .. },
    ) = (&asked, &*call)
    {
        let told = match number {
            0 => mixed(&before, &history.rows, *length, samples, outputs),
            _ => outputs.clone(),
        };
        if !told.iter().zip(found).all(|(a, b)| same(*a, *b)) || told.len() != found.len() {
            return Err(format!("{asked:?}: another mix"));
        }
    }
    Ok(number)
}

/// The record and the history over one layout and one call list.
fn call_list(r: &mut Random, seen: &mut [u64; 12]) -> Result<usize, String> {
    let most = if r.below(8) == 0 { 40 } else { 10 };
    let (numbers, lfe) = random_layout(r, most);
    let sources = 1 + r.below(MAX_SOURCES as u64) as usize;
    let (number, _, session) = open(&numbers, &lfe, sources);
    seen[number as usize] += 1;
    let Some(mut session) = session else {
        return Ok(0);
    };
    if session.malformed() {
        return Err("a malformed session from open".to_string());
    }
    let mut history = History::beginning(&numbers, &lfe, sources);
    let (count, eager) = (r.below(120) as usize, r.below(2) == 0);
    for _ in 0..count {
        let mut call = random_call(r, sources, numbers.len() / 3, eager);
        seen[agree(&mut session, &mut history, &mut call)? as usize] += 1;
    }
    Ok(count)
}

// ---- layouts

/// A layout's record there and back, its rows before and after.
fn there_and_back(r: &mut Random) -> Result<(), String> {
    let (numbers, lfe) = random_layout(r, 16);
    if open_refusal(&numbers, &lfe, 1) != 0 {
        return Ok(());
    }
    let built = VbapPanner::new(&triples(&numbers), &lfe);
    let record = built.record();
    let again = VbapPanner::of_record(&record);
    if record.malformed() || again.record().words() != record.words() {
        return Err(format!("{numbers:?} {lfe:?}: record malformed or changed"));
    }
    for _ in 0..20 {
        let (az, el) = (angle(r), angle(r));
        let (mut a, mut b) = (vec![0.5; r.below(18) as usize], Vec::new());
        b.extend_from_slice(&a);
        built.gains(az, el, &mut a);
        again.gains(az, el, &mut b);
        if bits(&a) != bits(&b) {
            return Err(format!("{numbers:?} {lfe:?}: rows part at {az} {el}"));
        }
        if a.iter().any(|g| g.is_nan()) {
            return Err(format!("{numbers:?} {lfe:?}: a NaN at {az} {el}"));
        }
    }
    Ok(())
}

fn expect(good: bool, what: &str) -> Result<(), String> {
    if good {
        Ok(())
    } else {
        Err(what.to_string())
    }
}

/// One edit that makes a well-formed record malformed.
fn broken(base: &Panner, edit: impl Fn(&mut Panner), what: &str) -> Result<(), String> {
    let mut p = base.clone();
    edit(&mut p);
    expect(!base.malformed() && p.malformed(), what)
}

/// Document 01, the paragraph on 11: counts in every kind, numbers only where reached.
fn malformed_records() -> Result<(), String> {
    let mut base = Panner::empty();
    base.num_outputs = 2;
    for kind in [Kind::Silent, Kind::Mono, Kind::Planar, Kind::Hull] {
        base.kind = kind;
        broken(&base, |p| p.num_outputs = 41, "outputs")?;
        broken(&base, |p| p.num_real = 41, "real points")?;
        broken(&base, |p| p.num_pairs = 41, "pairs")?;
        broken(&base, |p| p.num_slots = 41, "planar slots")?;
        broken(&base, |p| p.num_tris = 81, "triplets")?;
        broken(&base, |p| p.num_imag = 15, "imaginary points")?;
        broken(&base, |p| p.num_nbrs[13] = 41, "neighbours")?;
    }
    base.kind = Kind::Mono;
    broken(&base, |p| p.mono = 2, "mono slot")?;
    base.kind = Kind::Planar;
    (base.num_pairs, base.num_slots) = (2, 2);
    let pair = |a, b| Pair {
        start: 0.0,
        gap: 1.0,
        a,
        b,
        law: None,
    };
    broken(&base, |p| p.pairs[1] = pair(2, 0), "slot a")?;
    broken(&base, |p| p.pairs[1] = pair(0, 2), "slot b")?;
    broken(&base, |p| p.slots[1] = 2, "planar slot")?;
    base.pairs[2] = pair(9, 9);
    expect(!base.malformed(), "an unused pair")?;
    base.kind = Kind::Hull;
    (base.num_real, base.num_tris, base.num_imag) = (2, 2, 1);
    base.num_nbrs[0] = 2;
    base.idx[1] = [0, 1, 2];
    broken(&base, |p| p.pt_out[1] = 2, "real point's slot")?;
    broken(&base, |p| p.imag_nbrs[0][1] = 2, "neighbour's slot")?;
    broken(&base, |p| p.idx[1][2] = 3, "point number")?;
    broken(
        &base,
        |p| p.num_imag = 0,
        "a point number beyond fewer points",
    )
}

// ---- document 01's cases

/// Document 01, refusal 4 is for any list on the way.
fn refusal_four() -> Result<(), String> {
    let corners = [1.0, -1.0, 1.0, -1.0, 1.0, 1.0, -1.0, 1.0, -1.0];
    let many = opened(&repeated(&corners, [-1.0, 0.0, 0.0], 27), &[], 1);
    expect(
        many.refusal == 4 && many.lengths() == [83, 59, 63],
        "27 copies: 83, 59, 63, refused",
    )?;
    let fewer = opened(&repeated(&corners, [-1.0, 0.0, 0.0], 26), &[], 1);
    expect(
        fewer.refusal == 0 && fewer.lengths() == [80, 57, 61],
        "26 copies: 80, 57, 61, accepted",
    )?;
    expect(
        open_refusal(&front(40).concat(), &[], 1) == 4,
        "forty well-spread speakers in front",
    )
}

/// Document 01, "Proving ground" and the order of refusals 1 to 3.
fn proving_ground() -> Result<(), String> {
    let f = [0.0, 0.0, -1.0];
    let row = |numbers: &[f32], lfe: &[usize], buffer: usize| {
        let mut out = vec![0.5; buffer];
        VbapPanner::of_record(&opened(numbers, lfe, 1).panner).gains(0.0, 0.0, &mut out);
        out
    };
    expect(row(&[], &[], 3) == [0.5; 3], "no positions: untouched")?;
    expect(
        row(&f, &[], 1) == [1.0] && row(&f, &[0], 1) == [0.0],
        "F alone, and as LFE",
    )?;
    expect(
        opened(&[0.0, 0.0, 1e-6], &[], 1).panner.kind == Kind::Silent,
        "1e-6 is dropped",
    )?;
    expect(
        opened(&[0.0, 0.0, 1e-5], &[], 1).panner.kind == Kind::Mono,
        "1e-5 is active",
    )?;
    let two = opened(&repeated(&[], f, 2), &[], 1).panner;
    let pair = two.pairs[0];
    let crossfade = pair.law.is_none() && pair.gap == std::f32::consts::TAU;
    expect(
        two.num_pairs == 1 && (pair.a, pair.b) == (1, 0) && crossfade,
        "F, F: one pair",
    )?;
    expect(
        row(&repeated(&[], f, 2), &[], 2) == [0.0, 1.0],
        "F, F: row 0, 1",
    )?;
    expect(
        row(&repeated(&[], f, 2), &[], 1) == [0.0],
        "F, F into one: 0",
    )?;
    let three = opened(&repeated(&[], f, 3), &[], 1).panner;
    expect(
        three.kind == Kind::Planar && three.num_pairs == 0,
        "F, F, F: planar, no pair",
    )?;
    expect(2f32.sqrt().to_bits() == 0x3fb5_04f3, "root of 2")?;
    let mut ramp = [0.0, 0.0];
    ramp_add(&mut ramp, &[1.0, 1.0], 0.0, 1.0);
    expect(ramp == [0.5, 1.0], "ramp 0 to 1")?;
    expect(
        normalized_lerp_gain(0.25, 0.75, 0.0, 0.0) == 0.25,
        "mixed gain",
    )?;
    expect(
        open_refusal(&repeated(&[], f, 40), &[], 1) == 0,
        "40 times F",
    )?;
    expect(
        open_refusal(&repeated(&[], f, 41), &[], 1) == 2,
        "41 times F",
    )?;
    expect(open_refusal(&[0.0; 124], &[], 0) == 1, "1 before 2 and 3")?;
    expect(open_refusal(&[0.0; 123], &[], 0) == 2, "2 before 3")?;
    expect(
        open_refusal(&f, &[], 0) == 3 && open_refusal(&f, &[], 9) == 3,
        "sources 0 and 9",
    )
}

/// Document 01, the session's cases.
fn session_cases() -> Result<(), String> {
    let mut s = open(&[0.0, 0.0, -1.0], &[], 1)
        .2
        .ok_or("F alone is refused")?;
    let fresh = s.words();
    expect(s.take_back(0) == 7, "fresh, take back: 7")?;
    expect(
        s.place(0, 1.0, 1.0) == 0 && s.take_back(0) == 0 && s.words() == fresh,
        "place, take back: fresh",
    )?;
    expect(
        (0..DEPTH).all(|_| s.place(0, 0.0, 0.0) == 0) && s.place(0, 0.0, 0.0) == 6,
        "sixteen, then 6",
    )?;
    let mut render = |n: usize| s.render(n, &vec![0.0; n], &mut vec![0.0; n]);
    expect(
        render(MAX_BLOCK) == 0 && render(MAX_BLOCK + 1) == 8 && render(0) == 8,
        "1,024 passes, 1,025 and 0: 8",
    )
}

/// The stored lists of calls: how many, none longer than 200 calls, and every number among them.
fn stored_calls() -> Result<(), String> {
    let input = INPUTS
        .iter()
        .find(|i| i.program == "test_calls")
        .ok_or("no lists of calls")?;
    let text = input.text();
    let (mut lists, mut calls, mut seen) = (0, 0, [0u64; 12]);
    for line in text.lines().filter(|l| !l.starts_with('#')) {
        let words: Vec<&str> = line.split(' ').collect();
        let number = match words[0] {
            "open" => words[words.len() - 2],
            "session" | "end" => "",
            _ => words[words.len() - 1],
        };
        match usize::from_str_radix(number, 16) {
            Ok(n) => seen[n] += 1,
            Err(_) => lists += u64::from(words[0] == "end"),
        }
        calls = if words[0] == "end" {
            0
        } else {
            calls + u64::from(!number.is_empty())
        };
        expect(calls <= 200, "a list of more than 200 calls")?;
    }
    println!("{lists} lists of calls; numbers returned, 0 to 11: {seen:?}");
    expect(
        lists >= 3000 && seen.iter().all(|n| *n > 0),
        "3,000 lists and every number",
    )
}

fn run() -> Result<(), String> {
    stored_calls()?;
    proving_ground()?;
    refusal_four()?;
    session_cases()?;
    malformed_records()?;
    let mut r = Random::new(SEED);
    let (mut calls, mut seen) = (0, [0u64; 12]);
    for _ in 0..LAYOUTS {
        calls += call_list(&mut r, &mut seen)?;
        there_and_back(&mut r)?;
    }
    println!("record and history agree over {LAYOUTS} layouts and {calls} calls; numbers returned, 0 to 11: {seen:?}");
    Ok(())
}

/// Prints what was compared; the first difference where there is one.
pub fn report() -> Result<(), String> {
    run()
}
