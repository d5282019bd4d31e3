//! What crate `demo_rehearsal` has to write, told by the oracle's own functions and Rust's decimals.

use crate::layouts::{at, opened, ring};
use crate::record::{Kind, Panner, MAX_OUTPUTS};
use crate::session::{open, Session, DEPTH};
use crate::source::vbap_standins::VbapPanner;
use crate::standins::{atan2, PI64};

const ABOUT: &str = "\
A dome of 24 loudspeakers with an LFE, panned by the proved code.
Azimuth 0 is the front, 90 the right; elevation 90 is the zenith.
Angles are shown in degrees and, as the calls take them, in radians.
Degrees have 2 digits after the point; radians, gains and samples have 6.
Each is rounded once, to the nearest, a tie to the even one.
A gain shown as 0.000000 is not 0, but at most half a millionth.
";

/// Origin: document 01, "Returned numbers".
const MEANINGS: [&str; 12] = [
    "accepted",
    "refused: position numbers not a multiple of 3",
    "refused: more than 40 positions",
    "refused: sources not 1 to 8",
    "refused: a triplet list built on the way has more than 80 entries",
    "refused: source number not below the count of sources",
    "refused: 16 directions already stand",
    "refused: none stands",
    "refused: block length is 0 or above 1,024",
    "refused: sample buffer is not sources x block length long",
    "refused: output buffer is not outputs x block length long",
    "refused: malformed",
];

const ROW_HEADING: &str =
    "direction               azimuth  elevation    in radians in radians     squares  slot gain ..\n";
const CALL_HEADING: &str =
    "call                               source  azimuth  elevation    in radians in radians   answer\n";

/// Names, azimuths and elevations of the rows.
const DIRECTIONS: [(&str, f32, f32); 14] = [
    ("front", 0.0, 0.0),
    ("right", 90.0, 0.0),
    ("behind", 180.0, 0.0),
    ("left", -90.0, 0.0),
    ("zenith", 0.0, 90.0),
    ("between two speakers", 15.0, 0.0),
    ("a turn further", 375.0, 0.0),
    ("on the second ring", 22.5, 30.0),
    ("between three", 20.0, 15.0),
    ("high on the left", -45.0, 45.0),
    ("over the zenith", 0.0, 100.0),
    ("below the horizon", 0.0, -30.0),
    ("nadir", 0.0, -90.0),
    ("azimuth not a number", f32::NAN, 0.0),
];

/// The LFE's slot: the last.
const LFE: [usize; 1] = [24];
/// Samples of a block.
const BLOCK: usize = 4;

/// Rings of 12, 8 and 3, one speaker at the zenith, and the LFE below the front. What only the
/// rounding of pi keeps from 0 is 0.
fn dome() -> Vec<f32> {
    let mut all = [ring(12, 0.0, 0.0), ring(8, 22.5, 30.0), ring(3, 0.0, 60.0)].concat();
    all.extend([at(0.0, 90.0), at(0.0, -30.0)]);
    let numbers = all.into_iter().flatten();
    numbers
        .map(|x| if x.abs() < 1e-9 { 0.0 } else { x })
        .collect()
}

// ---- numbers and angles

/// A float with so many digits after the point, at the right of a column.
fn float(x: f32, digits: usize, width: usize) -> String {
    if x.is_nan() {
        return format!("{:>width$}", "nan");
    }
    format!("{x:>width$.digits$}")
}

fn answer(number: u8) -> String {
    format!("{number:>2}  {}\n", MEANINGS[number as usize])
}

fn radians(degrees: f32) -> f32 {
    (degrees as f64 * PI64 / 180.0) as f32
}

fn degrees(radians: f64) -> f32 {
    (radians * 180.0 / PI64) as f32
}

fn azimuth([x, _, z]: [f32; 3]) -> f32 {
    if x == 0.0 && z == 0.0 {
        return 0.0;
    }
    degrees(atan2(x as f64, -z as f64))
}

fn elevation(direction: [f32; 3]) -> f32 {
    let [x, y, z] = direction.map(f64::from);
    degrees(atan2(y, (x * x + z * z).sqrt()))
}

/// A direction in degrees and in radians.
fn angles(azimuth: f32, elevation: f32) -> String {
    let shown = float(azimuth, 2, 9) + &float(elevation, 2, 11);
    shown + &float(radians(azimuth), 6, 14) + &float(radians(elevation), 6, 11)
}

// ---- the layout

/// The points of a hull, its triplets, six to a line, and its imaginary points.
fn hull(p: &Panner) -> String {
    let mut text = "Active speakers, in degrees:\npoint  slot  azimuth  elevation\n".to_string();
    for (i, d) in p.pt_dir[..p.num_real].iter().enumerate() {
        let (az, el) = (float(azimuth(*d), 2, 9), float(elevation(*d), 2, 11));
        text += &format!("{i:>5}{:>6}{az}{el}\n", p.pt_out[i]);
    }
    let first = p.num_real;
    text += &format!("\nTriplets, as point numbers; points from {first} on are imaginary:\n");
    for six in p.idx[..p.num_tris].chunks(6) {
        let line = six.iter().map(|[a, b, c]| format!("{a:>4}{b:>3}{c:>3}"));
        text += &(line.collect::<String>() + "\n");
    }
    text += "\nImaginary points:\npoint  slots that stand in for it\n";
    for k in 0..p.num_imag {
        let slots = p.imag_nbrs[k][..p.num_nbrs[k] as usize].iter();
        let slots: String = slots.map(|s| format!("{s:>3}")).collect();
        text += &format!("{:>5} {slots}\n", first + k);
    }
    text
}

fn layout() -> String {
    let made = opened(&dome(), &LFE, 1);
    let p = &made.panner;
    assert!(p.kind == Kind::Hull, "the dome is a hull");
    let counts = [
        ("outputs", p.num_outputs),
        ("active speakers", p.num_real),
        ("triplets", p.num_tris),
        ("imaginary points", made.imaginary),
    ];
    let counts = counts.map(|(name, n)| format!("{name:<18}{n:>2}\n"));
    let kind = "hull: active speakers above or below the horizon, panned between triplets";
    let head = format!(
        "{:<18}{}{:<18}{kind}\n",
        "number",
        answer(made.refusal),
        "kind"
    );
    head + &counts.concat() + "\n" + &hull(p)
}

// ---- rows

/// The gains that are not 0, each behind its slot, four to a line.
fn gains(row: &[f32], margin: usize) -> String {
    let shown = row.iter().enumerate().filter(|(_, g)| **g != 0.0);
    let shown: Vec<String> = shown
        .map(|(i, g)| format!("{i:>4}{}", float(*g, 6, 9)))
        .collect();
    let lines: Vec<String> = shown.chunks(4).map(|four| four.concat()).collect();
    lines.join(&format!("\n{:margin$}", "")) + "\n"
}

fn rows() -> String {
    let panner = VbapPanner::of_record(&opened(&dome(), &LFE, 1).panner);
    let line = |(name, az, el): (&str, f32, f32)| {
        let mut row = [0.0; MAX_OUTPUTS];
        panner.gains(radians(az), radians(el), &mut row);
        let squares: f64 = row.iter().map(|&g| g as f64 * g as f64).sum();
        let head = format!(
            "{name:<22}{}{}",
            angles(az, el),
            float(squares as f32, 6, 12)
        );
        let margin = head.len();
        head + &gains(&row, margin)
    };
    ROW_HEADING.to_string() + &DIRECTIONS.map(line).concat()
}

// ---- calls

/// A call that names no source.
fn told(call: &str, number: u8) -> String {
    format!("{call:<89}{}", answer(number))
}

fn place(s: &mut Session, source: usize, azimuth: f32, elevation: f32) -> String {
    let number = s.place(source, radians(azimuth), radians(elevation));
    let angles = angles(azimuth, elevation);
    format!("{:<34}{source:>7}{angles}   {}", "place", answer(number))
}

fn on_source(name: &str, source: usize, number: u8) -> String {
    format!("{name:<34}{source:>7}{:48}{}", "", answer(number))
}

/// A block of two sources, 1 and 0.5 throughout, and the outputs that are not silent.
fn render(s: &mut Session) -> String {
    let samples = [[1.0; BLOCK], [0.5; BLOCK]].concat();
    let mut out = vec![0.0; s.panner.num_outputs * BLOCK];
    let mut text = told("render 4 samples", s.render(BLOCK, &samples, &mut out));
    for (slot, heard) in out.chunks(BLOCK).enumerate() {
        if heard.iter().any(|x| *x != 0.0) {
            let samples: String = heard.iter().map(|x| float(*x, 6, 10)).collect();
            text += &format!("    output {slot:>2}{samples}\n");
        }
    }
    text
}

fn holds(s: &Session) -> String {
    let mut text = String::new();
    for source in 0..s.sources {
        let count = s.counts[source];
        text += &format!("source {source}: standing directions{count:>3}\n");
        let list = &s.standing[source * DEPTH * 2..][..count as usize * 2];
        for d in list.chunks(2) {
            text += &format!(
                "    direction {}{}\n",
                float(d[0], 6, 11),
                float(d[1], 6, 11)
            );
        }
        let row = &s.starts[source * MAX_OUTPUTS..][..MAX_OUTPUTS];
        text += &format!("    start row{}", gains(row, 13));
    }
    text
}

fn refused_opens() -> String {
    let dome = dome();
    let of = |numbers: &[f32], sources: usize| open(numbers, &LFE, sources).0;
    told("open, 74 position numbers", of(&[0.0; 74], 2))
        + &told("open, 41 positions", of(&[0.0; 123], 2))
        + &told("open, no source", of(&dome, 0))
        + &told("open, 9 sources", of(&dome, 9))
}

fn refused_renders(s: &Session) -> String {
    let asked = [
        ("render 0 samples", 0, 8, 100),
        ("render 1,025 samples", 1025, 8, 100),
        ("render 4 samples, 7 in the sample buffer", 4, 7, 100),
        ("render 4 samples, 101 in the output buffer", 4, 8, 101),
    ];
    let line = |(call, length, samples, outputs): (&str, usize, usize, usize)| {
        let (samples, mut outputs) = (vec![0.0; samples], vec![0.0; outputs]);
        told(call, s.clone().render(length, &samples, &mut outputs))
    };
    asked.map(line).concat()
}

/// The calls that are refused, each on a copy of its session.
fn refused(fresh: &Session, s: &Session) -> String {
    let mut full = fresh.clone();
    while full.place(0, 0.0, 0.0) == 0 {}
    let mut made = s.clone();
    made.counts[7] = 17;
    refused_opens()
        + &place(&mut s.clone(), 2, 0.0, 0.0)
        + &refused_renders(s)
        + "(on a fresh session)\n"
        + &on_source("take back", 0, fresh.clone().take_back(0))
        + "(on a session whose source 0 has 16 standing directions)\n"
        + &place(&mut full, 0, 0.0, 0.0)
        + "(on a session made by hand, with a count of 17 standing directions)\n"
        + &on_source("settle", 0, made.settle(0))
}

/// Two sources fade in; the first tries the zenith, goes back, and moves to the right.
fn scene() -> String {
    let (number, _, session) = open(&dome(), &LFE, 2);
    let fresh = session.expect("an accepted dome");
    let mut s = fresh.clone();
    let mut text = CALL_HEADING.to_string() + &told("open, 2 sources", number);
    text += &place(&mut s, 0, 0.0, 0.0);
    text += &place(&mut s, 1, -90.0, 0.0);
    text += &render(&mut s);
    text += &place(&mut s, 0, 0.0, 90.0);
    text += &on_source("take back", 0, s.take_back(0));
    text += &place(&mut s, 0, 90.0, 0.0);
    text += &on_source("settle", 0, s.settle(0));
    text += &render(&mut s);
    text += "\nWhat the session holds now, directions in radians, start rows as slot and gain:\n";
    text += &holds(&s);
    text += "\nCalls that are refused, and change nothing:\n";
    text + CALL_HEADING + &refused(&fresh, &s)
}

/// The program's standard output.
pub fn text() -> String {
    let (layout, rows, scene) = (layout(), rows(), scene());
    format!(
        "{ABOUT}\n1. The layout\n\n{layout}\n\
         2. Rows: the gains that are not 0, and the sum of their squares\n\n{rows}\n\
         3. A rehearsal of two sources: the first plays 1 throughout, the second 0.5\n\n{scene}"
    )
}
