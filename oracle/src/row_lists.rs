//! The lists of rows: which layouts and records, and how many rows of each.

use crate::chosen_layouts::{
    ends, five_around, fourteen_imaginary, houses, nine_imaginary, open_hull, raised_centre,
    rounded, ten_imaginary,
};
use crate::edges::{Position, BACK, F, LEFT, RIGHT, TOP};
use crate::layout_line::Layout;
use crate::layouts::{at, ordinary, ring};
use crate::lists::{distinct, layouts_of};
use crate::made_records::{self, Made};
use crate::random::Random;
use crate::row_directions::{calls, Direction, Plan};
use crate::rows::{Call, Rows, Subject};
use crate::standins::PI64;

/// Rows of the ordinary layouts, and of the findings'.
const ALL: Plan = Plan {
    crossed: true,
    specials: 0,
    own: 40,
    own_lengths: true,
    borders: 120,
    candidates: 14,
    drawn: 200,
};
/// Rows of the other houses.
const MANY: Plan = Plan {
    crossed: false,
    specials: 36,
    own: 14,
    own_lengths: false,
    borders: 36,
    candidates: 14,
    drawn: 40,
};
/// Rows of the other chosen layouts.
const SOME: Plan = Plan {
    crossed: false,
    specials: 9,
    own: 4,
    own_lengths: false,
    borders: 7,
    candidates: 3,
    drawn: 10,
};
/// Rows of drawn layouts.
const FEW: Plan = Plan {
    crossed: false,
    specials: 3,
    own: 3,
    own_lengths: false,
    borders: 4,
    candidates: 2,
    drawn: 6,
};
/// Rows of records made by hand.
const RECORD: Plan = Plan {
    crossed: false,
    specials: 5,
    own: 0,
    own_lengths: false,
    borders: 4,
    candidates: 4,
    drawn: 7,
};
/// Rows of malformed records.
const REFUSED: Plan = Plan {
    crossed: false,
    specials: 2,
    own: 0,
    own_lengths: false,
    borders: 0,
    candidates: 0,
    drawn: 2,
};

/// Drawn layouts and drawn records in the second list.
const LAYOUTS: usize = 540;
const RECORDS: usize = 330;

fn degrees(az: f64, el: f64) -> Direction {
    ((az * PI64 / 180.0) as f32, (el * PI64 / 180.0) as f32)
}

fn azimuths(bits: &[u32]) -> Vec<Direction> {
    bits.iter().map(|b| (f32::from_bits(*b), 0.0)).collect()
}

/// The layouts of docs/RATIONALE.md with the directions that it speaks of.
fn findings() -> Vec<(Layout, Vec<Direction>)> {
    let told = |name: &str, positions: &[Position], directions: Vec<Direction>| {
        (Layout::new(name, positions, &[]), directions)
    };
    let dome = rounded(
        &[ring(6, 11.25, 0.0), ring(6, 11.25, 60.0)].concat(),
        4.0,
        1000.0,
    );
    let off = f32::from_bits(0x3ab9_5d2c);
    let mut beside = five_around().to_vec();
    beside.push(beside[0]);
    beside[5][0] = f32::from_bits(beside[5][0].to_bits() + 1);
    let arc = (0..20)
        .map(|n| degrees(20.0 + n as f64, 10.0 + 3.0 * n as f64))
        .collect();
    let front = vec![
        degrees(0.0, 0.0),
        degrees(0.0, 1.0),
        degrees(0.0, 3.0),
        degrees(10.0, 0.0),
    ];
    vec![
        told(
            "finding 1: ring of 8",
            &ring(8, 0.0, 0.0),
            azimuths(&[0x4213a7a3, 0x4213a7a4, 0x4213a7a5, 0x4213a7a6]),
        ),
        told(
            "ring of 27",
            &ring(27, 0.0, 0.0),
            azimuths(&[0xbf6e4bad, 0xbf6e4bae, 0xbf6e4baf]),
        ),
        told("finding 2: F, F, F", &[F, F, F], vec![degrees(0.0, 0.0)]),
        told(
            "finding 2: silent hole",
            &[[-1.0, -1.0, -1.0], [-1.0, -1.0, 0.0], TOP, TOP],
            vec![(0.49249327, 0.16161662)],
        ),
        told(
            "finding 3: dome in millimetres",
            &dome,
            vec![degrees(-23.472, 43.499), degrees(-23.461, 43.499)],
        ),
        told(
            "finding 4: zenith a place off",
            &[RIGHT, LEFT, BACK, F, [off, 1.0, 0.0]],
            vec![degrees(0.0, 90.0), degrees(90.0, 89.0)],
        ),
        told("finding 5: a float beside the first", &beside, arc),
        told(
            "finding 6: two speakers, 179 degrees",
            &[at(0.0, 0.0), at(179.0, 0.0)],
            vec![degrees(10.0, 0.0), degrees(169.0, 0.0)],
        ),
        told(
            "finding 9: left, right, up and back",
            &short(),
            [
                vec![degrees(10.0, 20.0)],
                azimuths(&[0x3f060a83, 0x3f060a84]),
            ]
            .concat(),
        ),
        told("raised centre", &raised_centre(5.0), front),
        told("F, F", &[F, F], vec![degrees(0.0, 0.0)]),
        told(
            "F, F and right",
            &[F, F, RIGHT],
            vec![degrees(0.0, 0.0), degrees(45.0, 0.0)],
        ),
    ]
}

/// The loop's ends of docs/RATIONALE.md, section 2, with its directions: between the speakers, at
/// them, next to where the nearest one changes, at the poles, and broken.
fn closing_ends() -> Vec<(Layout, Vec<Direction>)> {
    let around = vec![
        (0.3, 0.2),
        degrees(0.0, 0.0),
        degrees(45.0, 0.0),
        degrees(45.0, 35.0),
        degrees(-135.0, -35.0),
        degrees(36.0, 0.0),
        degrees(37.0, 0.0),
        degrees(0.0, 36.0),
        degrees(0.0, 37.0),
        degrees(0.0, 90.0),
        degrees(120.0, -90.0),
        degrees(180.0, 20.0),
        (f32::NAN, 0.2),
        (0.3, f32::INFINITY),
        (f32::MAX, 0.2),
    ];
    vec![
        (
            Layout::new("finding 17: open hull", &open_hull(), &[]),
            around.clone(),
        ),
        (
            Layout::new("nine imaginary", &nine_imaginary(), &[]),
            around.clone(),
        ),
        (
            Layout::new("open hull, ten imaginary", &ten_imaginary(), &[]),
            around.clone(),
        ),
        (
            Layout::new("open hull, fourteen imaginary", &fourteen_imaginary(), &[]),
            around,
        ),
    ]
}

fn short() -> Vec<Position> {
    vec![at(-30.0, 0.0), at(30.0, 0.0), at(0.0, 60.0), at(180.0, 0.0)]
}

/// The directions with every length of buffer.
fn with_lengths(subject: &Subject, directions: &[Direction]) -> Vec<Call> {
    let lengths = subject.lengths();
    directions
        .iter()
        .flat_map(|&(az, el)| lengths.iter().map(move |&length| Call { az, el, length }))
        .collect()
}

fn add_layout(rows: &mut Rows, r: &mut Random, layout: &Layout, told: &[Direction], plan: Plan) {
    if let Some(subject) = Subject::of_layout(layout) {
        let mut asked = with_lengths(&subject, told);
        asked.extend(calls(r, &subject, &layout.numbers, plan));
        rows.add(&subject, false, &asked);
    }
}

/// Ordinary layouts, findings, the other houses, and the ends of closing.
pub fn first(r: &mut Random) -> (String, String) {
    let mut rows = Rows::default();
    let houses = distinct(houses());
    let (plain, others) = houses.split_at(ordinary().len());
    for layout in plain {
        add_layout(&mut rows, r, layout, &[], ALL);
    }
    for (layout, directions) in findings() {
        add_layout(&mut rows, r, &layout, &directions, MANY);
    }
    for layout in others {
        add_layout(&mut rows, r, layout, &[], MANY);
    }
    for (layout, directions) in closing_ends() {
        add_layout(&mut rows, r, &layout, &directions, MANY);
    }
    (rows.what(), rows.text)
}

/// A well-formed record made by hand is asked straight ahead, right, up and between these.
fn add_record(rows: &mut Rows, r: &mut Random, Made { name, record }: Made) {
    let subject = Subject::of_record(&name, record);
    let (plan, mut asked) = if subject.malformed() {
        (REFUSED, vec![])
    } else {
        (RECORD, corners(&subject))
    };
    asked.extend(calls(r, &subject, &[], plan));
    rows.add(&subject, true, &asked);
}

fn corners(subject: &Subject) -> Vec<Call> {
    let directions = [
        degrees(0.0, 0.0),
        degrees(90.0, 0.0),
        degrees(0.0, 90.0),
        degrees(40.0, 35.0),
    ];
    let length = subject.lengths()[0];
    directions.map(|(az, el)| Call { az, el, length }).to_vec()
}

/// Records made by hand, the chosen layouts that are no houses, drawn ones, and those next to the
/// ends of closing.
pub fn second(r: &mut Random) -> (String, String) {
    let mut rows = Rows::default();
    for made in made_records::chosen()
        .into_iter()
        .chain(made_records::drawn(r, RECORDS))
    {
        add_record(&mut rows, r, made);
    }
    let (houses, ends) = (houses(), ends());
    let apart: Vec<_> = houses.iter().chain(&ends).map(Layout::bits).collect();
    for layout in layouts_of("layouts")
        .iter()
        .filter(|l| !apart.contains(&l.bits()))
    {
        add_layout(&mut rows, r, layout, &[], SOME);
    }
    let drawn = layouts_of("layouts_random");
    for layout in drawn.iter().step_by(drawn.len() / LAYOUTS) {
        add_layout(&mut rows, r, layout, &[], FEW);
    }
    for layout in &ends {
        add_layout(&mut rows, r, layout, &[], SOME);
    }
    (rows.what(), rows.text)
}
