//! `new`: microseconds for each layout.

use std::hint::black_box;

use driver::boundary::{self, Record};
use driver::records::panner;
use oracle::chosen_layouts::houses;
use oracle::layout_line::Layout;
use oracle::layouts::triples;

use crate::measure::least;
use crate::source::{OnLibm, WithStandins};
use crate::table::{print, Aim};

/// Two rings, a room with heights, and two domes.
pub const NAMES: [&str; 5] = ["5.1", "ring of 8", "7.1.4", "dome of 24", "dome of 40"];

pub fn is_dome(name: &str) -> bool {
    name.starts_with("dome")
}

pub fn layout(name: &str) -> Layout {
    let found = houses().into_iter().find(|l| l.name == name);
    found.expect("a layout of the oracle")
}

/// Our record of a layout; the run stops where it differs from the oracle's in a bit.
pub fn record(layout: &Layout) -> Record {
    let given = layout.opened();
    let mut r = Record::empty();
    let mut imaginary = 0;
    let number = boundary::new(&layout.numbers, &layout.lfe, &mut imaginary, &mut r);
    assert_eq!((number, imaginary), (given.refusal.into(), given.imaginary));
    let same = panner(&r).words() == given.panner.words();
    assert!(same, "{}: records differ", layout.name);
    r
}

fn line(name: &str, aim: Aim) {
    let layout = layout(name);
    let (numbers, lfe) = (&layout.numbers[..], &layout.lfe[..]);
    let positions = &triples(numbers)[..];
    let ours = |r: &mut Record| {
        boundary::new(black_box(numbers), black_box(lfe), &mut 0, black_box(r));
    };
    let standins = |_: &mut Record| {
        black_box(WithStandins::new(black_box(positions), black_box(lfe)));
    };
    let libm = |_: &mut Record| {
        black_box(OnLibm::new(black_box(positions), black_box(lfe)));
    };
    let times = least(&mut record(&layout), [&ours, &standins, &libm]);
    let figures = times.map(|s| vec![s * 1e6]);
    print(&format!("`new`, {name}, µs"), figures, aim);
}

pub fn lines() {
    for name in NAMES {
        let aim = Aim::NONE.standins(if is_dome(name) { 1.0 / 2.0 } else { 1.0 });
        let largest = name == "dome of 40";
        line(name, if largest { aim.libm(1.0 / 3.0) } else { aim });
    }
}
