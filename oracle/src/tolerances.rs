//! The source's tolerances as variables, for docs/RATIONALE.md: `vbap_measured` asks here for the
//! value in force and notes the outcome of each test. Without a change it is `vbap_standins`.

use std::cell::RefCell;

/// A tolerance of the source: its line there, and its value.
pub struct Tolerance {
    pub name: &'static str,
    pub line: usize,
    pub value: f64,
}

const fn tolerance(name: &'static str, line: usize, value: f64) -> Tolerance {
    Tolerance { name, line, value }
}

/// Places of `TOLERANCES`, by what they guard.
pub const UNIT: usize = 0;
pub const PLANAR: usize = 1;
pub const VBAP_GAP: usize = 2;
pub const SECOND_GAP: usize = 3;
pub const COINCIDENT: usize = 4;
pub const PAIR_DET: usize = 5;
pub const EPS: usize = 6;
pub const NORMAL: usize = 7;
pub const ORIGIN: usize = 8;
pub const AXIS: usize = 9;
pub const DET: usize = 10;
pub const POLE: usize = 11;
pub const CANDIDATE: usize = 12;
pub const TIE: usize = 13;
pub const IMAGINARY: usize = 14;
pub const INSIDE: usize = 15;
pub const NORM: usize = 16;
pub const POWER: usize = 17;
pub const MIX: usize = 18;

/// Every tolerance, in the order of its number in build.rs.
pub const TOLERANCES: [Tolerance; 19] = [
    tolerance("unit", 158, 1e-6),
    tolerance("PLANAR_MAX_ELEVATION", 52, 0.0873f32 as f64),
    tolerance("MAX_VBAP_GAP", 55, (std::f32::consts::PI - 1e-3) as f64),
    tolerance("second gap", 232, 1e-9),
    tolerance("coincident", 233, 1e-6),
    tolerance("determinant of a pair", 240, 1e-9),
    tolerance("EPS", 263, 1e-7),
    tolerance("normal", 274, 1e-9),
    tolerance("distance of a face", 303, 1e-4),
    tolerance("axis of the basis", 325, 0.9),
    tolerance("determinant of a triplet", 345, 1e-9),
    tolerance("pole", 370, 1e-6),
    tolerance("candidate", 385, 1e-6),
    tolerance("equal candidates", 388, 1e-9),
    tolerance("MAX_IMAGINARY", 60, 14.0),
    tolerance("INSIDE_EPS", 57, 1e-6f32 as f64),
    tolerance("norm", 493, 1e-12f32 as f64),
    tolerance("power", 574, 1e-12f32 as f64),
    tolerance("mixed gain", 152, 1e-12f32 as f64),
];

/// Values in force, and how often each test was false and true.
struct State {
    values: [f64; TOLERANCES.len()],
    outcomes: [[u64; 2]; TOLERANCES.len()],
}

const fn start() -> State {
    let mut values = [0.0; TOLERANCES.len()];
    let mut n = 0;
    while n < TOLERANCES.len() {
        values[n] = TOLERANCES[n].value;
        n += 1;
    }
    State {
        values,
        outcomes: [[0; 2]; TOLERANCES.len()],
    }
}

thread_local! {
    static STATE: RefCell<State> = const { RefCell::new(start()) };
}

/// The value in force.
pub fn get(n: usize) -> f64 {
    STATE.with(|s| s.borrow().values[n])
}

/// Notes a test's outcome and gives it back.
pub fn seen(n: usize, outcome: bool) -> bool {
    STATE.with(|s| s.borrow_mut().outcomes[n][outcome as usize] += 1);
    outcome
}

/// How often each test was false and true since the last call.
pub fn take_outcomes() -> [[u64; 2]; TOLERANCES.len()] {
    STATE.with(|s| std::mem::replace(&mut s.borrow_mut().outcomes, [[0; 2]; TOLERANCES.len()]))
}

/// What `work` gives with another value of one tolerance.
pub fn with<T>(n: usize, value: f64, work: impl FnOnce() -> T) -> T {
    let before = get(n);
    STATE.with(|s| s.borrow_mut().values[n] = value);
    let result = work();
    STATE.with(|s| s.borrow_mut().values[n] = before);
    result
}
