//! Reads the panner's source and writes the three modules that src/source.rs includes:
//! `vbap_standins.rs`, its library calls replaced by document 01's stand-ins,
//! `vbap_measured.rs`, the same with its tolerances as variables and its tests counted, and
//! `vbap_libm.rs`, unchanged. Any count other than the expected one stops the build.

use std::env;
use std::fs;
use std::path::PathBuf;

/// A text of the source, what stands in for it, and how often it must occur.
struct Swap {
    from: &'static str,
    to: &'static str,
    count: usize,
}

const fn swap(from: &'static str, to: &'static str, count: usize) -> Swap {
    Swap { from, to, count }
}

/// Document 01, "Number work": the library calls of the source and their stand-ins.
const STANDINS: [Swap; 11] = [
    // Origin: vbap.rs lines 91, 206, 237, 238, 477, 489.
    swap(".sin()", ".standin_sin()", 6),
    // Origin: vbap.rs lines 237, 238, 477, 489.
    swap(".cos()", ".standin_cos()", 4),
    // Origin: vbap.rs lines 180, 181.
    swap(".sin_cos()", ".standin_sin_cos()", 2),
    // Origin: vbap.rs lines 223, 330.
    swap(".atan2(", ".standin_atan2(", 2),
    // Origin: vbap.rs lines 231, 335, 466, 468.
    swap(".rem_euclid(", ".standin_rem_euclid(", 4),
    // Origin: vbap.rs lines 90, 149, 151, 484.
    swap(".clamp(0.0, 1.0)", ".standin_clamp()", 4),
    // Origin: vbap.rs line 486, twice.
    swap(".powi(4)", ".standin_powi4()", 2),
    // Origin: vbap.rs lines 479, 480, 489 (twice), 552.
    swap(".max(0.0)", ".standin_max(0.0)", 5),
    // Origin: vbap.rs line 152.
    swap(".max(1e-12)", ".standin_max(1e-12)", 1),
    // Origin: vbap.rs line 526, twice.
    swap(".min(g[", ".standin_min(g[", 2),
    // Origin: vbap.rs line 384.
    swap("f64::max", "crate::standins::max64", 1),
];

/// Instrumentation: the length of every triplet list, for refusal 4, and whether its hull is
/// closed. Origin: vbap.rs line 360.
const INSTRUMENTS: [Swap; 1] = [swap(
    "let tiled = enclosed && !tris.is_empty();",
    "let tiled = enclosed && !tris.is_empty(); crate::source::list_built(tris.len(), tiled);",
    1,
)];

/// The tolerances as variables: `get` gives the value in force, `seen` notes a test's outcome.
/// The numbers are places of src/tolerances.rs, `TOLERANCES`.
const TOLERANCES: [Swap; 21] = [
    swap(
        "if l <= 1e-6 || !l.is_finite() {",
        "if seen(0, l <= get(0)) || !l.is_finite() {",
        1,
    ),
    swap(
        "let lo = PLANAR_MAX_ELEVATION;",
        "let lo = get(1) as f32;",
        1,
    ),
    swap(
        "u[1].abs() <= (PLANAR_MAX_ELEVATION as f64).standin_sin()",
        "seen(1, u[1].abs() <= get(1).standin_sin())",
        1,
    ),
    swap(
        "if (gap as f32) < MAX_VBAP_GAP {",
        "if seen(2, (gap as f32) < get(2) as f32) {",
        1,
    ),
    swap(
        "if m == 2 && i == 1 && gap < 1e-9 {",
        "if m == 2 && i == 1 && seen(3, gap < get(3)) {",
        1,
    ),
    swap("if gap < 1e-6 {", "if seen(4, gap < get(4)) {", 1),
    swap(
        "if det.abs() < 1e-9 {\n                    None",
        "if seen(5, det.abs() < get(5)) {\n                    None",
        1,
    ),
    swap(
        "const EPS: f64 = 1e-7;",
        "#[allow(non_snake_case)]\n        let EPS: f64 = get(6);",
        1,
    ),
    swap(
        "if !all_below && !all_above {",
        "if seen(6, !all_below && !all_above) {",
        1,
    ),
    swap("if nl < 1e-9 {", "if seen(7, nl < get(7)) {", 1),
    swap("if d < 1e-4 {", "if seen(8, d < get(8)) {", 1),
    swap(
        "if nrm[0].abs() < 0.9 {",
        "if seen(9, nrm[0].abs() < get(9)) {",
        1,
    ),
    swap(
        "if det.abs() < 1e-9 {\n                        continue",
        "if seen(10, det.abs() < get(10)) {\n                        continue",
        1,
    ),
    swap(
        "p[1] * y >= 1.0 - 1e-6",
        "seen(11, p[1] * y >= 1.0 - get(11))",
        1,
    ),
    swap(
        "if nearest >= 1.0 - 1e-6 {",
        "if seen(12, nearest >= 1.0 - get(12)) {",
        1,
    ),
    swap("nearest < b - 1e-9", "seen(13, nearest < b - get(13))", 1),
    swap(
        "pts.len() - nreal < MAX_IMAGINARY {",
        "seen(14, pts.len() - nreal < get(14) as usize) {",
        1,
    ),
    swap(
        "if rel <= p.gap + INSIDE_EPS {",
        "if seen(15, rel <= p.gap + get(15) as f32) {",
        1,
    ),
    swap(
        "if norm > 1e-12 {",
        "if seen(16, norm > get(16) as f32) {",
        1,
    ),
    swap("if pow > 1e-12 {", "if seen(17, pow > get(17) as f32) {", 1),
    swap(".standin_max(1e-12)", ".standin_max(get(18) as f32)", 1),
];

/// What may be left of a name after the replacement: only calls on whole numbers.
const LEFT: [(&str, usize); 14] = [
    // Origin: vbap.rs lines 320, 446, 560, 563, 591.
    (".min(", 5),
    // Origin: vbap.rs line 597.
    (".max(", 1),
    (".clamp(", 0),
    (".powi(", 0),
    (".powf(", 0),
    (".tan(", 0),
    (".atan(", 0),
    (".asin(", 0),
    (".acos(", 0),
    (".exp(", 0),
    (".ln(", 0),
    (".hypot(", 0),
    (".mul_add(", 0),
    ("f32::max", 0),
];

fn expect(what: &str, found: usize, count: usize) {
    if found != count {
        panic!("vbap.rs: `{what}` occurs {found} times, {count} expected; the oracle's replacements no longer fit the source");
    }
}

fn swapped(mut text: String, swaps: &[Swap]) -> String {
    for s in swaps {
        expect(s.from, text.matches(s.from).count(), s.count);
        text = text.replace(s.from, s.to);
    }
    text
}

/// An included file may not open with inner doc comments: `//!` becomes `//`.
fn includable(text: &str) -> String {
    text.lines()
        .map(|l| {
            l.strip_prefix("//!")
                .map_or(l.to_string(), |r| format!("//{r}"))
                + "\n"
        })
        .collect()
}

fn main() {
    println!("cargo:rerun-if-env-changed=PANNER_DOCS");
    let docs = env::var("PANNER_DOCS").unwrap_or("../../shared/docs".to_string());
    let path = PathBuf::from(docs).join("src/crates/quasar-dsp/src/vbap.rs");
    println!("cargo:rerun-if-changed={}", path.display());
    let source = fs::read_to_string(&path).unwrap_or_else(|e| {
        panic!(
            "{}: {e}; PANNER_DOCS must name the folder of the documents",
            path.display()
        )
    });
    let source = includable(&source);
    let text = swapped(swapped(source.clone(), &STANDINS), &INSTRUMENTS);
    for (what, count) in LEFT {
        expect(what, text.matches(what).count(), count);
    }
    let out = PathBuf::from(env::var("OUT_DIR").expect("set by cargo"));
    fs::write(
        out.join("vbap_measured.rs"),
        swapped(text.clone(), &TOLERANCES),
    )
    .expect("writes into OUT_DIR");
    fs::write(out.join("vbap_standins.rs"), text).expect("writes into OUT_DIR");
    fs::write(out.join("vbap_libm.rs"), source).expect("writes into OUT_DIR");
}
