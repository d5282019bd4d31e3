//! The stored case lists: which functions, where, with which seed, and their text.

use crate::call_lists;
use crate::chosen_layouts;
use crate::functions::function;
use crate::generators::{chosen, draw, left_out};
use crate::layout_line::{Layout, Tally};
use crate::ramps;
use crate::random::Random;
use crate::random_layouts;
use crate::row_lists;
use std::collections::HashSet;

/// What a list's cases are: calls of functions, layouts for `new`, or lines that a function of
/// their own makes, with what stands behind the seed.
pub enum Cases {
    Functions(&'static [&'static str]),
    Layouts(fn(&mut Random) -> Vec<Layout>),
    Lines(fn(&mut Random) -> (String, String)),
}

/// A list, its seed and its cases.
pub struct List {
    pub name: &'static str,
    pub seed: u64,
    pub cases: Cases,
}

/// What a program is run on: the program's name, and its lists, stored one behind the other.
pub struct Input {
    pub program: &'static str,
    pub lists: &'static [List],
}

/// Cases of each function: so many stand in a list.
pub const CASES: usize = 20_000;

const fn functions(name: &'static str, seed: u64, of: &'static [&'static str]) -> List {
    List {
        name,
        seed,
        cases: Cases::Functions(of),
    }
}

const fn layouts(name: &'static str, seed: u64, make: fn(&mut Random) -> Vec<Layout>) -> List {
    List {
        name,
        seed,
        cases: Cases::Layouts(make),
    }
}

const fn lines(name: &'static str, seed: u64, make: fn(&mut Random) -> (String, String)) -> List {
    List {
        name,
        seed,
        cases: Cases::Lines(make),
    }
}

/// Every stored list. The seeds are arbitrary.
pub static INPUTS: [Input; 6] = [
    Input {
        program: "test_numbers",
        lists: &[
            functions(
                "widths",
                0x101,
                &["widen", "narrow", "f32_from_u64", "f64_from_u64"],
            ),
            functions("roots", 0x102, &["sqrt32", "sqrt64"]),
            functions(
                "order32",
                0x103,
                &["max32", "min32", "clamp", "abs32", "powi4"],
            ),
            functions("order64", 0x104, &["max64", "abs64"]),
            functions(
                "signs",
                0x105,
                &["is_finite32", "sign_bit32", "is_finite64", "sign_bit64"],
            ),
            functions("rem", 0x106, &["rem_euclid32", "rem_euclid64"]),
        ],
    },
    Input {
        program: "test_sines",
        lists: &[
            functions("sine", 0x107, &["sin64", "cos64", "sin32", "cos32"]),
            functions("sine_pairs", 0x108, &["sin_cos64", "sin_cos32"]),
            functions("atan", 0x109, &["atan64", "atan2"]),
        ],
    },
    Input {
        program: "test_layouts",
        lists: &[
            layouts("layouts", 0x10a, chosen_layouts::chosen),
            layouts("layouts_random", 0x10b, random_layouts::drawn),
        ],
    },
    Input {
        program: "test_ramps",
        lists: &[lines("ramps", 0x10c, ramps::ramps)],
    },
    Input {
        program: "test_rows",
        lists: &[
            lines("rows", 0x10d, row_lists::first),
            lines("rows_2", 0x10e, row_lists::second),
        ],
    },
    Input {
        program: "test_calls",
        lists: &[
            lines("calls", 0x10f, call_lists::opened),
            lines("calls_2", 0x110, call_lists::made),
        ],
    },
];

/// The lists of all inputs.
pub fn lists() -> impl Iterator<Item = &'static List> {
    INPUTS.iter().flat_map(|input| input.lists)
}

/// A list by its name.
pub fn list(name: &str) -> Option<&'static List> {
    lists().find(|l| l.name == name)
}

/// The layouts of a list by its name.
pub fn layouts_of(name: &str) -> Vec<Layout> {
    list(name).expect("a list's name").layouts()
}

/// Distinct arguments of one function: the chosen ones, then draws up to `count`.
pub fn arguments(name: &str, count: usize, r: &mut Random) -> Vec<Vec<u64>> {
    let mut seen = HashSet::new();
    let mut kept = Vec::new();
    let mut keep = |args: Vec<u64>, kept: &mut Vec<Vec<u64>>| {
        if !left_out(name, &args) && seen.insert(args.clone()) {
            kept.push(args);
        }
    };
    for args in chosen(name, r) {
        keep(args, &mut kept);
    }
    assert!(
        kept.len() < count,
        "{name}: {} chosen cases leave no room for draws",
        kept.len()
    );
    while kept.len() < count {
        keep(draw(name, r), &mut kept);
    }
    kept
}

/// What stands behind the seed in a list's first line, and its cases.
fn function_cases(functions: &[&str], r: &mut Random) -> (String, String) {
    let mut text = String::new();
    for name in functions {
        for args in arguments(name, CASES, r) {
            text.push_str(&function(name).line(&args));
        }
    }
    let named: Vec<String> = functions.iter().map(|f| format!("{f} {CASES}")).collect();
    (named.join(", "), text)
}

/// The layouts of a list, each once.
pub fn distinct(layouts: Vec<Layout>) -> Vec<Layout> {
    let mut seen = HashSet::new();
    layouts
        .into_iter()
        .filter(|l| seen.insert(l.bits()))
        .collect()
}

/// As `function_cases`, for layouts.
fn layout_cases(layouts: Vec<Layout>) -> (String, String) {
    let (mut tally, mut text) = (Tally::default(), String::new());
    for layout in &layouts {
        let given = layout.opened();
        assert!(!given.panner.malformed(), "{}: malformed", layout.name);
        tally.see(&given);
        text.push_str(&layout.lines(&given));
    }
    (format!("new {}: {}", layouts.len(), tally.text()), text)
}

impl List {
    /// The layouts of a list of layouts, in the order of its lines.
    pub fn layouts(&self) -> Vec<Layout> {
        match self.cases {
            Cases::Functions(_) | Cases::Lines(_) => vec![],
            Cases::Layouts(make) => distinct(make(&mut Random::new(self.seed))),
        }
    }

    /// The whole text of the list.
    pub fn text(&self) -> String {
        let (what, cases) = match self.cases {
            Cases::Functions(functions) => function_cases(functions, &mut Random::new(self.seed)),
            Cases::Layouts(_) => layout_cases(self.layouts()),
            Cases::Lines(make) => make(&mut Random::new(self.seed)),
        };
        format!(
            "# oracle cases {}: seed {:x}; {what}\n{cases}",
            self.name, self.seed
        )
    }
}

impl Input {
    /// Its place below the repository's root.
    pub fn path(&self) -> String {
        format!("crates/{}/stdin", self.program)
    }

    /// The whole text of the file.
    pub fn text(&self) -> String {
        self.lists.iter().map(List::text).collect()
    }
}

/// Draws without end of memory: `count` cases in turn over the functions that mpfr.c judges.
pub fn stream(count: u64, seed: u64, mut emit: impl FnMut(&str)) {
    let names = [
        "narrow",
        "sqrt32",
        "sqrt64",
        "f32_from_u64",
        "f64_from_u64",
        "rem_euclid32",
        "rem_euclid64",
    ];
    let mut r = Random::new(seed);
    for n in 0..count {
        let name = names[(n % names.len() as u64) as usize];
        emit(&function(name).line(&draw(name, &mut r)));
    }
}
