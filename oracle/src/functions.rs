//! The functions of the case lists: names, widths of arguments and results, and answers.
//! A value is held as its bits, in a u64.

use crate::source::vbap_standins::normalized_lerp_gain;
use crate::standins as s;

#[derive(Clone, Copy, Debug, PartialEq, Eq)]
pub enum Width {
    F32,
    F64,
    U64,
    Bool,
}

use Width::{Bool, F32, F64, U64};

pub struct Function {
    pub name: &'static str,
    pub args: &'static [Width],
    pub results: &'static [Width],
    pub answer: fn(&[u64]) -> Vec<u64>,
}

fn a(x: u64) -> f32 {
    f32::from_bits(x as u32)
}

fn d(x: u64) -> f64 {
    f64::from_bits(x)
}

fn f(x: f32) -> Vec<u64> {
    vec![x.to_bits() as u64]
}

fn g(x: f64) -> Vec<u64> {
    vec![x.to_bits()]
}

fn b(x: bool) -> Vec<u64> {
    vec![x as u64]
}

/// Every function, by the names of docs/CASES.md.
pub const FUNCTIONS: [Function; 28] = [
    Function {
        name: "widen",
        args: &[F32],
        results: &[F64],
        answer: |x| g(a(x[0]) as f64),
    },
    Function {
        name: "narrow",
        args: &[F64],
        results: &[F32],
        answer: |x| f(d(x[0]) as f32),
    },
    Function {
        name: "f32_from_u64",
        args: &[U64],
        results: &[F32],
        answer: |x| f(x[0] as f32),
    },
    Function {
        name: "f64_from_u64",
        args: &[U64],
        results: &[F64],
        answer: |x| g(x[0] as f64),
    },
    Function {
        name: "sqrt32",
        args: &[F32],
        results: &[F32],
        answer: |x| f(a(x[0]).sqrt()),
    },
    Function {
        name: "sqrt64",
        args: &[F64],
        results: &[F64],
        answer: |x| g(d(x[0]).sqrt()),
    },
    Function {
        name: "max32",
        args: &[F32, F32],
        results: &[F32],
        answer: |x| f(s::max32(a(x[0]), a(x[1]))),
    },
    Function {
        name: "max64",
        args: &[F64, F64],
        results: &[F64],
        answer: |x| g(s::max64(d(x[0]), d(x[1]))),
    },
    Function {
        name: "min32",
        args: &[F32, F32],
        results: &[F32],
        answer: |x| f(s::min32(a(x[0]), a(x[1]))),
    },
    Function {
        name: "clamp",
        args: &[F32],
        results: &[F32],
        answer: |x| f(s::clamp32(a(x[0]))),
    },
    Function {
        name: "abs32",
        args: &[F32],
        results: &[F32],
        answer: |x| f(a(x[0]).abs()),
    },
    Function {
        name: "abs64",
        args: &[F64],
        results: &[F64],
        answer: |x| g(d(x[0]).abs()),
    },
    Function {
        name: "powi4",
        args: &[F32],
        results: &[F32],
        answer: |x| f(s::powi4(a(x[0]))),
    },
    Function {
        name: "rem_euclid32",
        args: &[F32, F32],
        results: &[F32],
        answer: |x| f(s::rem_euclid32(a(x[0]), a(x[1]))),
    },
    Function {
        name: "rem_euclid64",
        args: &[F64, F64],
        results: &[F64],
        answer: |x| g(s::rem_euclid64(d(x[0]), d(x[1]))),
    },
    Function {
        name: "is_finite32",
        args: &[F32],
        results: &[Bool],
        answer: |x| b(a(x[0]).is_finite()),
    },
    Function {
        name: "is_finite64",
        args: &[F64],
        results: &[Bool],
        answer: |x| b(d(x[0]).is_finite()),
    },
    Function {
        name: "sign_bit32",
        args: &[F32],
        results: &[Bool],
        answer: |x| b(s::sign_bit32(a(x[0]))),
    },
    Function {
        name: "sign_bit64",
        args: &[F64],
        results: &[Bool],
        answer: |x| b(s::sign_bit64(d(x[0]))),
    },
    Function {
        name: "sin64",
        args: &[F64],
        results: &[F64],
        answer: |x| g(s::sin64(d(x[0]))),
    },
    Function {
        name: "cos64",
        args: &[F64],
        results: &[F64],
        answer: |x| g(s::cos64(d(x[0]))),
    },
    Function {
        name: "sin_cos64",
        args: &[F64],
        results: &[F64, F64],
        answer: |x| [g(s::sin64(d(x[0]))), g(s::cos64(d(x[0])))].concat(),
    },
    Function {
        name: "sin32",
        args: &[F32],
        results: &[F32],
        answer: |x| f(s::sin_cos32(a(x[0])).0),
    },
    Function {
        name: "cos32",
        args: &[F32],
        results: &[F32],
        answer: |x| f(s::sin_cos32(a(x[0])).1),
    },
    Function {
        name: "sin_cos32",
        args: &[F32],
        results: &[F32, F32],
        answer: |x| [f(s::sin_cos32(a(x[0])).0), f(s::sin_cos32(a(x[0])).1)].concat(),
    },
    Function {
        name: "atan64",
        args: &[F64],
        results: &[F64],
        answer: |x| g(s::atan64(d(x[0]))),
    },
    Function {
        name: "atan2",
        args: &[F64, F64],
        results: &[F64],
        answer: |x| g(s::atan2(d(x[0]), d(x[1]))),
    },
    Function {
        name: "normalized_lerp_gain",
        args: &[F32, F32, F32, F32],
        results: &[F32],
        answer: |x| f(normalized_lerp_gain(a(x[0]), a(x[1]), a(x[2]), a(x[3]))),
    },
];

pub fn function(name: &str) -> &'static Function {
    FUNCTIONS
        .iter()
        .find(|f| f.name == name)
        .expect("a function's name")
}

/// An argument: floats in full width, whole numbers without leading zeros.
fn word(width: Width, bits: u64) -> String {
    match width {
        F32 => format!("{bits:08x}"),
        F64 => format!("{bits:016x}"),
        U64 | Bool => format!("{bits:x}"),
    }
}

/// An expected result: as an argument, and `nan` for a NaN.
fn expected(width: Width, bits: u64) -> String {
    let nan = (width == F32 && a(bits).is_nan()) || (width == F64 && d(bits).is_nan());
    if nan {
        "nan".to_string()
    } else {
        word(width, bits)
    }
}

impl Function {
    /// One line of a case list.
    pub fn line(&self, args: &[u64]) -> String {
        let results = (self.answer)(args);
        let given = self.args.iter().zip(args).map(|(w, x)| word(*w, *x));
        let answers = self
            .results
            .iter()
            .zip(&results)
            .map(|(w, x)| expected(*w, *x));
        let words: Vec<String> = std::iter::once(self.name.to_string())
            .chain(given)
            .chain(answers)
            .collect();
        words.join(" ") + "\n"
    }
}
