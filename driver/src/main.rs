//! Compares the proved functions with the oracle, bit by bit, on fresh draws. The seed is printed,
//! so that a run can be repeated. A difference prints its input and ends the run with status 1.

mod calls;
mod flushed;
mod hex;
mod layouts;
mod numbers;
mod ramps;
mod stack;
mod tally;

use std::time::{Duration, Instant, SystemTime, UNIX_EPOCH};

use oracle::random::Random;

use tally::Tally;

/// A kind of case: what is compared, and how many of them a scale run has.
struct Kind {
    name: &'static str,
    case: fn(&mut Random, &mut Tally) -> Result<(), String>,
    scale: u64,
}

/// Origin of the counts: 100,000 layouts and records with some 100 rows each, and 10,000 lists of
/// calls, where one open in thirty is refused and makes no list.
const KINDS: [Kind; 5] = [
    Kind {
        name: "layouts and rows",
        case: layouts::case,
        scale: 100_000,
    },
    Kind {
        name: "numbers",
        case: numbers::case,
        scale: 10_000,
    },
    Kind {
        name: "ramps",
        case: ramps::ramp_case,
        scale: 300_000,
    },
    Kind {
        name: "mixed gains",
        case: ramps::mixed_case,
        scale: 10_000,
    },
    Kind {
        name: "lists of calls",
        case: calls::case,
        scale: 10_500,
    },
];

/// Differences that are printed in full.
const SHOWN: u64 = 5;

/// When a kind has had enough.
#[derive(Clone, Copy)]
enum Limit {
    Seconds(f64),
    Count(u64),
    Scale,
}

impl Limit {
    fn reached(self, kind: &Kind, cases: u64, since: Instant) -> bool {
        match self {
            Limit::Seconds(s) => since.elapsed() >= Duration::from_secs_f64(s),
            Limit::Count(n) => cases >= n,
            Limit::Scale => cases >= kind.scale,
        }
    }
}

/// The draws of one case go by the seed, the kind and the index alone.
fn draws(seed: u64, kind: usize, index: u64) -> Random {
    let mut r = Random::new(seed ^ ((kind as u64) << 56));
    let apart = r.bits();
    Random::new(apart.wrapping_add(index.wrapping_mul(0x9e37_79b9_7f4a_7c15)))
}

fn run(seed: u64, limit: Limit) -> Tally {
    let mut tally = Tally::default();
    for (number, kind) in KINDS.iter().enumerate() {
        let (since, mut told) = (Instant::now(), Instant::now());
        let mut index = 0;
        while !limit.reached(kind, index, since) {
            if let Err(what) = (kind.case)(&mut draws(seed, number, index), &mut tally) {
                tally.differences += 1;
                if tally.differences <= SHOWN {
                    println!(
                        "DIFFERENCE: {}, seed {seed:x}, case {index}\n{what}",
                        kind.name
                    );
                }
            }
            index += 1;
            if told.elapsed() >= Duration::from_secs(1) {
                eprint!(
                    "\r{}: {index} ({} differences)   ",
                    kind.name, tally.differences
                );
                told = Instant::now();
            }
        }
        eprintln!(
            "\r{}: {index} cases in {:.1} s            ",
            kind.name,
            since.elapsed().as_secs_f64()
        );
    }
    tally
}

fn fresh_seed() -> u64 {
    let now = SystemTime::now().duration_since(UNIX_EPOCH);
    now.map_or(1, |d| Random::new(d.as_nanos() as u64).bits() >> 16)
}

/// What to do, by the words of the command line: the seed, how much to compare, and, where asked
/// for, how many layouts are looked at with subnormals flushed.
struct Options {
    seed: u64,
    limit: Limit,
    flushed: Option<u64>,
}

fn options(words: &[String]) -> Option<Options> {
    let (mut seed, mut limit, mut flushed) = (fresh_seed(), Limit::Seconds(5.0), None);
    let mut rest = words.iter();
    while let Some(word) = rest.next() {
        match word.as_str() {
            "--seed" => seed = u64::from_str_radix(rest.next()?, 16).ok()?,
            "--seconds" => limit = Limit::Seconds(rest.next()?.parse().ok()?),
            "--count" => limit = Limit::Count(rest.next()?.parse().ok()?),
            "--scale" => limit = Limit::Scale,
            "--flushed" => flushed = Some(rest.next()?.parse().ok()?),
            _ => return None,
        }
    }
    Some(Options {
        seed,
        limit,
        flushed,
    })
}

fn main() {
    let words: Vec<String> = std::env::args().skip(1).collect();
    let Some(Options {
        seed,
        limit,
        flushed,
    }) = options(&words)
    else {
        eprintln!("driver [--seed HEX] [--seconds S | --count N | --scale | --flushed N]");
        std::process::exit(2);
    };
    if let Some(count) = flushed {
        let t = flushed::told(&mut Random::new(seed), count);
        println!(
            "seed {seed:x}; with subnormals flushed, of {} layouts {} have another record and {} a row of other bits; the greatest difference of a gain is {:e}",
            t.layouts, t.records, t.rows, t.most
        );
        return;
    }
    let depths = stack::depths();
    let told: Vec<String> = stack::CALLS
        .iter()
        .zip(depths)
        .map(|(name, d)| format!("{name} {:.1}", d as f64 / 1024.0))
        .collect();
    println!("stack in KB: {}", told.join(", "));
    if depths.iter().any(|d| *d > stack::BOUND) {
        println!("a call touches more than {} KB", stack::BOUND / 1024);
        std::process::exit(1);
    }
    println!("seed {seed:x}");
    let tally = run(seed, limit);
    println!("{}", tally.details());
    println!("{}", tally.summary());
    std::process::exit(i32::from(tally.differences > 0));
}
