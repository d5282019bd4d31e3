//! Writes, prints and compares the case lists. See README.md.

use oracle::lists::{list, stream, INPUTS};
use oracle::{libm, open_hulls, rationale, rehearsal, selftest};
use std::io::{BufWriter, Write};
use std::path::Path;
use std::process::ExitCode;
use std::{env, fs, io};

const USAGE: &str =
    "usage: oracle cases NAME | write ROOT | fresh ROOT | stream COUNT SEED | libm | selftest | rationale | rehearsal | open_hulls ROUNDS SEED";

/// What the rehearsal writes, below the repository's root.
const REHEARSAL: &str = "crates/demo_rehearsal/stdout";

fn print(text: &str) {
    // A reader that goes away early is no error.
    let _ = io::stdout().write_all(text.as_bytes());
}

fn cases(name: &str) -> Result<(), String> {
    let list = list(name).ok_or(format!("no list of the name {name}"))?;
    print(&list.text());
    Ok(())
}

fn write(root: &str) -> Result<(), String> {
    for input in &INPUTS {
        let (path, text) = (Path::new(root).join(input.path()), input.text());
        fs::create_dir_all(path.parent().expect("a folder")).map_err(|e| e.to_string())?;
        fs::write(&path, &text).map_err(|e| format!("{}: {e}", input.path()))?;
        println!(
            "{}: {} lines, {} bytes",
            input.path(),
            text.lines().count(),
            text.len()
        );
    }
    Ok(())
}

/// The number of the first line, from 1 on, in which the texts differ.
fn first_difference(a: &str, b: &str) -> Option<usize> {
    if a == b {
        return None;
    }
    let same = a
        .split_inclusive('\n')
        .zip(b.split_inclusive('\n'))
        .take_while(|(x, y)| x == y)
        .count();
    Some(same + 1)
}

/// Stops where a stored text is not the oracle's.
fn compare(root: &str, path: &str, text: &str) -> Result<(), String> {
    let stored =
        fs::read_to_string(Path::new(root).join(path)).map_err(|e| format!("{path}: {e}"))?;
    if let Some(line) = first_difference(&stored, text) {
        return Err(format!(
            "{path}: line {line} is not what the oracle gives today"
        ));
    }
    println!("{path}: fresh");
    Ok(())
}

fn fresh(root: &str) -> Result<(), String> {
    for input in &INPUTS {
        compare(root, &input.path(), &input.text())?;
    }
    compare(root, REHEARSAL, &rehearsal::text())
}

fn number(word: &str) -> Result<u64, String> {
    word.parse()
        .map_err(|_| format!("{word} is no whole number"))
}

fn random_cases(count: &str, seed: &str) -> Result<(), String> {
    let mut out = BufWriter::new(io::stdout().lock());
    stream(number(count)?, number(seed)?, |line| {
        let _ = out.write_all(line.as_bytes());
    });
    Ok(())
}

fn run(words: &[&str]) -> Result<(), String> {
    match words {
        ["cases", name] => cases(name),
        ["write", root] => write(root),
        ["fresh", root] => fresh(root),
        ["libm"] if libm::report() => Ok(()),
        ["libm"] => Err("a distance is beyond its bound".to_string()),
        ["selftest"] => selftest::report(),
        ["rationale"] => rationale::report(),
        ["rehearsal"] => {
            print(&rehearsal::text());
            Ok(())
        }
        ["stream", count, seed] => random_cases(count, seed),
        ["open_hulls", rounds, seed] => {
            open_hulls::search(number(rounds)?, number(seed)?);
            Ok(())
        }
        _ => Err(USAGE.to_string()),
    }
}

fn main() -> ExitCode {
    let words: Vec<String> = env::args().skip(1).collect();
    let words: Vec<&str> = words.iter().map(String::as_str).collect();
    match run(&words) {
        Ok(()) => ExitCode::SUCCESS,
        Err(message) => {
            eprintln!("{message}");
            ExitCode::FAILURE
        }
    }
}
