//! The table: ours, the source with stand-ins and on the platform's library, ratios and aims.

/// Greatest values that are aimed at: of our figure, and of its ratios to the source with
/// stand-ins and to the source on the platform's library.
#[derive(Clone, Copy)]
pub struct Aim {
    ours: f64,
    standins: f64,
    libm: f64,
}

impl Aim {
    pub const NONE: Aim = Aim {
        ours: f64::INFINITY,
        standins: f64::INFINITY,
        libm: f64::INFINITY,
    };

    pub fn within(ours: f64) -> Aim {
        Aim { ours, ..Aim::NONE }
    }

    pub fn standins(self, standins: f64) -> Aim {
        Aim { standins, ..self }
    }

    pub fn libm(self, libm: f64) -> Aim {
        Aim { libm, ..self }
    }
}

/// A whole number with commas between thousands.
fn whole(x: f64) -> String {
    let mut text = format!("{x:.0}");
    for place in (1..text.len()).rev() {
        if (text.len() - place) % 4 == 3 {
            text.insert(place, ',');
        }
    }
    text
}

/// About three digits.
fn figure(x: f64) -> String {
    match x {
        x if x < 10.0 => format!("{x:.2}"),
        x if x < 100.0 => format!("{x:.1}"),
        x => whole(x),
    }
}

fn cell(figures: &[f64]) -> String {
    if figures.is_empty() {
        return "–".to_string();
    }
    let texts: Vec<String> = figures.iter().map(|x| figure(*x)).collect();
    texts.join(" / ")
}

fn ratios(ours: &[f64], theirs: &[f64]) -> Vec<f64> {
    ours.iter().zip(theirs).map(|(a, b)| a / b).collect()
}

/// Whether a figure with two decimals is above the aim with two decimals.
fn above(figures: &[f64], aim: f64) -> bool {
    let rounded = |x: f64| (x * 100.0).round();
    figures.iter().any(|x| rounded(*x) > rounded(aim))
}

/// Nothing where there is no aim, else whether all are met, with those that are not.
fn verdict(sides: [(&str, &[f64], f64); 3]) -> String {
    if sides.iter().all(|(_, _, aim)| aim.is_infinite()) {
        return String::new();
    }
    let missed = sides
        .iter()
        .filter(|(_, figures, aim)| above(figures, *aim));
    let missed: Vec<String> = missed.map(|(w, _, aim)| format!("{w} {aim:.2}")).collect();
    if missed.is_empty() {
        "met".to_string()
    } else {
        format!("**missed**: {}", missed.join(", "))
    }
}

pub fn heading() {
    println!("| Work | ours | source with stand-ins | ratio | source on libm | ratio | aims |");
    println!("|---|---|---|---|---|---|---|");
}

/// A line: our figures, those with stand-ins and those on the platform's library, one for each
/// size of the inputs. What is not compared is empty.
pub fn print(work: &str, [ours, standins, libm]: [Vec<f64>; 3], aim: Aim) {
    let (first, second) = (ratios(&ours, &standins), ratios(&ours, &libm));
    let verdict = verdict([
        ("ours", &ours, aim.ours),
        ("stand-ins", &first, aim.standins),
        ("libm", &second, aim.libm),
    ]);
    let cells = [&ours, &standins, &first, &libm, &second].map(|f| cell(f));
    println!("| {work} | {} | {verdict} |", cells.join(" | "));
}
