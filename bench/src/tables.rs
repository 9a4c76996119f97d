//! The tables that are printed.

use crate::phases::{Measured, Part};

/// A part is shown if it takes at least this share of the call that it is a part of: below it is
/// noise.
const SHARE: f64 = 0.02;

/// A time in the unit that suits it.
pub fn duration(seconds: f64) -> String {
    match seconds {
        s if s >= 1.0 => format!("{s:.2} s"),
        s if s >= 1e-3 => format!("{:.2} ms", s * 1e3),
        s => format!("{:.2} us", s * 1e6),
    }
}

/// An answer by its name, a refusal by its number.
pub fn answer(number: u16) -> String {
    match number {
        1 => "yes".into(),
        2 => "no".into(),
        3 => "stopped".into(),
        _ => number.to_string(),
    }
}

/// Whether both programs took long enough for the part to be more than noise.
fn shown(part: &Part) -> bool {
    (0..2).all(|which| {
        let (time, least) = (part.times[which], SHARE * part.of[which].least);
        time.least > least && time.median > least
    })
}

/// Least and median of ours and of the second program, and both ratios.
fn row(part: &Part) -> String {
    let [ours, second] = part.times;
    format!(
        "{:>11} {:>11} {:>11} {:>11} {:>8.2} {:>8.2}",
        duration(ours.least),
        duration(ours.median),
        duration(second.least),
        duration(second.median),
        ours.least / second.least,
        ours.median / second.median,
    )
}

const HEAD: &str = "  ours least      median second least      median    ratio   median";

/// What the books are.
pub fn books(all: &[Measured]) {
    println!("{:<24} {:>6} {:>17} {:>9} {:>9}", "books", "nodes", "build", "answer", "count");
    for one in all {
        let totals = one.answer.totals;
        let build = match one.books {
            1 => format!("{}/{}/{}", totals.states, totals.variables, totals.clauses),
            _ => "-".into(),
        };
        let answer = match one.books {
            1 => answer(one.answer.number),
            _ => "-".into(),
        };
        println!("{:<24} {:>6} {build:>17} {answer:>9} {:>9}", one.name, one.nodes, one.entered);
    }
}

/// One part of the check.
pub fn part(title: &str, all: &[Measured], part: impl Fn(&Measured) -> Part) {
    println!("\n{title:<24} {HEAD}");
    for one in all {
        let part = part(one);
        match shown(&part) {
            true => println!("{:<24} {}", one.name, row(&part)),
            false => println!("{:<24} {:>11}", one.name, "-"),
        }
    }
}

/// Search nodes a second, where the search is more than noise.
pub fn nodes(all: &[Measured]) {
    println!(
        "\n{:<24} {:>12} {:>12} {:>12}",
        "search nodes a second", "ours", "second", "ours/second"
    );
    for one in all.iter().filter(|one| shown(&one.searching)) {
        let [ours, second] = one.searching.times.map(|times| one.entered as f64 / times.least);
        println!("{:<24} {ours:>12.0} {second:>12.0} {:>12.2}", one.name, ours / second);
    }
}
