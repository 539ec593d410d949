//! The table in Markdown, for docs/BENCHMARKS.md.

use super::contest::{Measured, Rate};
use super::Case;

/// With fewer steps than these the time of one cannot be told from the rest.
const FEWEST_STEPS: u64 = 50;

pub fn print_head() {
    println!(
        "| Case | Library | of it fixed | steps | ns a step | walk / PCRE2 | / PCRE2 | / PCRE2 compiled once | / PCRE2 without shortcuts | / Perl |"
    );
    println!("|---|---|---|---|---|---|---|---|---|---|");
}

pub fn print_row(case: &Case, measured: &Measured) {
    let mut cells = vec![case.name.clone(), time(measured.seconds), time(measured.bare_seconds), grouped(measured.steps), step(measured)];
    cells.push(walk_ratio(measured.walk_seconds(), measured.walk_rival(case)));
    cells.extend(measured.rivals.iter().map(|&rate| ratio(measured.seconds, rate)));
    println!("| {} |", cells.join(" | "));
}

/// Nanoseconds a step of the walk, compiling and clearing taken off.
fn step(measured: &Measured) -> String {
    let steps = measured.steps.saturating_sub(measured.bare_steps);
    if steps < FEWEST_STEPS {
        return "–".to_string();
    }
    format!("{:.1}", measured.walk_seconds() / steps as f64 * 1e9)
}

/// The walk's time divided by the rival's.
pub fn walk_ratio(walk_seconds: f64, rival: Option<f64>) -> String {
    rival.map_or("–".to_string(), |rival| digits(walk_seconds / rival))
}

/// The library's time divided by the rival's, with the rival's.
fn ratio(ours: f64, rate: Rate) -> String {
    match rate {
        Rate::Seconds(theirs) => format!("{} ({})", digits(ours / theirs), time(theirs)),
        Rate::Differs(word) => format!("({word})"),
        Rate::Skipped => "skipped".to_string(),
        Rate::None => "–".to_string(),
    }
}

pub fn time(seconds: f64) -> String {
    match seconds * 1e9 {
        ns if ns < 1e3 => format!("{ns:.0} ns"),
        ns if ns < 1e6 => format!("{} µs", digits(ns / 1e3)),
        ns => format!("{} ms", digits(ns / 1e6)),
    }
}

/// Two digits behind the point below 10, one below 100, and then none.
pub fn digits(number: f64) -> String {
    match number {
        small if small < 9.995 => format!("{small:.2}"),
        middling if middling < 99.95 => format!("{middling:.1}"),
        large => grouped(large.round() as u64),
    }
}

/// A whole number with a comma between thousands.
pub fn grouped(number: u64) -> String {
    let plain = number.to_string();
    let mut text = String::new();
    for (index, digit) in plain.chars().enumerate() {
        if 0 < index && (plain.len() - index).is_multiple_of(3) {
            text.push(',');
        }
        text.push(digit);
    }
    text
}
