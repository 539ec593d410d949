//! How the cost of a call grows: the time beyond the fixed part against the length of the line, the rows of a listing and the budget, each with the
//! exponent that fits best. An exponent of 1 says that twice the size takes twice the time.

use std::cell::RefCell;

use super::cases::text_and;
use super::contest::walk_seconds;
use super::library::Library;
use super::table::{digits, grouped, time};
use super::turns::shortest;
use super::{lines, Case, Reply};
use crate::independent::{PART_LENGTH, ROW_LENGTH};
use crate::raw::Call;

/// Passes over all points; the shortest time of each counts.
const PASSES: usize = 4;

/// Calls of one kind in several sizes.
struct Series {
    name: String,
    points: Vec<(u64, Case)>,
}

/// The times of one call: the whole, and the same rule and budget on the empty line.
#[derive(Clone, Copy)]
struct Times {
    seconds: f64,
    bare_seconds: f64,
}

pub fn print() {
    print_table("Time beyond the fixed part by the length of the line, in bytes", &by_length());
    print_table("Time beyond the fixed part by the rows of a listing", &by_rows());
    let cut_off = [by_budget()];
    let times = measured(&cut_off, true);
    print_head("Time of a catastrophe that is cut off, by the budget");
    print_row("`(a\\|a)*b` on 30 `a`, the whole call", &cut_off[0], &times[0], |times| times.seconds);
    print_row("the same, clearing and the rest of the fixed part taken off", &cut_off[0], &times[0], Times::walk);
}

/// The same for a day's lines, by their number.
pub fn print_by_lines() {
    print_table("Time beyond the fixed part by the lines of a batch", &by_lines());
}

fn print_table(title: &str, all: &[Series]) {
    print_head(title);
    for (series, times) in all.iter().zip(measured(all, false)) {
        print_row(&series.name, series, &times, Times::walk);
    }
}

fn by_length() -> Vec<Series> {
    let scan = |rule: &str, length| match_of(rule, text_and(length, "."), 1_000);
    // A run takes 2 steps a byte, so that the greatest budget pays for fewer than 50,000 bytes.
    let run = |length| match_of("^.*$", vec![b'a'; length], 2 * length as u32 + 5);
    let scanned = [1_000, 4_000, 16_000, 65_535];
    vec![
        Series::new("a scan whose starts can be skipped, `needle`", scanned, |length| scan("needle", length)),
        Series::new("a scan that walks from each start, `.\\d`", scanned, |length| scan(r".\d", length)),
        Series::new("one run over the whole line, `^.*$`", [1_000, 4_000, 16_000, 45_000], run),
    ]
}

fn by_rows() -> Vec<Series> {
    let one_start = |rows| list_of("^(.*)", vec![b'a'; rows - 1], 5 * rows as u32, rows);
    // On n bytes there are n(n + 1)/2 rows.
    let many_starts = |rows| list_of("(a+)", vec![b'a'; (2.0 * rows as f64).sqrt() as usize], 2_000, rows);
    let twice = |rows| list_of("^(?:.*|.*)", vec![b'a'; rows - 1], 10 * rows as u32, rows);
    vec![
        Series::new("rows from one start, `^(.*)`", [100, 1_000, 10_000, 20_000], one_start),
        Series::new("rows from many starts, `(a+)`", [105, 1_035, 10_011, 100_128], many_starts),
        Series::new("rows from one start, each met twice, `^(?:.*\\|.*)`", [100, 1_000, 5_000, 10_000], twice),
    ]
}

/// Three of the gateway's rules: with groups and branches, one that is searched for, and one that does not match.
fn by_lines() -> Vec<Series> {
    let sizes = [1_000, 10_000, 100_000, 1_000_000];
    let mut all: Vec<Vec<Case>> = sizes.iter().map(|&size| lines::gateway(size)).collect();
    [5, 4, 1]
        .map(|number| {
            let points: Vec<(u64, Case)> = sizes.iter().zip(&mut all).map(|(&size, cases)| (size as u64, cases.swap_remove(number))).collect();
            Series { name: points[0].1.name.clone(), points }
        })
        .into()
}

fn by_budget() -> Series {
    Series::new("", [1_000, 10_000, 100_000], |budget| match_of("(a|a)*b", vec![b'a'; 30], budget as u32))
}

impl Series {
    fn new<const N: usize>(name: &'static str, sizes: [usize; N], case: impl Fn(usize) -> Case) -> Series {
        Series { name: name.to_string(), points: sizes.map(|size| (size as u64, case(size))).into() }
    }
}

fn match_of(rule: &str, subject: Vec<u8>, budget: u32) -> Case {
    Case { name: String::new(), call: Call::Match, rule: rule.into(), flags: 0, subject, budget, room: 1, match_limit: None }
}

fn list_of(rule: &str, subject: Vec<u8>, budget: u32, room: usize) -> Case {
    Case { call: Call::List, room, ..match_of(rule, subject, budget) }
}

impl Times {
    fn walk(self) -> f64 {
        walk_seconds(self.seconds, self.bare_seconds)
    }

    fn shorten(&mut self, other: Times) {
        self.seconds = self.seconds.min(other.seconds);
        self.bare_seconds = self.bare_seconds.min(other.bare_seconds);
    }
}

/// The times of each series, point by point.
fn measured(all: &[Series], cut_off: bool) -> Vec<Vec<Times>> {
    let pass = || all.iter().map(|series| series.points.iter().map(|(_, case)| measure(case, cut_off)).collect::<Vec<_>>());
    let mut best: Vec<Vec<Times>> = pass().collect();
    for _ in 1..PASSES {
        for (times, others) in best.iter_mut().zip(pass()) {
            times.iter_mut().zip(others).for_each(|(times, other)| times.shorten(other));
        }
    }
    best
}

/// One point; `cut_off` says that its budget is to end the walk.
fn measure(case: &Case, cut_off: bool) -> Times {
    let library = RefCell::new(Library::new(case));
    match library.borrow_mut().reply(&case.subject).0 {
        Reply::GaveUp => assert!(cut_off, "a walk is cut off by its budget, so that its time says nothing of its size"),
        Reply::Rows(rows) => {
            assert!(!cut_off, "a walk that was to be cut off comes to its end");
            let length = if case.call == Call::Batch { PART_LENGTH } else { ROW_LENGTH };
            assert!(case.call == Call::Match || rows.len() == length * case.room, "a call has other rows than its size says");
        }
    }
    let times = shortest(&mut [Box::new(|| library.borrow_mut().call(&case.subject)), Box::new(|| library.borrow_mut().call(b""))]);
    Times { seconds: times[0], bare_seconds: times[1] }
}

fn print_head(title: &str) {
    println!("\n{title}:\n\n| What | size: time | | | | exponent |\n|---|---|---|---|---|---|");
}

fn print_row(name: &str, series: &Series, times: &[Times], seconds: impl Fn(Times) -> f64) {
    let points: Vec<(u64, f64)> = series.points.iter().zip(times).map(|((size, _), &times)| (*size, seconds(times))).collect();
    let mut cells: Vec<String> = points.iter().map(|&(size, seconds)| format!("{}: {}", grouped(size), time(seconds))).collect();
    cells.resize(4, "–".to_string());
    println!("| {name} | {} | {} |", cells.join(" | "), digits(exponent(&points)));
}

/// The slope of the line that fits the logarithms of the times against those of the sizes best, by least squares.
fn exponent(points: &[(u64, f64)]) -> f64 {
    let logs: Vec<(f64, f64)> = points.iter().map(|&(size, seconds)| ((size as f64).ln(), seconds.max(1e-9).ln())).collect();
    let mean = |of: fn(&(f64, f64)) -> f64| logs.iter().map(of).sum::<f64>() / logs.len() as f64;
    let (middle_x, middle_y) = (mean(|log| log.0), mean(|log| log.1));
    let (along, square) = logs.iter().fold((0.0, 0.0), |(along, square), (x, y)| {
        let from_middle = x - middle_x;
        (along + from_middle * (y - middle_y), square + from_middle * from_middle)
    });
    along / square
}
