//! A day's lines: the library's one call for all of them beside PCRE2's interpreter, which has its rule compiled once and is called for each line.

use std::cell::RefCell;

use super::library::Library;
use super::pcre2::OverLines;
use super::table::{digits, grouped, time};
use super::turns::shortest;
use super::{cases, Case, Reply};
use crate::independent::{PART_LENGTH, ROW_LENGTH};
use crate::random::Rng;
use crate::raw::Call;

/// Lines in the table.
const LINES: usize = 200_000;
/// Passes over all cases; the shortest time of each counts.
const PASSES: usize = 3;

/// The seconds of one case: the library's, PCRE2's, and PCRE2's with its answers kept as the library keeps them.
type Times = [f64; 3];

/// The gateway's rules, each on so many lines.
pub fn gateway(lines: usize) -> Vec<Case> {
    cases::named("gateway").into_iter().map(|case| batch(case, lines)).collect()
}

/// A match as a batch: its line so often, with any digits in place of its own.
fn batch(case: Case, lines: usize) -> Case {
    let rng = &mut Rng::new(1, lines as u64);
    let mut buffer = Vec::with_capacity(lines * (case.subject.len() + 1));
    for _ in 0..lines {
        buffer.extend(case.subject.iter().map(|&byte| if byte.is_ascii_digit() { b'0' + rng.below(10) as u8 } else { byte }));
        buffer.push(b'\n');
    }
    Case { call: Call::Batch, subject: buffer, room: lines, ..case }
}

pub fn print() {
    println!("| {} lines of | Library | PCRE2 compiled once, lines by `memchr` | its answers kept | Library / PCRE2 | / PCRE2, answers kept |", grouped(LINES as u64));
    println!("|---|---|---|---|---|---|");
    let cases = gateway(LINES);
    let mut all: Vec<Times> = cases.iter().map(measure).collect();
    for _ in 1..PASSES {
        for (times, again) in all.iter_mut().zip(cases.iter().map(measure)) {
            *times = std::array::from_fn(|i| times[i].min(again[i]));
        }
    }
    for (case, [ours, theirs, kept]) in cases.iter().zip(all) {
        let a_line = |seconds: f64| format!("{} a line", time(seconds / LINES as f64));
        let cells = [case.name.clone(), a_line(ours), a_line(theirs), a_line(kept), digits(ours / theirs), digits(ours / kept)];
        println!("| {} |", cells.join(" | "));
    }
}

/// Both in turns, after their answers have been compared, line by line.
fn measure(case: &Case) -> Times {
    let (library, rival) = (RefCell::new(Library::new(case)), OverLines::new(case));
    assert!(found(library.borrow_mut().reply(&case.subject).0) == rival.rows(), "PCRE2 finds something else: {}", case.name);
    let mut parts = vec![1; LINES * PART_LENGTH];
    let times = shortest(&mut [Box::new(|| library.borrow_mut().call(&case.subject)), Box::new(|| rival.call()), Box::new(|| rival.keep(&mut parts))]);
    [times[0], times[1], times[2]]
}

/// The row of each line, or none where it is not matched.
fn found(reply: Reply) -> Vec<Option<Vec<u32>>> {
    let Reply::Rows(parts) = reply else { panic!("a batch gives up nothing as a whole") };
    let row = |part: &[u32]| match part[ROW_LENGTH] {
        0 => Some(part[..ROW_LENGTH].to_vec()),
        1 => None,
        kind => panic!("a line of the benchmark has the outcome {kind}"),
    };
    parts.chunks_exact(PART_LENGTH).map(row).collect()
}
