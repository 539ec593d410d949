//! Two libraries side by side. A program is linked with one library alone, at one place; so each prints plain numbers, and these are joined.

use super::contest::{walk_seconds, Measured};
use super::table::{digits, grouped, time, walk_ratio};
use super::Case;

/// What the programs with one library have of a case; of each time the shortest, in seconds.
struct Entry {
    name: String,
    steps: u64,
    seconds: f64,
    bare_seconds: f64,
    /// What the walk is held against.
    rival: Option<f64>,
}

/// A case on a line: its name, its steps, and in nanoseconds the call, its fixed part and the walk's rival, which is 0 where there is none.
pub fn print_plain(case: &Case, measured: &Measured) {
    let rival = measured.walk_rival(case).unwrap_or(0.0);
    let times = [measured.seconds, measured.bare_seconds, rival].map(|seconds| format!("{:.2}", seconds * 1e9));
    println!("{}\t{}\t{}", case.name, measured.steps, times.join("\t"));
}

/// The table of what the programs with two libraries printed, and whether the steps of all cases are equal in both; or what is wrong with the lines.
/// A case that the library before refuses, because it does not hold its flags, has nothing to be compared with.
pub fn print_table(before: &str, after: &str) -> Result<bool, String> {
    let (before, after) = (entries(before)?, entries(after)?);
    if before.iter().any(|known| !after.iter().any(|entry| entry.name == known.name)) {
        return Err("the library after does not have all cases of the one before".to_string());
    }
    println!("| Case | steps | walk / PCRE2 before | after | whole call before | after | after / before |");
    println!("|---|---|---|---|---|---|---|");
    let mut all_equal = true;
    for after in &after {
        match before.iter().find(|before| before.name == after.name) {
            Some(before) => {
                print_row(before, after);
                all_equal &= before.steps == after.steps;
            }
            None => print_new(after),
        }
    }
    Ok(all_equal)
}

fn print_new(after: &Entry) {
    let walk = walk_ratio(walk_seconds(after.seconds, after.bare_seconds), after.rival);
    println!("| {} | {} | – | {walk} | refused | {} | – |", after.name, grouped(after.steps), time(after.seconds));
}

/// PCRE2 is the same beside both, so its shortest time beside either counts for both.
fn print_row(before: &Entry, after: &Entry) {
    let steps = if before.steps == after.steps {
        grouped(after.steps)
    } else {
        format!("**DIFFER: {} before, {} after**", grouped(before.steps), grouped(after.steps))
    };
    let rival = shorter(before.rival, after.rival);
    let walks = [before, after].map(|entry| walk_ratio(walk_seconds(entry.seconds, entry.bare_seconds), rival)).join(" | ");
    let whole = [before, after].map(|entry| time(entry.seconds)).join(" | ");
    println!("| {} | {steps} | {walks} | {whole} | {} |", after.name, digits(after.seconds / before.seconds));
}

/// The lines of several programs, joined by the cases' names.
fn entries(lines: &str) -> Result<Vec<Entry>, String> {
    let mut entries: Vec<Entry> = Vec::new();
    for line in lines.lines() {
        let entry = read(line).ok_or_else(|| format!("no line of a case: {line}"))?;
        match entries.iter_mut().find(|known| known.name == entry.name) {
            Some(known) => known.shorten(&entry),
            None => entries.push(entry),
        }
    }
    Ok(entries)
}

fn read(line: &str) -> Option<Entry> {
    let [name, steps, times @ ..] = &line.split('\t').collect::<Vec<_>>()[..] else { return None };
    let times: Vec<f64> = times.iter().map(|time| Some(time.parse::<f64>().ok()? * 1e-9)).collect::<Option<_>>()?;
    let [seconds, bare_seconds, rival] = times[..] else { return None };
    Some(Entry { name: name.to_string(), steps: steps.parse().ok()?, seconds, bare_seconds, rival: (rival > 0.0).then_some(rival) })
}

impl Entry {
    fn shorten(&mut self, other: &Entry) {
        self.seconds = self.seconds.min(other.seconds);
        self.bare_seconds = self.bare_seconds.min(other.bare_seconds);
        self.rival = shorter(self.rival, other.rival);
    }
}

fn shorter(one: Option<f64>, other: Option<f64>) -> Option<f64> {
    one.into_iter().chain(other).reduce(f64::min)
}
