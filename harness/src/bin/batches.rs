//! Random buffers of lines with the library against the independent matcher: each line's part, the answer, refusals with their places, the name index,
//! and every number and byte of what is lent. `--cases N --seeds A..B` runs others.

use harness::arguments::arguments;
use harness::case::Case;
use harness::independent::{lines, Answer};
use harness::random::batches;
use harness::trial::{run, Kinds};

fn main() -> std::process::ExitCode {
    let arguments = arguments(60_000, 1..4);
    let mut kinds = Kinds::new(&[2, 35, 36]);
    let mut told = Told::default();
    let group = run("random batches against the independent matcher", &arguments, batches::case, |case, expected| {
        kinds.count(expected);
        told.count(case, expected);
    });
    group.end(&format!("seeds {:?}: {}; {}", arguments.seeds, kinds.told(), told.told()))
}

/// How many lines had which outcome, and how many were odd.
#[derive(Default)]
struct Told {
    outcomes: [u64; 4],
    empty: usize,
    /// The last piece had no 0A.
    open: u64,
    /// Lines of different outcomes in one buffer.
    mixed: u64,
}

impl Told {
    fn count(&mut self, case: &Case, expected: &Answer) {
        for part in &expected.parts {
            self.outcomes[part.outcome[0] as usize] += 1;
        }
        if !expected.parts.is_empty() {
            self.empty += lines(&case.subject).iter().filter(|line| line.is_empty()).count();
            self.open += u64::from(case.subject.last() != Some(&b'\n'));
            self.mixed += u64::from(expected.parts.iter().any(|part| part.outcome[0] != expected.parts[0].outcome[0]));
        }
    }

    fn told(&self) -> String {
        let Told { outcomes: [matched, not, exhausted, refused], empty, open, mixed } = self;
        format!(
            "lines: {matched} matched, {not} not, {exhausted} exhausted, {refused} refused, {empty} empty; buffers: {open} without a last 0A, {mixed} \
             with lines of several outcomes"
        )
    }
}
