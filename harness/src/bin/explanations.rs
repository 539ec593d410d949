//! Random explanations with the library against the independent matcher: answers, steps, places, marks in areas of every length, refusals with their
//! places, the name index, and every number and byte of what is lent. `--cases N --seeds A..B` runs others.

use harness::arguments::arguments;
use harness::case::Case;
use harness::independent::Explanation;
use harness::random::explanations;
use harness::trial::{run, Kinds};

fn main() -> std::process::ExitCode {
    let arguments = arguments(100_000, 1..3);
    let mut kinds = Kinds::new(&[7, 35, 36]);
    let mut told = Told::default();
    let group = run("random explanations against the independent matcher", &arguments, explanations::case, |case, expected| {
        kinds.count(expected);
        if let Some(explanation) = &expected.explanation {
            told.count(case, explanation);
        }
    });
    group.end(&format!("seeds {:?}: {}; {}", arguments.seeds, kinds.told(), told.told()))
}

/// How many explanations tell what a wrong one would miss.
#[derive(Default)]
struct Told {
    /// The closest attempt is not the first start's.
    later: u64,
    /// It ended before the furthest place.
    nearer: u64,
    /// Several items failed there.
    several: u64,
    /// The first of them that was tried is not the first in the rule.
    backward: u64,
    /// The marks do not reach to the rule's end, or reach further.
    short: u64,
    long: u64,
}

impl Told {
    fn count(&mut self, case: &Case, explanation: &Explanation) {
        let Explanation { furthest, closest, marks } = explanation;
        let first = marks.iter().position(|&mark| mark == 1);
        self.later += u64::from(closest.start > 0);
        self.nearer += u64::from(closest.miss.at < furthest.at);
        self.several += u64::from(marks.iter().filter(|&&mark| mark == 1).count() > 1);
        self.backward += u64::from(first.is_some_and(|first| first < closest.miss.item));
        self.short += u64::from(case.marks < case.rule.len());
        self.long += u64::from(case.marks > case.rule.len());
    }

    fn told(&self) -> String {
        let Told { later, nearer, several, backward, short, long } = self;
        format!(
            "the closest attempt from a later start {later} times, nearer than the furthest place {nearer}, several items failed there {several}, \
             the first of them behind another in the rule {backward}; marks too short {short} times, too long {long}"
        )
    }
}
