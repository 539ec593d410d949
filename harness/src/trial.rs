//! A random test of the library against the independent matcher: many cases, each made from a seed and a number, and how many had which answer.

use crate::arguments::Arguments;
use crate::case::Case;
use crate::independent::{Answer, Ending};
use crate::lender::Lender;
use crate::report::Group;
use crate::shrink::shrunk;

/// Runs the cases that `make` makes, and hands on each with what is expected of it.
pub fn run(name: &'static str, arguments: &Arguments, make: impl Fn(u64, u64) -> Case, mut count: impl FnMut(&Case, &Answer)) -> Group {
    let mut group = Group::new(name);
    let mut lender = Lender::default();
    for seed in arguments.seeds.clone() {
        for number in 0..arguments.cases {
            let case = make(seed, number);
            let expected = case.expected();
            let faults = lender.compare(&case, &expected);
            count(&case, &expected);
            if faults.is_empty() {
                group.pass();
            } else {
                group.fail_with(|| told(&mut lender, seed, number, &case, &faults));
            }
        }
    }
    group
}

/// The case with its faults, and the smallest case like it.
fn told(lender: &mut Lender, seed: u64, number: u64, case: &Case, faults: &[String]) -> String {
    let small = shrunk(case, |smaller| !lender.compare(smaller, &smaller.expected()).is_empty());
    let small_faults = lender.compare(&small, &small.expected());
    format!("case {number} of seed {seed}\n{}\n{}\nsmaller: {}\n{}", case.shown(), faults.join("\n"), small.shown(), small_faults.join("\n"))
}

const LAST_REFUSAL: usize = 36;
/// What a call that walks is never refused by: numbers of rule cards.
const OF_CARDS: [usize; 6] = [9, 30, 31, 32, 33, 34];
/// What a check alone is refused by.
pub const OF_CHECKS: [usize; 2] = [35, 36];

/// How many cases had which answer: a test that meets only some of them shows little.
pub struct Kinds {
    endings: [u64; 8],
    refusals: [u64; LAST_REFUSAL + 1],
    /// Numbers that are not given, beside those of cards.
    never: &'static [usize],
}

impl Kinds {
    pub fn new(never: &'static [usize]) -> Kinds {
        Kinds { endings: [0; 8], refusals: [0; LAST_REFUSAL + 1], never }
    }

    pub fn count(&mut self, answer: &Answer) {
        match answer.ending {
            Ending::Matched => self.endings[0] += 1,
            Ending::NotMatched => self.endings[1] += 1,
            Ending::Complete => self.endings[2] += 1,
            Ending::Full => self.endings[3] += 1,
            Ending::Exhausted(_) => self.endings[4] += 1,
            Ending::Done => self.endings[5] += 1,
            Ending::Reading => self.endings[6] += 1,
            Ending::NoReading => self.endings[7] += 1,
            Ending::Refused(refusal) => self.refusals[refusal.number as usize] += 1,
        }
    }

    pub fn told(&self) -> String {
        let words = ["matched", "not", "complete", "full", "exhausted", "done", "a reading", "no reading"];
        let walked = self.endings.iter().zip(words).filter(|(count, _)| **count > 0).map(|(count, word)| format!("{count} {word}"));
        let walked = walked.collect::<Vec<_>>().join(", ");
        let is_given = |number: &usize| !self.never.contains(number) && !OF_CARDS.contains(number);
        let rarest = (1..=LAST_REFUSAL).filter(is_given).map(|number| self.refusals[number]).min().unwrap_or(0);
        match self.refusals.iter().sum::<u64>() {
            0 => walked,
            refused => format!("{walked}, {refused} refused, each refusal at least {rarest} times"),
        }
    }
}
