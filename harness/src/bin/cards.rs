//! Random rule cards with the library against the independent matcher: rules that are written, and cards that are read, as they are written and changed
//! in every way; answers, what is written, refusals with their places, and every byte and number of what is lent. `--cases N --seeds A..B` runs others.

use std::collections::BTreeMap;

use harness::arguments::arguments;
use harness::cards::{CardLender, Told};
use harness::independent::Refusal;
use harness::random::cards;
use harness::report::Group;

/// The refusals that are of cards alone, or of their flags, their budget and their areas; the rule's own stand between them.
const OF_CARDS: [u32; 10] = [9, 30, 31, 32, 33, 1, 3, 4, 5, 34];

fn main() -> std::process::ExitCode {
    let arguments = arguments(100_000, 1..4);
    let mut group = Group::new("random rule cards against the independent matcher");
    let mut lender = CardLender::default();
    let mut told = Counts::default();
    for seed in arguments.seeds.clone() {
        for number in 0..arguments.cases {
            let case = cards::case(seed, number);
            told.count(&case.expected());
            let faults = lender.compare(&case);
            if faults.is_empty() {
                group.pass();
            } else {
                group.fail_with(|| format!("case {number} of seed {seed}\n{}\n{}", case.shown(), faults.join("\n")));
            }
        }
    }
    group.end(&format!("seeds {:?}: {}", arguments.seeds, told.told()))
}

/// How many cases had which answer.
#[derive(Default)]
struct Counts {
    written: u64,
    read: u64,
    /// By number.
    refused: BTreeMap<u32, u64>,
}

impl Counts {
    fn count(&mut self, told: &Result<Told, Refusal>) {
        match told {
            Ok(Told::Written(_)) => self.written += 1,
            Ok(Told::Read(_)) => self.read += 1,
            Err(refusal) => *self.refused.entry(refusal.number).or_default() += 1,
        }
    }

    fn told(&self) -> String {
        let of_cards = OF_CARDS.map(|number| format!("{} by {number}", self.refused.get(&number).unwrap_or(&0))).join(", ");
        let own: u64 = self.refused.range(10..30).map(|(_, count)| count).sum();
        format!("{} written, {} read, refused {of_cards}, {own} by the rule's own", self.written, self.read)
    }
}
