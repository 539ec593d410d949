//! Random checks of proposals with the library against the independent follower: answers, steps, rows and what stands behind them, refusals with their places,
//! the name index, and every number and byte of what is lent. `--cases N --seeds A..B` runs others.

use harness::arguments::arguments;
use harness::case::Case;
use harness::independent::{Answer, Ending, UNSET};
use harness::random::checks;
use harness::raw::Call;
use harness::trial::{run, Kinds};

fn main() -> std::process::ExitCode {
    let arguments = arguments(100_000, 1..4);
    let mut kinds = Kinds::new(&[]);
    let mut told = Told::default();
    let group = run("random checks against the independent follower", &arguments, checks::case, |case, expected| {
        kinds.count(expected);
        told.count(case, expected);
    });
    group.end(&format!("seeds {:?}: {}; {}", arguments.seeds, kinds.told(), told.told()))
}

/// How many checks tell what a wrong one would miss.
#[derive(Default)]
struct Told {
    /// A reading that is not the match, or of a line of which the match is not known.
    another: u64,
    unknown: u64,
    /// A reading with a group set, and one from a later start than the first.
    captured: u64,
    later: u64,
    /// No reading, without a step and after some.
    at_once: u64,
    on_the_way: u64,
}

impl Told {
    fn count(&mut self, case: &Case, expected: &Answer) {
        match (expected.ending, expected.rows.first()) {
            (Ending::Reading, Some(row)) => {
                let found = Case { call: Call::Match, ..case.clone() }.expected();
                self.another += u64::from(found.ending == Ending::Matched && found.rows[0] != *row);
                self.unknown += u64::from(matches!(found.ending, Ending::Exhausted(_)));
                self.captured += u64::from(row[2..].iter().any(|&number| number != UNSET));
                self.later += u64::from(row[0] > 0);
            }
            (Ending::NoReading, _) if expected.steps == 0 => self.at_once += 1,
            (Ending::NoReading, _) => self.on_the_way += 1,
            _ => {}
        }
    }

    fn told(&self) -> String {
        let Told { another, unknown, captured, later, at_once, on_the_way } = self;
        format!(
            "readings: {another} that are not the match, {unknown} where that is not known, {captured} with a group set, {later} from a later start; no \
             reading: {at_once} without a step, {on_the_way} after some"
        )
    }
}
