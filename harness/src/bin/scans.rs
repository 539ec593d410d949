//! Random scans with the library against the independent matcher: answers, steps, rows and what stands behind them, refusals with their places, the
//! name index, and every number and byte of what is lent. `--cases N --seeds A..B` runs others.

use harness::arguments::arguments;
use harness::independent::{Answer, Ending};
use harness::random::scans;
use harness::trial::{run, Kinds, OF_CHECKS};

fn main() -> std::process::ExitCode {
    let arguments = arguments(100_000, 1..3);
    let mut kinds = Kinds::new(&OF_CHECKS);
    let mut told = Told::default();
    let group = run("random scans against the independent matcher", &arguments, scans::case, |_, expected| {
        kinds.count(expected);
        told.count(expected);
    });
    group.end(&format!("seeds {:?}: {}; {}", arguments.seeds, kinds.told(), told.told()))
}

/// How many scans tell what a wrong one would miss.
#[derive(Default)]
struct Told {
    rows: usize,
    several: u64,
    /// An empty match, and then another one from the same place.
    again: u64,
    /// An empty match where another one ended.
    behind: u64,
    /// Exhausted where the empty end was barred.
    barred: u64,
}

impl Told {
    fn count(&mut self, expected: &Answer) {
        let is_empty = |row: &[u32]| row[0] == row[1];
        let has_pair = |fits: &dyn Fn(&[u32], &[u32]) -> bool| u64::from(expected.rows.windows(2).any(|pair| fits(&pair[0], &pair[1])));
        self.rows += expected.rows.len();
        self.several += u64::from(expected.rows.len() > 1);
        self.again += has_pair(&|one, two| is_empty(one) && one[0] == two[0]);
        self.behind += has_pair(&|one, two| !is_empty(one) && is_empty(two) && one[1] == two[0]);
        let last = expected.rows.last().filter(|row| is_empty(&row[..]));
        self.barred += u64::from(last.is_some_and(|last| expected.ending == Ending::Exhausted(last[1] as usize)));
    }

    fn told(&self) -> String {
        let Told { rows, several, again, behind, barred } = self;
        format!(
            "{rows} rows; several {several} times, from the place of an empty one {again}, an empty one where another ended {behind}, exhausted with \
             the empty end barred {barred}"
        )
    }
}
