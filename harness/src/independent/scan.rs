//! Successive matches: document 02, request g).

use super::calls::{row, Ending, Row, Walks};
use super::walk::Event;

/// One start tried once. "Here a start may be tried twice, once with the empty end barred".
pub struct Try {
    pub start: usize,
    pub is_barred: bool,
    pub steps: u64,
    pub outcome: Outcome,
}

pub enum Outcome {
    Matched(Row),
    NotMatched,
    Exhausted,
}

/// The tries of a scan, one after another: up to one that is exhausted, or up to the line's end without a match.
pub struct Tries<'r> {
    walks: Walks<'r>,
    /// The next start, and whether its empty end is barred; none behind the last.
    next: Option<(usize, bool)>,
}

impl<'r> Tries<'r> {
    pub fn new(walks: Walks<'r>) -> Tries<'r> {
        Tries { walks, next: Some((0, false)) }
    }
}

impl Iterator for Tries<'_> {
    type Item = Try;

    /// "each search starts where the last match ended, and after an empty match the next one may not be empty at that same place"
    fn next(&mut self) -> Option<Try> {
        let (start, is_barred) = self.next?;
        let tried = try_start(self.walks, start, is_barred);
        self.next = match &tried.outcome {
            Outcome::Matched(row) => Some((row[1] as usize, row[0] == row[1])),
            Outcome::NotMatched => (start < self.walks.subject.len()).then_some((start + 1, false)),
            Outcome::Exhausted => None,
        };
        Some(tried)
    }
}

/// "a barred end costs its step and the walk goes on. The budget holds afresh for each try".
fn try_start(walks: Walks, start: usize, is_barred: bool) -> Try {
    let mut walk = walks.from(start);
    let outcome = loop {
        match walk.next_event() {
            Event::End(end) if is_barred && end.end == start => {}
            Event::End(end) => break Outcome::Matched(row(start, &end)),
            Event::Exhausted => break Outcome::Exhausted,
            Event::Over => break Outcome::NotMatched,
        }
    };
    Try { start, is_barred, steps: walk.steps, outcome }
}

/// "It yields rows like the listing's, with the same "full" and "exhausted" endings."
pub fn all_matches(walks: Walks, room: usize) -> (Ending, u64, Vec<Row>) {
    let (mut steps, mut rows) = (0, Vec::new());
    for tried in Tries::new(walks) {
        steps += tried.steps;
        match tried.outcome {
            Outcome::Matched(_) if rows.len() == room => return (Ending::Full, steps, rows),
            Outcome::Matched(row) => rows.push(row),
            Outcome::NotMatched => {}
            Outcome::Exhausted => return (Ending::Exhausted(tried.start), steps, rows),
        }
    }
    (Ending::Complete, steps, rows)
}
