//! A day's lines: document 02, request h).

use super::calls::{first_reading, Ending, Row, Walks, LONGEST_SUBJECT, ROW_LENGTH};
use super::explain::Log;

/// "A line's part of the area is its row, .. then four numbers".
pub const PART_LENGTH: usize = ROW_LENGTH + 4;

/// What a line gets: its row, "unchanged unless matched", and its outcome.
#[derive(Clone, PartialEq, Eq, Debug)]
pub struct Part {
    pub row: Option<Row>,
    /// "0 matched, 1 not, 2 exhausted, 3 refused; the exhausted start or the reason, else 0; the steps' low and high 32 bits, 0 if refused".
    pub outcome: [u32; 4],
}

/// "a buffer of lines split at 0A", "A last piece without 0A counts if not empty."
pub fn lines(buffer: &[u8]) -> Vec<&[u8]> {
    let mut lines: Vec<&[u8]> = buffer.split(|&byte| byte == 0x0A).collect();
    lines.pop_if(|last| last.is_empty());
    lines
}

/// "It equals one call after another."
pub fn parts(walks: Walks) -> Vec<Part> {
    lines(walks.subject).into_iter().map(|subject| part(Walks { subject, ..walks })).collect()
}

/// "A line over 65,535 bytes gets refusal 2 in its own outcome and the others go on".
fn part(line: Walks) -> Part {
    if line.subject.len() > LONGEST_SUBJECT {
        return Part { row: None, outcome: [3, 2, 0, 0] };
    }
    let (ending, steps, rows) = first_reading(line, &mut Log::default());
    let (kind, detail) = match ending {
        Ending::Matched => (0, 0),
        Ending::NotMatched => (1, 0),
        Ending::Exhausted(start) => (2, start as u32),
        other => unreachable!("a match does not end so: {other:?}"),
    };
    Part { row: rows.first().copied(), outcome: [kind, detail, steps as u32, (steps >> 32) as u32] }
}
