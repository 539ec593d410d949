//! What a match answers.

use std::sync::Arc;

use crate::areas::{EXHAUSTED, MATCHED, NOT_MATCHED};
use crate::captures::Captures;
use crate::errors::Unknown;
use crate::source::Source;

/// What a match answers. Whether it matched is not always known, and no arm of a `match` on it can be forgotten.
#[derive(Clone, Debug)]
#[must_use]
pub enum Outcome<'t> {
    /// The first reading by priority from the leftmost start that has one.
    Matched {
        /// Where it matched, and what the groups took.
        captures: Captures<'t>,
        /// The steps of all walks up to there.
        steps: u64,
    },
    /// No start has a reading.
    NotMatched {
        /// The steps of all walks.
        steps: u64,
    },
    /// The walk from this start needs more steps than the budget: the line may match or not.
    Exhausted {
        /// Where in the line the walk began.
        start: usize,
        /// The steps of all walks up to there.
        steps: u64,
    },
    /// The line has more than 65,535 bytes.
    TooLong,
}

impl<'t> Outcome<'t> {
    /// An outcome by its numbers, and the row if it has one. Of a rule that is sound only a line can be refused, for its length.
    pub(crate) fn told(source: &Arc<Source>, line: &'t [u8], [kind, detail]: [u32; 2], steps: u64, row: &[u32]) -> Outcome<'t> {
        match kind {
            MATCHED => Outcome::Matched { captures: Captures::new(source, line, row), steps },
            NOT_MATCHED => Outcome::NotMatched { steps },
            EXHAUSTED => Outcome::Exhausted { start: detail as usize, steps },
            _ => Outcome::TooLong,
        }
    }

    /// The match, or none where the line is not matched; an error where that is not known.
    pub fn known(self) -> Result<Option<Captures<'t>>, Unknown> {
        match self {
            Outcome::Matched { captures, .. } => Ok(Some(captures)),
            Outcome::NotMatched { .. } => Ok(None),
            Outcome::Exhausted { start, steps } => Err(Unknown::Exhausted { start, steps }),
            Outcome::TooLong => Err(Unknown::TooLong),
        }
    }
}
