//! What is said of a proposed reading.

use crate::captures::Captures;
use crate::errors::Unknown;

/// What a check says of a proposal. Whether that is a reading is not always known, and no arm of a `match` on it can be forgotten.
#[derive(Clone, Debug)]
#[must_use]
pub enum Checked<'t> {
    /// The choices, all of them used, make a reading of the line. It is *a* reading and need not be the match, which is the first one by priority from the
    /// leftmost start that has one.
    Reading {
        /// Where it begins and ends, and what the groups took.
        captures: Captures<'t>,
        /// The steps along its path.
        steps: u64,
    },
    /// The proposal is not one: its start lies behind the line's end, an item on its path fails, or choices are missing, left over or not allowed. Of the
    /// line this says nothing: it may have other readings.
    NoReading {
        /// The steps up to where that was seen.
        steps: u64,
    },
    /// The path needs more steps than the budget: the proposal may be a reading or not.
    Exhausted {
        /// Where in the line the path begins.
        start: usize,
        /// The steps along it, which are the whole budget.
        steps: u64,
    },
    /// The line has more than 65,535 bytes.
    TooLong,
}

impl<'t> Checked<'t> {
    /// The reading, or none where the proposal is not one; an error where that is not known.
    pub fn known(self) -> Result<Option<Captures<'t>>, Unknown> {
        match self {
            Checked::Reading { captures, .. } => Ok(Some(captures)),
            Checked::NoReading { .. } => Ok(None),
            Checked::Exhausted { start, steps } => Err(Unknown::Exhausted { start, steps }),
            Checked::TooLong => Err(Unknown::TooLong),
        }
    }
}
