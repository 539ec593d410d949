//! Every reading of a line, and successive matches: what calls write in rows.

use std::sync::Arc;

use crate::captures::Captures;
use crate::errors::Unknown;
use crate::limits::ROW;
use crate::source::Source;

/// What a listing answers: each reading once, by rising start and falling priority. Whether these are all is in the answer's kind.
#[derive(Clone, Debug)]
#[must_use]
pub enum Listing<'t> {
    /// Every reading of the line.
    Complete {
        /// All of them.
        readings: Readings<'t>,
        /// The steps of all walks.
        steps: u64,
    },
    /// There is at least one reading more than were asked for.
    Full {
        /// As many as were asked for.
        readings: Readings<'t>,
        /// The steps up to the reading that found no room.
        steps: u64,
    },
    /// The walk from this start needs more steps than the budget: there may be more readings.
    Exhausted {
        /// Where in the line the walk began.
        start: usize,
        /// Those found before.
        readings: Readings<'t>,
        /// The steps of all walks up to there.
        steps: u64,
    },
    /// The line has more than 65,535 bytes.
    TooLong,
}

impl<'t> Listing<'t> {
    /// Every reading, or an error where these are not known to be all.
    pub fn known(self) -> Result<Readings<'t>, Unknown> {
        match self {
            Listing::Complete { readings, .. } => Ok(readings),
            Listing::Full { steps, .. } => Err(Unknown::Full { steps }),
            Listing::Exhausted { start, steps, .. } => Err(Unknown::Exhausted { start, steps }),
            Listing::TooLong => Err(Unknown::TooLong),
        }
    }
}

/// Readings in their order.
#[derive(Clone, Debug)]
pub struct Readings<'t> {
    source: Arc<Source>,
    line: &'t [u8],
    rows: Vec<u32>,
    /// How many of the rows have been told.
    told: usize,
}

impl<'t> Readings<'t> {
    pub(crate) fn new(source: &Arc<Source>, line: &'t [u8], rows: Vec<u32>) -> Readings<'t> {
        Readings { source: Arc::clone(source), line, rows, told: 0 }
    }
}

impl<'t> Iterator for Readings<'t> {
    type Item = Captures<'t>;

    fn next(&mut self) -> Option<Captures<'t>> {
        let row = self.rows.get(ROW * self.told..ROW * (self.told + 1))?;
        self.told += 1;
        Some(Captures::new(&self.source, self.line, row))
    }

    fn size_hint(&self) -> (usize, Option<usize>) {
        let left = self.rows.len() / ROW - self.told;
        (left, Some(left))
    }
}

impl ExactSizeIterator for Readings<'_> {}

/// Successive matches in their order. Where not all are known, the last item says why.
#[derive(Clone, Debug)]
pub struct Matches<'t> {
    found: Readings<'t>,
    /// What is told behind those that were found.
    ending: Option<Unknown>,
    steps: u64,
}

impl<'t> Matches<'t> {
    pub(crate) fn new(found: Readings<'t>, ending: Option<Unknown>, steps: u64) -> Matches<'t> {
        Matches { found, ending, steps }
    }

    /// The steps of all searches.
    pub fn steps(&self) -> u64 {
        self.steps
    }
}

impl<'t> Iterator for Matches<'t> {
    type Item = Result<Captures<'t>, Unknown>;

    fn next(&mut self) -> Option<Result<Captures<'t>, Unknown>> {
        self.found.next().map(Ok).or_else(|| self.ending.take().map(Err))
    }

    fn size_hint(&self) -> (usize, Option<usize>) {
        let left = self.found.len() + usize::from(self.ending.is_some());
        (left, Some(left))
    }
}

impl ExactSizeIterator for Matches<'_> {}
impl std::iter::FusedIterator for Matches<'_> {}
