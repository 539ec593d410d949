//! The areas that the library works in, and what it tells by an answer's numbers.

use crate::limits::{MOST_BUDGET, NAME_INDEX, RULE_AREA, WORK_PER_STEP};
use crate::raw::{self, Call, Question, ANSWER_LENGTH};
use crate::refusal::Refusal;

/// Kinds of answers, where they are not those of one call alone.
pub(crate) const MATCHED: u32 = 0;
pub(crate) const NOT_MATCHED: u32 = 1;
pub(crate) const EXHAUSTED: u32 = 2;
pub(crate) const REFUSED: u32 = 3;
pub(crate) const COMPLETE: u32 = 0;
pub(crate) const FULL: u32 = 1;
pub(crate) const READING: u32 = 0;
pub(crate) const NO_READING: u32 = 1;

/// What the calls of one rule work in: 64 KiB, and 64 bytes for each step of the budget. They are made once, and lent to one call at a time.
pub(crate) struct Areas {
    rule: Vec<u32>,
    work: Vec<u32>,
    names: Vec<u8>,
}

/// The numbers of an answer by their meaning.
pub(crate) struct Answer {
    pub kind: u32,
    /// Where it was exhausted, or the refusal's number.
    pub detail: u32,
    place: u32,
    pub steps: u64,
    /// How many rows were written.
    pub rows: usize,
    /// An explanation's own: the furthest failure's place in the line and in the rule, the closest attempt's start and its places.
    pub places: [usize; 5],
}

impl Areas {
    pub fn new(budget: u32) -> Areas {
        Areas { rule: vec![0; RULE_AREA], work: vec![0; WORK_PER_STEP * budget.min(MOST_BUDGET) as usize], names: vec![0; NAME_INDEX] }
    }

    /// Makes room for this budget, if there is less.
    pub fn suffice(&mut self, budget: u32) {
        let needed = WORK_PER_STEP * budget.min(MOST_BUDGET) as usize;
        self.work.resize(needed.max(self.work.len()), 0);
    }

    pub fn ask(&mut self, call: Call, question: Question, result: &mut [u32], marks: &mut [u8]) -> Answer {
        let areas = raw::Areas { rule: &mut self.rule, work: &mut self.work, result, names: &mut self.names, marks };
        let mut numbers = [0; ANSWER_LENGTH];
        raw::call(call, question, areas, &mut numbers);
        let [kind, detail, place, low, high, rows, places @ ..] = numbers;
        Answer { kind, detail, place, steps: steps(low, high), rows: rows as usize, places: places.map(|place| place as usize) }
    }

    /// The name index as the last call that was not refused has filled it.
    pub fn names(&self) -> &[u8] {
        &self.names
    }
}

impl Answer {
    pub fn refusal(&self) -> Option<Refusal> {
        (self.kind == REFUSED).then(|| Refusal::told(self.detail, self.place))
    }
}

/// A count of steps by its low and high 32 bits.
pub(crate) fn steps(low: u32, high: u32) -> u64 {
    u64::from(high) << 32 | u64::from(low)
}
