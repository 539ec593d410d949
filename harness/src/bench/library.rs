//! The library as a contender: calls on areas of exactly the size that they need.

use std::hint::black_box;

use super::{Case, Reply};
use crate::independent::{INDEX_LENGTH, PART_LENGTH, ROW_LENGTH, RULE_AREA, WORK_PER_STEP};
use crate::raw::{self, Areas, Call, Question, ANSWER_LENGTH};

/// An answer's kind when the call is refused, and the reasons for which a library from before a flag, `\k`, a possessive repeat, `(?<` or looking ahead
/// refuses one that has it.
const REFUSED: u32 = 3;
const NOT_HELD: [u32; 4] = [3, 11, 19, 22];

pub struct Library<'c> {
    case: &'c Case,
    rule_area: Vec<u32>,
    work_area: Vec<u32>,
    result: Vec<u32>,
    names: Vec<u8>,
    answer: [u32; ANSWER_LENGTH],
}

impl<'c> Library<'c> {
    pub fn new(case: &'c Case) -> Library<'c> {
        Library {
            case,
            rule_area: vec![0; RULE_AREA],
            work_area: vec![0; WORK_PER_STEP * case.budget as usize],
            result: vec![0; case.room * if case.call == Call::Batch { PART_LENGTH } else { ROW_LENGTH }],
            names: vec![0; INDEX_LENGTH],
            answer: [0; ANSWER_LENGTH],
        }
    }

    /// The case's call, on this subject. It is the same areas for all subjects: what clearing them takes hangs on where they lie, and the time on
    /// the empty line is taken off that of the walk.
    pub fn call(&mut self, subject: &[u8]) {
        let question = Question { rule: &self.case.rule, flags: self.case.flags, subject, budget: self.case.budget, proposal: b"" };
        let areas = Areas { rule: &mut self.rule_area, work: &mut self.work_area, result: &mut self.result, names: &mut self.names, marks: &mut [] };
        raw::call(self.case.call, black_box(question), areas, &mut self.answer);
        black_box(&self.answer);
        black_box(&self.result);
    }

    /// Does the library hold the case's rule and its flags? One from before a flag or names came refuses it.
    pub fn holds(&mut self) -> bool {
        self.call(b"");
        self.answer[0] != REFUSED || !NOT_HELD.contains(&self.answer[1])
    }

    /// What a call answers, and after how many steps.
    pub fn reply(&mut self, subject: &[u8]) -> (Reply, u64) {
        self.call(subject);
        let [kind, detail, place, low, high, rows, ..] = self.answer;
        let steps = u64::from(high) << 32 | u64::from(low);
        let rows = match (self.case.call, kind) {
            (_, REFUSED) => panic!("a case of the benchmark is refused: {detail} at {place}"),
            (Call::List | Call::Scan, 1) => panic!("a case of the benchmark has too few rows"),
            (_, 2) => return (Reply::GaveUp, steps),
            (Call::Match | Call::Check, 0) => 1,
            (Call::Match | Call::Explain | Call::Check, _) => 0,
            (Call::List | Call::Scan, _) => rows as usize,
            (Call::Batch, _) => return (Reply::Rows(self.result[..PART_LENGTH * rows as usize].to_vec()), steps),
        };
        (Reply::Rows(self.result[..ROW_LENGTH * rows].to_vec()), steps)
    }
}
