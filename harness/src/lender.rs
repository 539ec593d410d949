//! Runs a call with the library on lent areas, and looks at all that the call left behind.

use std::ops::Range;

use crate::case::{shown, Case};
use crate::fence::Fenced;
use crate::independent::{
    self, Answer, Attempt, Ending, Explanation, Miss, Part, Row, INDEX_LENGTH, PART_LENGTH, ROW_LENGTH, RULE_AREA, WORK_PER_STEP,
};
use crate::raw::{self, Areas, Call, Question, ANSWER_LENGTH};

/// Lends areas to the library and looks at every number of them, and of some around them, after the call. The rule, the subject and the proposal end at a
/// fence, so that a byte read behind them would end the program.
pub struct Lender {
    /// What areas hold before a call: no number is 0, and neighbours differ.
    pattern: Vec<u32>,
    /// And what the name index and the marks hold: no byte is 0 or 1, which marks are, and neighbours differ.
    byte_pattern: Vec<u8>,
    rule: Vec<u32>,
    work: Vec<u32>,
    result: Vec<u32>,
    names: Vec<u8>,
    marks: Vec<u8>,
    /// Where the rule, the subject and the proposal stand for the library, each up to a fence.
    rule_text: Fenced,
    subject_text: Fenced,
    proposal_text: Fenced,
}

/// Numbers before and behind each area, and bytes around the name index and the marks, that no call may touch.
const GUARD: usize = 32;

/// What the numbers of an answer, and some behind them, are before a call.
const UNWRITTEN: u32 = 0xA5A5_A5A5;
type Numbers = [u32; ANSWER_LENGTH + 5];

/// What the library did: its answer, and what is wrong with what it left behind.
pub struct Run {
    pub answer: Answer,
    pub faults: Vec<String>,
}

impl Default for Lender {
    fn default() -> Lender {
        let [rule_text, subject_text, proposal_text] = [4_096, 70_000, 4_096].map(Fenced::new);
        let [pattern, rule, work, result] = [(); 4].map(|()| Vec::new());
        let [byte_pattern, names, marks] = [(); 3].map(|()| Vec::new());
        Lender { pattern, byte_pattern, rule, work, result, names, marks, rule_text, subject_text, proposal_text }
    }
}

impl Lender {
    /// Runs the case with the library and compares it with what the independent matcher expects; tells what differs.
    pub fn compare(&mut self, case: &Case, expected: &Answer) -> Vec<String> {
        let Run { answer, mut faults } = self.run(case);
        if answer != *expected {
            faults.push(format!("library:     {}\nindependent: {}", shown(&answer), shown(expected)));
        }
        faults
    }

    /// Runs the case with the library. What it left in the areas is held against its own answer.
    pub fn run(&mut self, case: &Case) -> Run {
        self.fill(case);
        let mut numbers: Numbers = [UNWRITTEN; ANSWER_LENGTH + 5];
        self.subject_text.make_room(case.subject.len());
        self.proposal_text.make_room(case.proposal.len());
        let (rule, subject) = (self.rule_text.hold(&case.rule), self.subject_text.hold(&case.subject));
        let question = Question { rule, flags: case.flags, subject, budget: case.budget, proposal: self.proposal_text.hold(&case.proposal) };
        let areas = Areas {
            rule: &mut self.rule[GUARD..][..case.rule_area],
            work: &mut self.work[GUARD..][..case.work_area],
            result: &mut self.result[GUARD..][..case.result_area],
            names: &mut self.names[GUARD..][..case.name_index],
            marks: &mut self.marks[GUARD..][..case.marks],
        };
        raw::call(case.call, question, areas, numbers.first_chunk_mut().expect("there are more than an answer has"));
        let mut faults = Vec::new();
        let answer = self.told(case, &numbers, &mut faults);
        self.look(case, &answer, &mut faults);
        Run { answer, faults }
    }

    fn fill(&mut self, case: &Case) {
        let longest = case.rule_area.max(case.work_area).max(case.result_area) + 2 * GUARD;
        for index in self.pattern.len()..longest {
            self.pattern.push((index as u32).wrapping_mul(2_654_435_761) | 1);
        }
        let lengths = [case.rule_area, case.work_area, case.result_area];
        for (area, length) in [&mut self.rule, &mut self.work, &mut self.result].into_iter().zip(lengths) {
            area.clear();
            area.extend_from_slice(&self.pattern[..length + 2 * GUARD]);
        }
        for index in self.byte_pattern.len()..case.name_index.max(case.marks) + 2 * GUARD {
            self.byte_pattern.push((index % 254) as u8 + 2);
        }
        for (area, length) in [&mut self.names, &mut self.marks].into_iter().zip([case.name_index, case.marks]) {
            area.clear();
            area.extend_from_slice(&self.byte_pattern[..length + 2 * GUARD]);
        }
    }

    /// The answer that the numbers are, with its rows, parts, names and marks from their areas. "What has nothing to say is 0".
    fn told(&self, case: &Case, numbers: &Numbers, faults: &mut Vec<String>) -> Answer {
        let [kind, detail, place, low, high, count, explained @ ..] = *numbers;
        let ending = ending(case.call, kind, detail, place);
        let refused = matches!(ending, Ending::Refused(_));
        let no_detail = !refused && !matches!(ending, Ending::Exhausted(_));
        let room = match case.call {
            Call::Match | Call::List | Call::Scan | Call::Check => case.result_area / ROW_LENGTH,
            Call::Explain => 0,
            Call::Batch => case.result_area / PART_LENGTH,
        };
        let is_kind = kind == 0 || kind == 3 || (kind < 3 && case.call != Call::Batch);
        let is_quiet = (!no_detail || detail == 0) && (refused || place == 0) && (!refused || (low, high, count) == (0, 0, 0));
        if !is_kind || !is_quiet || count as usize > room {
            faults.push(format!("the answer's numbers are {numbers:?}"));
        }
        let filled = self.names.get(GUARD..GUARD + INDEX_LENGTH).and_then(|names| names.try_into().ok());
        let names = if refused { None } else { filled.map(Box::new) };
        let explanation = self.explained(case, ending, &explained, faults);
        let count = room.min(count as usize);
        let (rows, parts) = if case.call == Call::Batch { (Vec::new(), self.parts(count)) } else { (self.rows(count), Vec::new()) };
        Answer { ending, steps: u64::from(high) << 32 | u64::from(low), rows, names, explanation, parts }
    }

    /// So many rows of the result area.
    fn rows(&self, count: usize) -> Vec<Row> {
        self.result[GUARD..][..ROW_LENGTH * count].chunks_exact(ROW_LENGTH).map(|row| row.try_into().expect("a chunk is a row")).collect()
    }

    /// So many parts of the result area. A line that is not matched has no row: what stands there is looked at with the rest of the area.
    fn parts(&self, count: usize) -> Vec<Part> {
        let part = |part: &[u32]| {
            let (row, outcome) = part.split_at(ROW_LENGTH);
            let row = (outcome[0] == 0).then(|| row.try_into().expect("it has a row's length"));
            Part { row, outcome: outcome.try_into().expect("four numbers are left") }
        };
        self.result[GUARD..][..PART_LENGTH * count].chunks_exact(PART_LENGTH).map(part).collect()
    }

    /// The explanation that the numbers behind the first six are, with its marks. They are 0 where an explanation has none, and as they were where
    /// the call is another one.
    fn explained(&self, case: &Case, ending: Ending, numbers: &[u32], faults: &mut Vec<String>) -> Option<Explanation> {
        let (numbers, behind) = numbers.split_at(ANSWER_LENGTH - 6);
        let explains = case.call == Call::Explain && ending == Ending::NotMatched;
        let nothing = if case.call == Call::Explain { 0 } else { UNWRITTEN };
        if (!explains && numbers.iter().any(|&number| number != nothing)) || behind.iter().any(|&number| number != UNWRITTEN) {
            faults.push(format!("the answer's numbers behind the sixth are {numbers:?}, and {behind:?} behind these"));
        }
        let [at, item, start, close_at, close_item] = [0, 1, 2, 3, 4].map(|index| numbers[index] as usize);
        explains.then(|| Explanation {
            furthest: Miss { at, item },
            closest: Attempt { start, miss: Miss { at: close_at, item: close_item } },
            marks: self.marks[GUARD..][..case.marks.min(case.rule.len())].to_vec(),
        })
    }

    /// "After refusals 1 to 7 both areas are unchanged; after any other return their needed first part is zero and the rest unchanged."
    /// "All other numbers in the [result] area stay unchanged." "Each call fills a lent name index, bytes after it unchanged", "a refused call leaves
    /// the index unchanged". Marks are written for "not matched" alone, and none behind the rule's length.
    fn look(&self, case: &Case, answer: &Answer, faults: &mut Vec<String>) {
        let (mut rule, mut work) = (0, 0);
        if answer.clears_areas() {
            (rule, work) = (RULE_AREA.min(case.rule_area), (WORK_PER_STEP * case.budget as usize).min(case.work_area));
        }
        let zero = |area: &[u32], length: usize| is_zero(&area[GUARD..][..length]);
        let kept = |area: &[u32], written: usize| {
            area[..GUARD] == self.pattern[..GUARD] && area[GUARD + written..] == self.pattern[GUARD + written..area.len()]
        };
        if !zero(&self.rule, rule) || !kept(&self.rule, rule) {
            faults.push(format!("the rule area is not {rule} zeros and otherwise unchanged"));
        }
        if !zero(&self.work, work) || !kept(&self.work, work) {
            faults.push(format!("the work area is not {work} zeros and otherwise unchanged"));
        }
        if self.is_result_changed_beside(&written_numbers(answer)) {
            faults.push(format!("the result area is changed beside its {} rows or {} parts", answer.rows.len(), answer.parts.len()));
        }
        let filled = if answer.names.is_some() { INDEX_LENGTH } else { 0 };
        let marked = answer.explanation.as_ref().map_or(0, |explanation| explanation.marks.len());
        for (what, area, written) in [("name index", &self.names, filled), ("marks", &self.marks, marked)] {
            let behind = GUARD + written;
            if area[..GUARD] != self.byte_pattern[..GUARD] || area[behind..] != self.byte_pattern[behind..area.len()] {
                faults.push(format!("the {what} changed beside {written} bytes"));
            }
        }
    }

    /// Has a number of the result area changed, or one of those around it, that is not among these?
    fn is_result_changed_beside(&self, written: &[Range<usize>]) -> bool {
        let mut kept_from = 0;
        let mut is_changed = false;
        for range in written {
            is_changed |= self.result[kept_from..GUARD + range.start] != self.pattern[kept_from..GUARD + range.start];
            kept_from = GUARD + range.end;
        }
        is_changed || self.result[kept_from..] != self.pattern[kept_from..self.result.len()]
    }
}

/// Is every number 0? All are looked at, several at a time, which takes less long than to stop at the first that is not: areas are long, and mostly zero.
pub fn is_zero(numbers: &[u32]) -> bool {
    numbers.iter().fold(0, |any, number| any | number) == 0
}

/// What an answer's numbers say of how the call ended. Kinds that there are not count as refusals.
fn ending(call: Call, kind: u32, detail: u32, place: u32) -> Ending {
    match (call, kind) {
        (Call::Match | Call::Explain, 0) => Ending::Matched,
        (Call::Match | Call::Explain, 1) => Ending::NotMatched,
        (Call::List | Call::Scan, 0) => Ending::Complete,
        (Call::List | Call::Scan, 1) => Ending::Full,
        (Call::Check, 0) => Ending::Reading,
        (Call::Check, 1) => Ending::NoReading,
        (Call::Match | Call::Explain | Call::List | Call::Scan | Call::Check, 2) => Ending::Exhausted(detail as usize),
        (Call::Batch, 0) => Ending::Done,
        _ => Ending::Refused(independent::Refusal { number: detail, place: place as usize }),
    }
}

/// The numbers of the result area that a call with this answer writes, by rising places: its rows, or of each line the row, if it is matched, and the
/// outcome.
fn written_numbers(answer: &Answer) -> Vec<Range<usize>> {
    let mut written = vec![0..ROW_LENGTH * answer.rows.len()];
    for (index, part) in answer.parts.iter().enumerate() {
        let (row, end) = (PART_LENGTH * index, PART_LENGTH * (index + 1));
        written.push(if part.row.is_some() { row..end } else { row + ROW_LENGTH..end });
    }
    written
}
