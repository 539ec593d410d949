//! The calls: refusals 1 to 8, the starts one after another, rows, what failed, the name index, and how a call ends. Successive matches, a day's
//! lines and the check of a proposal have files of their own.

use std::collections::HashSet;

use crate::raw::Call;

use super::batch::{self, Part, PART_LENGTH};
use super::check;
use super::explain::{Explanation, Log};
use super::names::{self, Index, INDEX_LENGTH};
use super::reader::{self, Refusal, ALL_FLAGS, MOST_GROUPS};
use super::scan;
use super::tree::Rule;
use super::walk::{End, Event, Walk};

/// 02 j): "A row becomes 130 numbers: start, end and 64 pairs."
pub const ROW_LENGTH: usize = 2 + 2 * MOST_GROUPS;
pub const LONGEST_RULE: usize = 1_000;
pub const LONGEST_SUBJECT: usize = 65_535;
pub const UNSET: u32 = 4_294_967_295;
pub const RULE_AREA: usize = 16_384;
pub const WORK_PER_STEP: usize = 16;

pub type Row = [u32; ROW_LENGTH];

/// All that a call is given. Of the lent areas only their lengths matter for the answer.
pub struct Inputs<'a> {
    pub rule: &'a [u8],
    pub flags: u32,
    /// For a day's lines the buffer.
    pub subject: &'a [u8],
    pub budget: u32,
    pub rule_area: usize,
    pub work_area: usize,
    /// Not lent to an explanation.
    pub result_area: usize,
    /// In bytes.
    pub name_index: usize,
    /// The marks' length in bytes; lent to an explanation alone.
    pub marks: usize,
    /// Given to a check alone.
    pub proposal: &'a [u8],
}

#[derive(Clone, Copy, PartialEq, Eq, Debug)]
pub enum Ending {
    Matched,
    NotMatched,
    Complete,
    Full,
    /// A day's lines, each with its own outcome.
    Done,
    /// What is proposed is a reading.
    Reading,
    NoReading,
    /// Exhausted at this start.
    Exhausted(usize),
    Refused(Refusal),
}

/// What a call answers, and the rows, marks or parts that it writes. A refusal has no steps, and a call for a day's lines none of its own.
#[derive(PartialEq, Eq)]
pub struct Answer {
    pub ending: Ending,
    pub steps: u64,
    pub rows: Vec<Row>,
    /// "Each call fills a lent name index", and "a refused call leaves the index unchanged".
    pub names: Option<Box<Index>>,
    /// What an explanation tells where it says "not matched".
    pub explanation: Option<Explanation>,
    /// What a day's lines get, one after another.
    pub parts: Vec<Part>,
}

impl Answer {
    /// An answer with nothing beside its ending.
    pub fn bare(ending: Ending) -> Answer {
        Answer { ending, steps: 0, rows: Vec::new(), names: None, explanation: None, parts: Vec::new() }
    }

    /// "After refusals 1 to 7 both areas are unchanged; after any other return their needed first part is zero"; 02: "New refusal 8, after 7 and like it
    /// in place and areas".
    pub fn clears_areas(&self) -> bool {
        !matches!(self.ending, Ending::Refused(refusal) if refusal.number <= 8)
    }
}

/// The answer of one call.
pub fn answer(call: Call, inputs: &Inputs) -> Answer {
    if let Some(number) = unacceptable(call, inputs) {
        return Answer::bare(Ending::Refused(Refusal { number, place: 0 }));
    }
    match accepted(call, inputs) {
        Err(refusal) => Answer::bare(Ending::Refused(refusal)),
        Ok(rule) => Answer { names: Some(Box::new(names::index(&rule))), ..walked_answer(call, &rule, inputs) },
    }
}

/// The rule, or why it is refused. 02 m): "After the rule's own refusals, 35 is given .., then 36".
fn accepted(call: Call, inputs: &Inputs) -> Result<Rule, Refusal> {
    let rule = reader::read(inputs.rule, inputs.flags)?;
    match check::refused_by(&rule) {
        Some(refusal) if call == Call::Check => Err(refusal),
        _ => Ok(rule),
    }
}

/// The same for a rule that is accepted, its names left out.
fn walked_answer(call: Call, rule: &Rule, inputs: &Inputs) -> Answer {
    let mut log = Log::default();
    let walks = Walks { rule, subject: inputs.subject, budget: u64::from(inputs.budget) };
    let (ending, steps, mut rows) = match call {
        Call::Match | Call::Explain => first_reading(walks, &mut log),
        Call::List => all_readings(walks, inputs.result_area / ROW_LENGTH),
        Call::Scan => scan::all_matches(walks, inputs.result_area / ROW_LENGTH),
        Call::Batch => return Answer { parts: batch::parts(walks), ..Answer::bare(Ending::Done) },
        Call::Check => return check::checked(rule, inputs.subject, u64::from(inputs.budget), inputs.proposal),
    };
    let mut explanation = None;
    if call == Call::Explain {
        // "if matched, say that": there is no row.
        rows.clear();
        explanation = (ending == Ending::NotMatched).then(|| log.explanation(inputs.marks.min(inputs.rule.len())));
    }
    Answer { steps, rows, explanation, ..Answer::bare(ending) }
}

/// A sound rule, a line, and the budget that holds afresh at each start.
#[derive(Clone, Copy)]
pub struct Walks<'r> {
    pub rule: &'r Rule,
    pub subject: &'r [u8],
    pub budget: u64,
}

impl<'r> Walks<'r> {
    pub fn from(&self, start: usize) -> Walk<'r> {
        Walk::new(self.rule, self.subject, start, self.budget)
    }
}

/// The steps that a call takes at one start, where its budget allows for so many: those up to the first end in a match or an explanation, and in
/// a listing those of the whole walk.
pub fn steps_at(call: Call, rule: &Rule, subject: &[u8], start: usize, budget: u64) -> u64 {
    walked(call, rule, subject, start, budget).steps
}

/// The steps before and behind each reference that a call tries at one start, and each part that looks ahead or holds on.
pub fn stretches_at(call: Call, rule: &Rule, subject: &[u8], start: usize, budget: u64) -> Vec<(u64, u64)> {
    walked(call, rule, subject, start, budget).stretches
}

fn walked<'r>(call: Call, rule: &'r Rule, subject: &'r [u8], start: usize, budget: u64) -> Walk<'r> {
    let mut walk = Walk::new(rule, subject, start, budget);
    while matches!(walk.next_event(), Event::End(_)) && call == Call::List {}
    walk
}

/// The first of refusals 1 to 8 that is due, "tested in this order". 02 f): "No result area is lent, so 7 isn't given." 02 h): "A line over 65,535 bytes
/// gets refusal 2 in its own outcome", "7 is given here only if lines outnumber parts".
fn unacceptable(call: Call, inputs: &Inputs) -> Option<u32> {
    let is_short = match call {
        Call::Match | Call::List | Call::Scan | Call::Check => inputs.result_area < ROW_LENGTH,
        Call::Explain => false,
        Call::Batch => batch::lines(inputs.subject).len() > inputs.result_area / PART_LENGTH,
    };
    let tests = [
        inputs.rule.len() > LONGEST_RULE,
        call != Call::Batch && inputs.subject.len() > LONGEST_SUBJECT,
        inputs.flags > ALL_FLAGS,
        inputs.budget > 100_000,
        inputs.rule_area < RULE_AREA,
        inputs.work_area < WORK_PER_STEP * inputs.budget as usize,
        is_short,
        inputs.name_index < INDEX_LENGTH,
    ];
    (1..).zip(tests).find(|&(_, due)| due).map(|(number, _)| number)
}

/// "A match stops at the first end reached". The budget holds afresh at each start. What failed at a start without an end goes into the log.
pub fn first_reading(walks: Walks, log: &mut Log) -> (Ending, u64, Vec<Row>) {
    let mut steps = 0;
    for start in 0..=walks.subject.len() {
        let mut walk = walks.from(start);
        let event = walk.next_event();
        steps += walk.steps;
        match event {
            Event::End(end) => return (Ending::Matched, steps, vec![row(start, &end)]),
            Event::Exhausted => return (Ending::Exhausted(start), steps, Vec::new()),
            Event::Over => log.add(start, &walk.misses),
        }
    }
    (Ending::NotMatched, steps, Vec::new())
}

/// "a listing goes on, and ends complete, full, or exhausted at a named start, which ends the whole call".
fn all_readings(walks: Walks, room: usize) -> (Ending, u64, Vec<Row>) {
    let (mut steps, mut rows) = (0, Vec::new());
    for start in 0..=walks.subject.len() {
        let mut walk = walks.from(start);
        let cut = list_from(start, &mut walk, room, &mut rows);
        steps += walk.steps;
        if let Some(ending) = cut {
            return (ending, steps, rows);
        }
    }
    (Ending::Complete, steps, rows)
}

/// Adds a start's new readings to the rows, and says what cut the listing short, if anything did.
fn list_from(start: usize, walk: &mut Walk, room: usize, rows: &mut Vec<Row>) -> Option<Ending> {
    let mut known = HashSet::new();
    loop {
        match walk.next_event() {
            Event::Over => return None,
            Event::Exhausted => return Some(Ending::Exhausted(start)),
            Event::End(end) => {
                let reading = row(start, &end);
                if known.insert(reading) {
                    if rows.len() == room {
                        return Some(Ending::Full);
                    }
                    rows.push(reading);
                }
            }
        }
    }
}

/// "an unset or missing group is 4294967295 twice"
pub fn row(start: usize, end: &End) -> Row {
    let number = |place: usize| u32::try_from(place).expect("a place in a subject fits");
    let mut row = [UNSET; ROW_LENGTH];
    (row[0], row[1]) = (number(start), number(end.end));
    for (group, span) in end.spans.iter().enumerate().skip(1) {
        if let Some((from, to)) = *span {
            (row[2 * group], row[2 * group + 1]) = (number(from), number(to));
        }
    }
    row
}
