//! One call with all that it is given, and how it and its answer are shown.

use crate::independent::{
    self, Answer, Ending, Explanation, Index, Inputs, Part, Row, ENTRY_LENGTH, INDEX_LENGTH, MOST_GROUPS, PART_LENGTH, ROW_LENGTH, RULE_AREA, UNSET,
    WORK_PER_STEP,
};
use crate::raw::Call;
use crate::text;

#[derive(Clone)]
pub struct Case {
    pub call: Call,
    pub rule: Vec<u8>,
    pub flags: u32,
    /// For a day's lines the buffer.
    pub subject: Vec<u8>,
    pub budget: u32,
    /// The lengths of the areas.
    pub rule_area: usize,
    pub work_area: usize,
    /// Not lent to an explanation.
    pub result_area: usize,
    /// In bytes.
    pub name_index: usize,
    /// In bytes; lent to an explanation alone.
    pub marks: usize,
    /// What is checked; given to a check alone.
    pub proposal: Vec<u8>,
}

impl Case {
    /// A call whose areas are exactly enough, with room for so many rows or lines, or for a mark for each byte of the rule.
    pub fn new(call: Call, rule: &[u8], flags: u32, subject: &[u8], budget: u32, rows: usize) -> Case {
        Case {
            call,
            rule: rule.to_vec(),
            flags,
            subject: subject.to_vec(),
            budget,
            rule_area: RULE_AREA,
            work_area: if budget > 100_000 { 0 } else { WORK_PER_STEP * budget as usize },
            result_area: rows * if call == Call::Batch { PART_LENGTH } else { ROW_LENGTH },
            name_index: INDEX_LENGTH,
            marks: rule.len(),
            proposal: Vec::new(),
        }
    }

    /// The check of a proposal, with areas that are exactly enough.
    pub fn check(rule: &[u8], flags: u32, subject: &[u8], budget: u32, proposal: &[u8]) -> Case {
        Case { proposal: proposal.to_vec(), ..Case::new(Call::Check, rule, flags, subject, budget, 1) }
    }

    /// What the independent matcher answers.
    pub fn expected(&self) -> Answer {
        let inputs = Inputs {
            rule: &self.rule,
            flags: self.flags,
            subject: &self.subject,
            budget: self.budget,
            rule_area: self.rule_area,
            work_area: self.work_area,
            result_area: self.result_area,
            name_index: self.name_index,
            marks: self.marks,
            proposal: &self.proposal,
        };
        independent::answer(self.call, &inputs)
    }

    /// The case on some lines, with all that is needed to run it again.
    pub fn shown(&self) -> String {
        let call = match self.call {
            Call::Match => "match",
            Call::List => "list",
            Call::Explain => "explain",
            Call::Scan => "scan",
            Call::Batch => "batch",
            Call::Check => "check",
        };
        let proposal = if self.call == Call::Check { format!(" proposal {}", text::hex(&self.proposal)) } else { String::new() };
        format!(
            "{call} rule `{}` (hex {}) flags {} subject \"{}\" (hex {}) budget {}{proposal} areas {} {} {} {} {}",
            text::escaped(&self.rule),
            text::hex(&self.rule),
            self.flags,
            text::escaped(&self.subject),
            text::hex(&self.subject),
            self.budget,
            self.rule_area,
            self.work_area,
            self.result_area,
            self.name_index,
            self.marks
        )
    }
}

/// An answer on one line.
pub fn shown(answer: &Answer) -> String {
    let ending = match answer.ending {
        Ending::Matched => "matched".to_string(),
        Ending::NotMatched => "not matched".to_string(),
        Ending::Complete => "complete".to_string(),
        Ending::Full => "full".to_string(),
        Ending::Reading => "a reading".to_string(),
        Ending::NoReading => "no reading".to_string(),
        Ending::Exhausted(start) => format!("exhausted at {start}"),
        Ending::Done => return shown_batch(answer),
        Ending::Refused(refusal) => return format!("refused {} at {}", refusal.number, refusal.place),
    };
    let rows: Vec<String> = answer.rows.iter().map(shown_row).collect();
    let names = answer.names.as_deref().map_or(String::new(), shown_names);
    let explanation = answer.explanation.as_ref().map_or(String::new(), shown_explanation);
    format!("{ending}, {} steps [{}]{names}{explanation}", answer.steps, rows.join("; "))
}

/// How many lines, and the part of each.
fn shown_batch(answer: &Answer) -> String {
    let parts: Vec<String> = answer.parts.iter().map(shown_part).collect();
    let names = answer.names.as_deref().map_or(String::new(), shown_names);
    format!("done, {} lines [{}]{names}", parts.len(), parts.join("; "))
}

/// A line's part: its outcome in words, its steps, and its row if it has one.
pub fn shown_part(part: &Part) -> String {
    let [kind, detail, low, high] = part.outcome;
    let steps = u64::from(high) << 32 | u64::from(low);
    let outcome = match (kind, detail) {
        (0, 0) => "matched".to_string(),
        (1, 0) => "not matched".to_string(),
        (2, start) => format!("exhausted at {start}"),
        (3, reason) => format!("refused {reason}"),
        other => format!("the numbers {other:?}"),
    };
    let row = part.row.as_ref().map_or(String::new(), |row| format!(" {}", shown_row(row)));
    format!("{outcome}, {steps} steps{row}")
}

/// ` furthest AT ITEM closest START AT ITEM marks` and the marks, a digit for each.
fn shown_explanation(explanation: &Explanation) -> String {
    let Explanation { furthest, closest, marks } = explanation;
    let (start, miss) = (closest.start, closest.miss);
    let marks: String = marks.iter().map(|mark| mark.to_string()).collect();
    format!(" furthest {} {} closest {start} {} {} marks {marks}", furthest.at, furthest.item, miss.at, miss.item)
}

/// ` names` and, for each entry of the index that is not all 00, its group and its 17 bytes in hex; nothing where there is no such entry.
fn shown_names(index: &Index) -> String {
    let entries = (1..).zip(index.chunks_exact(ENTRY_LENGTH)).filter(|(_, entry)| entry.iter().any(|&byte| byte != 0));
    let entries: String = entries.map(|(group, entry)| format!(" {group}:{}", text::hex(entry))).collect();
    if entries.is_empty() {
        entries
    } else {
        format!(" names{entries}")
    }
}

/// A row as `start-end` and `group:start-end` for each group that is set.
pub fn shown_row(row: &Row) -> String {
    let mut text = format!("{}-{}", row[0], row[1]);
    for group in 1..=MOST_GROUPS {
        if row[2 * group] != UNSET || row[2 * group + 1] != UNSET {
            text += &format!(" {group}:{}-{}", row[2 * group], row[2 * group + 1]);
        }
    }
    text
}
