//! Rule cards written and read with the library on lent areas, and compared with the independent matcher: the answer's numbers, and every byte and
//! number of the areas and of some around them.

use crate::fence::Fenced;
use crate::independent::cards::{self, Card, CARD_AREA, RULE_BYTES};
use crate::independent::{Refusal, RULE_AREA};
use crate::lender::is_zero;
use crate::raw::{self, CardText, READ_ANSWER_LENGTH};
use crate::text;

/// What is asked of a call, with the lengths of its areas.
#[derive(Clone)]
pub struct CardCase {
    pub asked: Asked,
    pub rule_area: usize,
    /// Of the area that the card is written to, or the rule's bytes.
    pub written_area: usize,
}

#[derive(Clone)]
pub enum Asked {
    Write { rule: Vec<u8>, flags: u32, budget: u32 },
    Read { card: Vec<u8> },
}

/// What a call answers.
#[derive(PartialEq, Eq)]
pub enum Told {
    Written(Vec<u8>),
    Read(Card),
}

impl CardCase {
    /// The rule is to be written, with areas that are exactly enough.
    pub fn write(rule: &[u8], flags: u32, budget: u32) -> CardCase {
        CardCase { asked: Asked::Write { rule: rule.to_vec(), flags, budget }, rule_area: RULE_AREA, written_area: CARD_AREA }
    }

    /// The card is to be read, with areas that are exactly enough.
    pub fn read(card: &[u8]) -> CardCase {
        CardCase { asked: Asked::Read { card: card.to_vec() }, rule_area: RULE_AREA, written_area: RULE_BYTES }
    }

    /// What the independent matcher answers.
    pub fn expected(&self) -> Result<Told, Refusal> {
        match &self.asked {
            Asked::Write { rule, flags, budget } => cards::write(rule, *flags, *budget, self.rule_area, self.written_area).map(Told::Written),
            Asked::Read { card } => cards::read(card, self.rule_area, self.written_area).map(Told::Read),
        }
    }

    /// The case on one line, with all that is needed to run it again.
    pub fn shown(&self) -> String {
        let asked = match &self.asked {
            Asked::Write { rule, flags, budget } => format!("write rule {} flags {flags} budget {budget}", text::hex(rule)),
            Asked::Read { card } => format!("read card {}", text::hex(card)),
        };
        format!("{asked} areas {} {}", self.rule_area, self.written_area)
    }
}

/// An answer on one line.
pub fn shown(told: &Result<Told, Refusal>) -> String {
    match told {
        Err(refusal) => format!("refused {} at {}", refusal.number, refusal.place),
        Ok(Told::Written(card)) => format!("written {}", text::hex(card)),
        Ok(Told::Read(Card { rule, flags, budget, groups })) => format!("read {} flags {flags} budget {budget} groups {groups}", text::hex(rule)),
    }
}

/// Numbers before and behind the rule area, and bytes around the other one, that no call may touch.
const GUARD: usize = 32;
/// What the numbers of an answer, and some behind them, are before a call.
const UNWRITTEN: u32 = 0xA5A5_A5A5;
type Numbers = [u32; READ_ANSWER_LENGTH + 5];

/// Lends areas to the library. What it reads, the rule or the card, ends at a fence.
pub struct CardLender {
    /// What the rule area holds before a call: no number is 0, and neighbours differ.
    pattern: Vec<u32>,
    /// And what the written area holds: no byte is 0 or a kind of record, and neighbours differ.
    byte_pattern: Vec<u8>,
    rule_area: Vec<u32>,
    written: Vec<u8>,
    handed: Fenced,
}

impl Default for CardLender {
    fn default() -> CardLender {
        let (pattern, rule_area, handed) = (Vec::new(), Vec::new(), Fenced::new(4_096));
        CardLender { pattern, byte_pattern: Vec::new(), rule_area, written: Vec::new(), handed }
    }
}

impl CardLender {
    /// Runs the case with the library, and tells what differs from what the independent matcher expects.
    pub fn compare(&mut self, case: &CardCase) -> Vec<String> {
        let expected = case.expected();
        let numbers = self.run(case);
        let mut faults = Vec::new();
        if numbers != numbers_of(case, &expected) {
            faults.push(format!("the library's numbers are {numbers:?}, expected {}", shown(&expected)));
        }
        let bytes = match &expected {
            Ok(Told::Written(card)) => &card[..],
            Ok(Told::Read(card)) => &card.rule,
            Err(_) => &[],
        };
        if self.written[GUARD..][..bytes.len()] != *bytes {
            faults.push(format!("written was {}, expected {}", text::hex(&self.written[GUARD..][..bytes.len()]), text::hex(bytes)));
        }
        let end = GUARD + bytes.len();
        if self.written[..GUARD] != self.byte_pattern[..GUARD] || self.written[end..] != self.byte_pattern[end..self.written.len()] {
            faults.push(format!("the written area is changed beside {} bytes", bytes.len()));
        }
        let zeros = if cards::clears_rule_area(&expected) { RULE_AREA } else { 0 };
        let (before, behind) = (GUARD, GUARD + zeros);
        let is_zero = is_zero(&self.rule_area[before..behind]);
        let is_kept = |area: &[u32], pattern: &[u32]| area[..before] == pattern[..before] && area[behind..] == pattern[behind..area.len()];
        if !is_zero || !is_kept(&self.rule_area, &self.pattern) {
            faults.push(format!("the rule area is not {zeros} zeros and otherwise unchanged"));
        }
        faults
    }

    /// The answer's numbers, and those behind them. The areas are as the call left them.
    fn run(&mut self, case: &CardCase) -> Numbers {
        for index in self.pattern.len()..case.rule_area + 2 * GUARD {
            self.pattern.push((index as u32).wrapping_mul(2_654_435_761) | 1);
        }
        self.rule_area.clear();
        self.rule_area.extend_from_slice(&self.pattern[..case.rule_area + 2 * GUARD]);
        self.written.clear();
        for index in self.byte_pattern.len()..case.written_area + 2 * GUARD {
            self.byte_pattern.push((index % 251) as u8 + 5);
        }
        self.written.extend_from_slice(&self.byte_pattern[..case.written_area + 2 * GUARD]);
        let mut numbers: Numbers = [UNWRITTEN; READ_ANSWER_LENGTH + 5];
        let rule_area = &mut self.rule_area[GUARD..][..case.rule_area];
        let written = &mut self.written[GUARD..][..case.written_area];
        match &case.asked {
            Asked::Write { rule, flags, budget } => {
                self.handed.make_room(rule.len());
                let text = CardText { rule: self.handed.hold(rule), flags: *flags, budget: *budget };
                raw::write_card(text, rule_area, written, numbers.first_chunk_mut().expect("there are more than an answer has"));
            }
            Asked::Read { card } => {
                self.handed.make_room(card.len());
                raw::read_card(self.handed.hold(card), rule_area, written, numbers.first_chunk_mut().expect("there are more than an answer has"));
            }
        }
        numbers
    }
}

/// The numbers of an answer: 0 and what there is to say, or 3 and why not. Those that the call does not have are as they were.
fn numbers_of(case: &CardCase, told: &Result<Told, Refusal>) -> Numbers {
    let mut numbers: Numbers = [UNWRITTEN; READ_ANSWER_LENGTH + 5];
    let answer = match &case.asked {
        Asked::Write { .. } => &mut numbers[..raw::WRITE_ANSWER_LENGTH],
        Asked::Read { .. } => &mut numbers[..READ_ANSWER_LENGTH],
    };
    answer.fill(0);
    match told {
        Err(refusal) => answer[..3].copy_from_slice(&[3, refusal.number, refusal.place as u32]),
        Ok(Told::Written(card)) => answer[5] = card.len() as u32,
        Ok(Told::Read(card)) => answer[5..].copy_from_slice(&[card.rule.len() as u32, card.flags, card.budget, card.groups as u32]),
    }
    numbers
}
