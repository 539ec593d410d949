//! Rule cards written down by hand in `data/cards.txt`, whose head says how they look.

use crate::cards::{shown, Asked, CardCase};
use crate::examples::flags;
use crate::lookup_examples::blocks;
use crate::text;

pub struct Example {
    /// The point decided.
    pub from: String,
    /// The line in the file at which the example begins.
    pub line: usize,
    rule: Vec<u8>,
    flags: u32,
    budget: u32,
    groups: usize,
    card: Option<Vec<u8>>,
    rule_area: Option<usize>,
    written_area: Option<usize>,
    /// None where rule and card belong together.
    refused: Option<String>,
}

/// The examples of a file, or what cannot be read in it.
pub fn read(file: &str) -> Result<Vec<Example>, String> {
    let mut examples = Vec::new();
    for (number, lines) in blocks(file) {
        let mut example = Example::new(number);
        for line in lines {
            let (field, value) = line.split_once(' ').unwrap_or((line, ""));
            example.set(field, value).ok_or(format!("in the example at line {number} this cannot be read: {line}"))?;
        }
        if example.refused.is_none() && example.card.is_none() {
            return Err(format!("the example at line {number} does not say what it expects"));
        }
        examples.push(example);
    }
    Ok(examples)
}

impl Example {
    fn new(line: usize) -> Example {
        let (from, rule, card, refused) = (String::new(), Vec::new(), None, None);
        Example { from, line, rule, flags: 0, budget: 0, groups: 0, card, rule_area: None, written_area: None, refused }
    }

    fn set(&mut self, field: &str, value: &str) -> Option<()> {
        match field {
            "from" => self.from = value.to_string(),
            "rule" => self.rule = text::unescaped(value)?,
            "long" => self.rule = vec![b'a'; value.parse().ok()?],
            "flags" => self.flags = flags(value)?,
            "budget" => self.budget = value.parse().ok()?,
            "groups" => self.groups = value.parse().ok()?,
            "card" => self.add(&text::from_hex(&value.replace(' ', ""))?),
            "text" => self.add(&text::unescaped(value)?),
            "bytes" => {
                let (number, byte) = value.split_once(' ')?;
                self.add(&text::from_hex(byte)?.repeat(number.parse().ok()?));
            }
            "rule_area" => self.rule_area = Some(value.parse().ok()?),
            "area" => self.written_area = Some(value.parse().ok()?),
            "expect" if value.starts_with("refused ") => self.refused = Some(value.to_string()),
            _ => return None,
        }
        Some(())
    }

    /// Adds bytes to the card.
    fn add(&mut self, bytes: &[u8]) {
        self.card.get_or_insert_default().extend(bytes);
    }

    /// Each call that the example is about, with what is expected of it, as `shown` writes it: a card that is refused is read, a rule that is refused
    /// is written, and where they belong together both are done.
    pub fn calls(&self) -> Vec<(CardCase, String)> {
        let writing = CardCase::write(&self.rule, self.flags, self.budget);
        let reading = CardCase::read(self.card.as_deref().unwrap_or_default());
        let with_areas = |case: CardCase| CardCase {
            rule_area: self.rule_area.unwrap_or(case.rule_area),
            written_area: self.written_area.unwrap_or(case.written_area),
            ..case
        };
        match (&self.refused, &self.card) {
            (Some(refused), None) => vec![(with_areas(writing), refused.clone())],
            (Some(refused), Some(_)) => vec![(with_areas(reading), refused.clone())],
            (None, card) => {
                let read = format!("read {} flags {} budget {} groups {}", text::hex(&self.rule), self.flags, self.budget, self.groups);
                vec![(writing, format!("written {}", text::hex(card.as_deref().unwrap_or_default()))), (reading, read)]
            }
        }
    }
}

/// What the independent matcher says otherwise than expected.
pub fn faults(case: &CardCase, expected: &str) -> Vec<String> {
    let told = shown(&case.expected());
    let is_reading = matches!(case.asked, Asked::Read { .. });
    let what = if is_reading { "reading" } else { "writing" };
    if told == expected {
        Vec::new()
    } else {
        vec![format!("{what}: the independent matcher says {told}, expected {expected}")]
    }
}
