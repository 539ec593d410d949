//! Rule cards: document 02, request i). "records of one byte of kind and a body whose length the kind fixes".

use super::calls::{LONGEST_RULE, RULE_AREA};
use super::reader::{self, Refusal, ALL_FLAGS};

/// "9, first, writing a card area under 1,064 bytes, reading a rule bytes' area under 1,000".
pub const CARD_AREA: usize = 1_064;
pub const RULE_BYTES: usize = 1_000;
/// "Writing refuses budgets over 65,535 with 4."
const GREATEST_BUDGET: u32 = 65_535;

const AREA_SHORT: u32 = 9;
const UNKNOWN_KIND: u32 = 30;
const CUT_SHORT: u32 = 31;
const WRONG_ORDER: u32 = 32;
const NOT_CLEAN: u32 = 33;
const WRONG_GROUPS: u32 = 34;

/// The rule bytes that one record takes.
const CHUNK: usize = 32;

/// What a card says.
#[derive(Clone, PartialEq, Eq, Debug)]
pub struct Card {
    pub rule: Vec<u8>,
    pub flags: u32,
    pub budget: u32,
    pub groups: usize,
}

/// The card of a rule, its flags and its budget, with areas of these lengths; or why there is none.
pub fn write(rule: &[u8], flags: u32, budget: u32, rule_area: usize, card_area: usize) -> Result<Vec<u8>, Refusal> {
    refused_by(&[
        (AREA_SHORT, card_area < CARD_AREA),
        (1, rule.len() > LONGEST_RULE),
        (3, flags > ALL_FLAGS),
        (4, budget > GREATEST_BUDGET),
        (5, rule_area < RULE_AREA),
    ])?;
    let groups = reader::read(rule, flags)?.groups;
    let [low, high, ..] = budget.to_le_bytes();
    // "Kind 1, body 4: flags, budget as two bytes with the low one first, number of groups."
    let mut card = vec![1, flags as u8, low, high, groups as u8];
    // "Kind 2, body 32: rule bytes, the last one padded with 00."
    for part in rule.chunks(CHUNK) {
        card.push(2);
        card.extend(part);
        card.resize(card.len() + CHUNK - part.len(), 0);
    }
    // "Kind 3, body 2: rule length, low byte first."
    card.push(3);
    card.extend((rule.len() as u16).to_le_bytes());
    Ok(card)
}

/// What a card says, with areas of these lengths; or why it is refused.
pub fn read(card: &[u8], rule_area: usize, rule_bytes: usize) -> Result<Card, Refusal> {
    refused_by(&[(AREA_SHORT, rule_bytes < RULE_BYTES)])?;
    let (records, trailing) = cut(card)?;
    let Some((head, bytes, length)) = ordered(&records) else { return Err(at_0(WRONG_ORDER)) };
    let (rule, padding) = bytes.split_at(length);
    let (flags, budget, groups) = (u32::from(head[0]), u32::from(head[1]) + 256 * u32::from(head[2]), usize::from(head[3]));
    refused_by(&[
        (NOT_CLEAN, padding.iter().any(|&byte| byte != 0) || !trailing.is_empty()),
        (1, length > LONGEST_RULE),
        (3, flags > ALL_FLAGS),
        (5, rule_area < RULE_AREA),
    ])?;
    let read = reader::read(rule, flags)?;
    refused_by(&[(WRONG_GROUPS, groups != read.groups)])?;
    Ok(Card { rule: rule.to_vec(), flags, budget, groups })
}

/// "A refusal leaves the written area unchanged ... 9 and 30 to 33 leave the rule area unchanged too", and by document 01 so do 1 to 5; "after any
/// other return their needed first part is zero".
pub fn clears_rule_area<T>(told: &Result<T, Refusal>) -> bool {
    !matches!(told, Err(refusal) if matches!(refusal.number, 1..=9 | UNKNOWN_KIND..=NOT_CLEAN))
}

/// A record: its kind and its body.
type Record<'c> = (u8, &'c [u8]);

/// "Reading ends at the first kind 3; what follows is trailing": the records up to that one, and what follows. An unknown kind ends the cutting, and so
/// does a record that the card does not hold whole, whichever comes first.
fn cut(card: &[u8]) -> Result<(Vec<Record<'_>>, &[u8]), Refusal> {
    let (mut records, mut rest) = (Vec::new(), card);
    loop {
        let Some((&kind, behind)) = rest.split_first() else { return Err(at_0(CUT_SHORT)) };
        let length = match kind {
            1 => 4,
            2 => CHUNK,
            3 => 2,
            _ => return Err(at_0(UNKNOWN_KIND)),
        };
        let Some((body, behind)) = behind.split_at_checked(length) else { return Err(at_0(CUT_SHORT)) };
        records.push((kind, body));
        rest = behind;
        if kind == 3 {
            return Ok((records, rest));
        }
    }
}

/// "Order: one kind 1, then exactly as many kind 2 as the length needs, then kind 3": the first one's body, the bytes of those between and the length;
/// none where the order or the number is another.
fn ordered<'c>(records: &[Record<'c>]) -> Option<(&'c [u8], Vec<u8>, usize)> {
    let [(1, head), between @ .., (3, length)] = records else { return None };
    let length = usize::from(length[0]) + 256 * usize::from(length[1]);
    let is_good = between.iter().all(|(kind, _)| *kind == 2) && between.len() == length.div_ceil(CHUNK);
    is_good.then(|| (*head, between.iter().flat_map(|(_, body)| body.to_vec()).collect(), length))
}

/// The first of these refusals that is due.
fn refused_by(tests: &[(u32, bool)]) -> Result<(), Refusal> {
    match tests.iter().find(|(_, is_due)| *is_due) {
        Some(&(number, _)) => Err(at_0(number)),
        None => Ok(()),
    }
}

/// "Refusals, at place 0".
fn at_0(number: u32) -> Refusal {
    Refusal { number, place: 0 }
}
