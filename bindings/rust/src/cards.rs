//! Rule cards: a rule with its flags and its budget as bytes that can be kept and sent.

use crate::errors::{CardError, RuleError};
use crate::flags::Flags;
use crate::limits::{CARD, CARD_ANSWER, RULE_AREA, RULE_BYTES};
use crate::raw::{self, CardText, WRITE_ANSWER_LENGTH};
use crate::refusal::Refusal;

/// What a rule card says.
#[derive(Clone, PartialEq, Eq, Debug)]
pub struct Card {
    /// The rule's bytes.
    pub rule: Vec<u8>,
    /// Its flags.
    pub flags: Flags,
    /// Steps at each start, at most 65,535.
    pub budget: u32,
    /// How many capturing groups the rule has.
    pub groups: usize,
}

/// The card of a rule with its flags and a budget of at most 65,535. One rule with its flags and budget has one card.
///
/// ```
/// use terravisco::{read_card, write_card, Flags};
///
/// let card = write_card(r"^tank \d+$", Flags::I, 1_000)?;
/// let read = read_card(&card)?;
/// assert_eq!((&read.rule[..], read.flags, read.budget), (&br"^tank \d+$"[..], Flags::I, 1_000));
/// // The last byte was lost.
/// let error = read_card(&card[..card.len() - 1]).unwrap_err();
/// assert_eq!(error.to_string(), "the card is refused, 31 at 0: it ends before its last record does");
/// # Ok::<(), Box<dyn std::error::Error>>(())
/// ```
pub fn write_card(rule: impl AsRef<[u8]>, flags: Flags, budget: u32) -> Result<Vec<u8>, RuleError> {
    let (rule, mut card) = (rule.as_ref(), vec![0; CARD]);
    let mut answer = [0; WRITE_ANSWER_LENGTH];
    raw::write_card(CardText { rule, flags: flags.bits(), budget }, &mut vec![0; RULE_AREA], &mut card, &mut answer);
    let [kind, number, place, .., length] = answer;
    if kind != 0 {
        return Err(RuleError::new(Refusal::told(number, place), rule));
    }
    card.truncate(length as usize);
    Ok(card)
}

/// What a card says. Any bytes may be handed in: what is not just as [`write_card`] writes it is refused.
pub fn read_card(card: &[u8]) -> Result<Card, CardError> {
    let mut rule = vec![0; RULE_BYTES];
    let mut answer = [0; CARD_ANSWER];
    raw::read_card(card, &mut vec![0; RULE_AREA], &mut rule, &mut answer);
    let [kind, number, place, _, _, length, flags, budget, groups] = answer;
    if kind != 0 {
        return Err(CardError::new(Refusal::told(number, place)));
    }
    rule.truncate(length as usize);
    Ok(Card { rule, flags: Flags::from_bits(flags), budget, groups: groups as usize })
}
