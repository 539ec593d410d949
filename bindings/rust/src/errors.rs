//! What goes wrong, as errors: a rule or a card that is refused, and answers that are not known.

use std::error::Error;
use std::fmt;

use crate::picture;
use crate::refusal::Refusal;

/// A rule, its flags or its budget are refused. It shows the rule with a mark under the place:
///
/// ```
/// use terravisco::{Flags, Reason, Rule};
///
/// let error = Rule::new(r"tank (\d+", Flags::NONE).unwrap_err();
/// assert_eq!((error.refusal().reason, error.refusal().place), (Reason::GroupNotClosed, 5));
/// assert_eq!(error.to_string(), r"the rule is refused, 20 at 5: this bracket is not closed by )
///   tank (\d+
///        ^");
/// ```
#[derive(Clone, PartialEq, Eq, Debug)]
pub struct RuleError {
    refusal: Refusal,
    rule: Vec<u8>,
}

impl RuleError {
    pub(crate) fn new(refusal: Refusal, rule: &[u8]) -> RuleError {
        RuleError { refusal, rule: rule.to_vec() }
    }

    /// What is wrong, and where in the rule.
    pub fn refusal(&self) -> Refusal {
        self.refusal
    }

    /// The rule that is refused.
    pub fn rule(&self) -> &[u8] {
        &self.rule
    }
}

impl fmt::Display for RuleError {
    fn fmt(&self, out: &mut fmt::Formatter) -> fmt::Result {
        write!(out, "the rule is refused, {}", self.refusal)?;
        if self.refusal.reason.has_place() {
            write!(out, "\n{}", picture::marked(&self.rule, |at| (at == self.refusal.place).then_some('^')))?;
        }
        Ok(())
    }
}

impl Error for RuleError {}

/// Bytes that are no rule card: reasons 30 to 34, or what the rule on the card is refused for, with its place in that rule.
#[derive(Clone, Copy, PartialEq, Eq, Debug)]
pub struct CardError {
    refusal: Refusal,
}

impl CardError {
    pub(crate) fn new(refusal: Refusal) -> CardError {
        CardError { refusal }
    }

    /// What is wrong with the card.
    pub fn refusal(&self) -> Refusal {
        self.refusal
    }
}

impl fmt::Display for CardError {
    fn fmt(&self, out: &mut fmt::Formatter) -> fmt::Result {
        write!(out, "the card is refused, {}", self.refusal)
    }
}

impl Error for CardError {}

/// Why it is not known whether a line matches, or what else of it there is.
#[derive(Clone, Copy, PartialEq, Eq, Debug)]
pub enum Unknown {
    /// The walk from this start needs more steps than the budget. The line may match or not, and have more matches or readings than were found. Give the
    /// rule a larger budget, or write one that leaves less to try.
    Exhausted {
        /// Where in the line the walk began.
        start: usize,
        /// The steps of all walks up to there.
        steps: u64,
    },
    /// There are more readings than were asked for.
    Full {
        /// The steps of all walks up to the reading that found no room.
        steps: u64,
    },
    /// The line has more than 65,535 bytes.
    TooLong,
}

impl fmt::Display for Unknown {
    fn fmt(&self, out: &mut fmt::Formatter) -> fmt::Result {
        match self {
            Unknown::Exhausted { start, steps } => write!(out, "exhausted at {start}, after {steps} steps in all"),
            Unknown::Full { .. } => out.write_str("there are more readings than were asked for"),
            Unknown::TooLong => write!(out, "the line is refused, {}", Refusal::told(2, 0)),
        }
    }
}

impl Error for Unknown {}
