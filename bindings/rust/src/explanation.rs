//! Why a line does not fit.

use std::fmt;
use std::sync::Arc;

use crate::picture;
use crate::source::Source;

/// What is told of a line that was to fit.
#[derive(Clone, Debug)]
#[must_use]
pub enum Explanation<'t> {
    /// The line fits.
    Matched {
        /// The steps of all walks up to the match.
        steps: u64,
    },
    /// The line does not fit, and why.
    NotMatched(Misfit<'t>),
    /// The walk from this start needs more steps than the budget: the line may fit or not.
    Exhausted {
        /// Where in the line the walk began.
        start: usize,
        /// The steps of all walks up to there.
        steps: u64,
    },
    /// The line has more than 65,535 bytes.
    TooLong,
}

/// An item of the rule that failed: a byte, a class or another set, a place such as `^`, or a reference.
#[derive(Clone, Copy, PartialEq, Eq, Debug)]
pub struct Failure {
    /// Where it was tried in the line.
    pub at: usize,
    /// Where it begins in the rule.
    pub item: usize,
}

/// An attempt to fit the rule from one start.
#[derive(Clone, Copy, PartialEq, Eq, Debug)]
pub struct Attempt {
    /// Where it began in the line.
    pub start: usize,
    /// Where it ended in the line: where the first item failed of those that failed furthest from the start.
    pub at: usize,
    /// Where that item begins in the rule.
    pub item: usize,
}

/// Why a line does not fit. It shows the line and the rule with their marks:
///
/// ```
/// use terravisco::{Explanation, Flags, Rule};
///
/// let rule = Rule::new(r"^tank (\w+): (\d+) L$", Flags::NONE)?;
/// let Explanation::NotMatched(misfit) = rule.explain("tank A1 820 L") else { panic!("it does not fit") };
/// assert_eq!(misfit.to_string(), r"the attempt from 0 fits up to 7:
///   tank A1 820 L
///   -------^
/// what was wanted there:
///   ^tank (\w+): (\d+) L$
///          ^   ^");
/// # Ok::<(), Box<dyn std::error::Error>>(())
/// ```
#[derive(Clone)]
pub struct Misfit<'t> {
    pub(crate) source: Arc<Source>,
    pub(crate) line: &'t [u8],
    /// The steps of all walks.
    pub steps: u64,
    /// The greatest place at which an item failed, from any start, and the first that did there. The line's end is a start too, so that the place is
    /// always the line's length.
    pub furthest: Failure,
    /// The attempt that got furthest from its start, which is mostly what a person wants to know.
    pub closest: Attempt,
    /// Where the items begin in the rule that failed at the end of that attempt, by rising places: what was wanted there.
    pub wanted: Vec<usize>,
}

impl fmt::Display for Misfit<'_> {
    fn fmt(&self, out: &mut fmt::Formatter) -> fmt::Result {
        let Attempt { start, at, .. } = self.closest;
        let in_line = |place| if place == at { Some('^') } else { (start..at).contains(&place).then_some('-') };
        let in_rule = |place| self.wanted.contains(&place).then_some('^');
        writeln!(out, "the attempt from {start} fits up to {at}:\n{}", picture::marked(self.line, in_line))?;
        write!(out, "what was wanted there:\n{}", picture::marked(&self.source.rule, in_rule))
    }
}

impl fmt::Debug for Misfit<'_> {
    fn fmt(&self, out: &mut fmt::Formatter) -> fmt::Result {
        let Misfit { steps, furthest, closest, wanted, .. } = self;
        write!(out, "Misfit {{ steps: {steps}, furthest: {furthest:?}, closest: {closest:?}, wanted: {wanted:?} }}")
    }
}
