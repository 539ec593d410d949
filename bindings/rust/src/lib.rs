#![doc = include_str!("../README.md")]
#![deny(missing_docs)]
// What crosses to the library is in one file.
#![deny(unsafe_code)]

mod agreement;
mod areas;
mod captures;
mod cards;
mod checked;
mod errors;
mod explanation;
mod flags;
pub mod limits;
mod lines;
mod listing;
mod outcome;
mod picture;
#[allow(unsafe_code)]
pub mod raw;
mod refusal;
mod rule;
mod source;

pub use captures::{Captures, Match};
pub use cards::{read_card, write_card, Card};
pub use checked::Checked;
pub use errors::{CardError, RuleError, Unknown};
pub use explanation::{Attempt, Explanation, Failure, Misfit};
pub use flags::{Flags, UnknownLetter};
pub use lines::Lines;
pub use listing::{Listing, Matches, Readings};
pub use outcome::Outcome;
pub use refusal::{Reason, Refusal};
pub use rule::{Rule, BUDGET};
