//! The benchmark: the library beside PCRE2's interpreter and Perl, on the same rules and lines. No test depends on what it measures.

pub mod cases;
mod collector;
pub mod compare;
pub mod contest;
pub mod growth;
pub mod library;
pub mod lines;
pub mod pcre2;
pub mod perl;
pub mod table;
pub mod turns;

use crate::raw::Call;

/// What all contenders are asked.
pub struct Case {
    /// What the table says of it.
    pub name: String,
    pub call: Call,
    pub rule: Vec<u8>,
    pub flags: u32,
    pub subject: Vec<u8>,
    pub budget: u32,
    /// Rows in the result area, or parts for a day's lines.
    pub room: usize,
    /// What PCRE2 may try at most where it walks without shortcuts; its own default if none.
    pub match_limit: Option<u32>,
}

/// What a contender answers.
#[derive(PartialEq, Eq)]
pub enum Reply {
    /// The numbers of all rows, one after another; none if not matched.
    Rows(Vec<u32>),
    /// It gave up at its budget or its limit.
    GaveUp,
}

impl Reply {
    /// The reply in a word, for a contender that differs.
    pub fn word(&self) -> &'static str {
        match self {
            Reply::Rows(rows) if rows.is_empty() => "not matched",
            Reply::Rows(_) => "matched",
            Reply::GaveUp => "gave up",
        }
    }
}
