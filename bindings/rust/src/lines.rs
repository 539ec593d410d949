//! A day's lines: a match on each line of a buffer.

use crate::areas::steps;
use crate::limits::{PART, ROW};
use crate::outcome::Outcome;
use crate::raw::Call;
use crate::rule::Rule;

/// A call takes 536 bytes for each line, so that a long day is handed over in pieces of so many lines.
const AT_ONCE: usize = 1_000;

/// The lines of a buffer, each with what a match answers on it.
#[derive(Clone, Debug)]
pub struct Lines<'r, 't> {
    rule: &'r Rule,
    /// The lines that have been matched, with their parts of the result area, and how many of them have been told.
    lines: Vec<&'t [u8]>,
    parts: Vec<u32>,
    told: usize,
    /// What of the buffer has not been matched.
    rest: &'t [u8],
}

impl<'r, 't> Lines<'r, 't> {
    pub(crate) fn new(rule: &'r Rule, buffer: &'t [u8]) -> Lines<'r, 't> {
        Lines { rule, lines: Vec::new(), parts: Vec::new(), told: 0, rest: buffer }
    }

    /// Matches the next lines, if there are any.
    fn go_on(&mut self) {
        let (piece, rest) = self.rest.split_at(piece_length(self.rest));
        self.rest = rest;
        self.told = 0;
        self.lines = lines_of(piece);
        self.parts.clear();
        self.parts.resize(PART * self.lines.len(), 0);
        self.rule.ask(Call::Batch, piece, &mut self.parts, &mut []);
    }
}

impl<'t> Iterator for Lines<'_, 't> {
    type Item = (&'t [u8], Outcome<'t>);

    fn next(&mut self) -> Option<(&'t [u8], Outcome<'t>)> {
        if self.told == self.lines.len() && !self.rest.is_empty() {
            self.go_on();
        }
        let line = *self.lines.get(self.told)?;
        let (row, outcome) = self.parts[PART * self.told..PART * (self.told + 1)].split_at(ROW);
        self.told += 1;
        Some((line, Outcome::told(self.rule.source(), line, [outcome[0], outcome[1]], steps(outcome[2], outcome[3]), row)))
    }
}

/// Up to where the next piece of a buffer goes: behind the 0A of its last line.
fn piece_length(buffer: &[u8]) -> usize {
    let mut ends = buffer.iter().enumerate().filter(|(_, &byte)| byte == b'\n').map(|(at, _)| at + 1);
    ends.nth(AT_ONCE - 1).unwrap_or(buffer.len())
}

/// The lines of a piece that is not empty: what stands behind its last 0A is one if it is not empty.
fn lines_of(piece: &[u8]) -> Vec<&[u8]> {
    piece.strip_suffix(b"\n").unwrap_or(piece).split(|&byte| byte == b'\n').collect()
}
