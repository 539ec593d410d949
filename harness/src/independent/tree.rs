//! What a sound rule is once it has been read: alternations of sequences of parts.

use super::sets::ByteSet;

/// A sound rule and the number of its capturing groups.
pub struct Rule {
    pub whole: Alternation,
    pub groups: usize,
    /// The name of each group; an empty one where it has none.
    pub names: Vec<Vec<u8>>,
    /// Under `i` references take letters of the other case too; the sets of byte items are folded already.
    pub folds: bool,
}

/// Branches in the rule's order; there is always one, which may be empty.
pub struct Alternation {
    pub branches: Vec<Vec<Part>>,
    /// Where the bars between them stand in the rule; none inside a `\R`, where they are not written.
    pub bars: Vec<usize>,
}

pub enum Part {
    Item(Item),
    Group(Group),
    Repeat(Box<Repeat>),
    Inner(Inner),
}

/// What can fail by itself, beside a `(?!`. 02 f): "A failed item is a byte item, a place or a reference."
pub struct Item {
    /// Where it begins in the rule.
    pub at: usize,
    pub kind: Kind,
}

pub enum Kind {
    Byte(ByteSet),
    Place(Place),
    /// The group referred to, counted from 1.
    Reference(usize),
}

pub struct Group {
    /// The group's number, counted from 1, or none for `(?: )`.
    pub number: Option<usize>,
    pub inside: Alternation,
}

/// 02 l): a part whose inside is walked by itself, up to its first end.
pub struct Inner {
    /// Where it stands in the rule: its bracket, the backslash of `\R`, or the `+` of a possessive repeat.
    pub at: usize,
    pub form: Form,
    pub inside: Alternation,
}

#[derive(Clone, Copy, PartialEq, Eq)]
pub enum Form {
    /// `(?>..)`. A possessive repeat and `\R` are held groups too.
    Held,
    /// `(?=..)`.
    Ahead,
    /// `(?!..)`.
    NotAhead,
}

impl Inner {
    /// Is it a `\R`? Only there does an item of the inside stand where the whole does.
    pub fn is_line_break(&self) -> bool {
        matches!(self.inside.branches[0].first(), Some(Part::Item(item)) if item.at == self.at)
    }
}

pub struct Repeat {
    /// Where its own first byte stands in the rule.
    pub at: usize,
    pub body: Part,
    pub least: u64,
    /// The most rounds, or none where they are not bounded.
    pub most: Option<u64>,
    pub greedy: bool,
}

/// The places of document 01; `^` and `$` are settled by the flag `m` when the rule is read.
#[derive(Clone, Copy, PartialEq, Eq)]
pub enum Place {
    /// `\A`, and `^` without `m`.
    Start,
    /// `^` under `m`.
    LineStart,
    /// `\z`.
    End,
    /// `\Z`, and `$` without `m`.
    EndOrLastNewline,
    /// `$` under `m`.
    LineEnd,
    /// `\b`.
    WordEdge,
    /// `\B`.
    NoWordEdge,
}
