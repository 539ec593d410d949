//! What a rule is made of, as far as it decides where Perl and PCRE2 may differ from document 01.

use std::collections::BTreeSet;

use crate::independent::tree::{Alternation, Form, Group, Inner, Kind, Part, Place, Repeat, Rule};

/// Found by one walk over a rule's tree.
#[derive(Default)]
pub struct Shape {
    /// Groups inside a repeat.
    pub repeated_groups: BTreeSet<usize>,
    /// Groups inside a repeat that stands itself inside a repeat.
    pub twice_repeated_groups: BTreeSet<usize>,
    /// Groups that are referred to.
    pub referred_groups: BTreeSet<usize>,
    /// A reference stands before the end of its group.
    pub has_early_reference: bool,
    /// A class with no byte stands under a repeat.
    pub has_repeated_empty_class: bool,
    /// A repeat with a greatest number of rounds, which it can reach in more than one way, over a body that can take no bytes; or one of at least one
    /// round over a `(?=` that refers to what it sets itself, so that a further round can set something else.
    pub has_unrolled_empty_round: bool,
    /// A repeat without a greatest number of rounds.
    pub has_unbounded_repeat: bool,
    /// Inside a repeat of at least two rounds there is one of an exact number.
    pub has_exact_in_repeat: bool,
    /// A group under `{0}`, of whose branches a later one begins with `\A` or `^`.
    pub has_skipped_start: bool,
    /// One of two or more branches has the letter `s` as an item that takes either case, within groups too.
    pub has_s_in_branch: bool,
    /// A part looks ahead or holds on.
    pub has_inner: bool,
    /// Groups inside a `(?=` or a held group.
    pub inner_groups: BTreeSet<usize>,
    /// Groups inside a `(?!`.
    pub not_ahead_groups: BTreeSet<usize>,
    /// A `(?!)`, whose inside is empty, under a repeat.
    pub has_repeated_failure: bool,
    /// A `(?=` whose inside can take no bytes.
    pub has_empty_ahead: bool,
    /// A `\R` that is itself repeated, by itself or alone in groups.
    pub has_repeated_line_break: bool,
    closed: BTreeSet<usize>,
}

/// What stands around a part.
#[derive(Clone, Copy, Default)]
struct Around {
    repeats: usize,
    /// One of the repeats makes at least two rounds.
    twice: bool,
    /// Two or more branches.
    branches: bool,
    /// A `(?=` or a held group.
    inner: bool,
    not_ahead: bool,
}

pub fn shape(rule: &Rule) -> Shape {
    let mut shape = Shape::default();
    shape.alternation(&rule.whole, Around::default());
    shape
}

impl Shape {
    fn alternation(&mut self, alternation: &Alternation, around: Around) {
        let around = Around { branches: around.branches || alternation.branches.len() > 1, ..around };
        alternation.branches.iter().flatten().for_each(|part| self.part(part, around));
    }

    fn part(&mut self, part: &Part, around: Around) {
        match part {
            Part::Item(item) => self.item(&item.kind, around),
            Part::Group(group) => {
                self.alternation(&group.inside, around);
                if let Some(number) = group.number {
                    self.closed.insert(number);
                    self.repeated_groups.extend((around.repeats > 0).then_some(number));
                    self.twice_repeated_groups.extend((around.repeats > 1).then_some(number));
                    self.inner_groups.extend(around.inner.then_some(number));
                    self.not_ahead_groups.extend(around.not_ahead.then_some(number));
                }
            }
            Part::Repeat(repeat) => self.repeat(repeat, around),
            Part::Inner(inner) => self.inner(inner, around),
        }
    }

    fn inner(&mut self, inner: &Inner, around: Around) {
        self.has_inner = true;
        let not_ahead = inner.form == Form::NotAhead;
        let is_failure = not_ahead && matches!(&inner.inside.branches[..], [only] if only.is_empty());
        self.has_repeated_failure |= is_failure && around.repeats > 0;
        self.has_empty_ahead |= inner.form == Form::Ahead && some_branch_is_empty(&inner.inside);
        self.alternation(&inner.inside, Around { inner: around.inner || !not_ahead, not_ahead: around.not_ahead || not_ahead, ..around });
    }

    fn item(&mut self, item: &Kind, around: Around) {
        match item {
            Kind::Byte(set) => {
                self.has_repeated_empty_class |= around.repeats > 0 && set.bytes().is_empty();
                self.has_s_in_branch |= around.branches && set.bytes() == b"Ss";
            }
            Kind::Place(_) => {}
            Kind::Reference(group) => {
                self.referred_groups.insert(*group);
                self.has_early_reference |= !self.closed.contains(group);
            }
        }
    }

    fn repeat(&mut self, repeat: &Repeat, around: Around) {
        let goes_beyond = |most: u64| most > repeat.least.max(1);
        let is_unrolled = match &repeat.body {
            Part::Group(_) | Part::Inner(Inner { form: Form::Held, .. }) => repeat.most.is_some_and(goes_beyond),
            // Without a greatest number of rounds PCRE2 takes one more than the least.
            Part::Inner(Inner { form: Form::Ahead, inside, .. }) => goes_beyond(repeat.most.unwrap_or(repeat.least + 1)) && refers_to_itself(inside),
            _ => false,
        };
        self.has_unrolled_empty_round |= is_unrolled && can_be_empty(&repeat.body);
        self.has_unbounded_repeat |= repeat.most.is_none();
        self.has_exact_in_repeat |= around.twice && repeat.most == Some(repeat.least);
        self.has_skipped_start |= repeat.most == Some(0) && has_later_start(&repeat.body);
        self.has_repeated_line_break |= is_line_break(&repeat.body);
        self.part(&repeat.body, Around { repeats: around.repeats + 1, twice: around.twice || repeat.least >= 2, ..around });
    }
}

/// Is the part a `\R`, by itself or alone in groups?
fn is_line_break(part: &Part) -> bool {
    match part {
        Part::Inner(inner) if inner.is_line_break() => true,
        Part::Group(Group { inside, .. }) | Part::Inner(Inner { inside, .. }) => {
            matches!(&inside.branches[..], [branch] if matches!(&branch[..], [only] if is_line_break(only)))
        }
        _ => false,
    }
}

/// Is there a reference to a group in the same?
fn refers_to_itself(alternation: &Alternation) -> bool {
    let mut shape = Shape::default();
    shape.alternation(alternation, Around::default());
    !shape.referred_groups.is_disjoint(&shape.closed)
}

/// Does a branch behind a group's first begin with `\A` or `^`, within a group at its beginning too?
fn has_later_start(body: &Part) -> bool {
    let Some(inside) = inside(body) else { return false };
    inside.branches.iter().skip(1).filter_map(|branch| branch.first()).any(begins_with_start)
}

fn begins_with_start(part: &Part) -> bool {
    match (part, inside(part)) {
        (Part::Item(item), _) => matches!(item.kind, Kind::Place(Place::Start | Place::LineStart)),
        (_, Some(inside)) => inside.branches.iter().filter_map(|branch| branch.first()).any(begins_with_start),
        _ => false,
    }
}

/// What stands between a part's brackets, if it has some.
fn inside(part: &Part) -> Option<&Alternation> {
    match part {
        Part::Group(group) => Some(&group.inside),
        Part::Inner(inner) => Some(&inner.inside),
        _ => None,
    }
}

/// Can the part take no bytes, places and references left out of account?
fn can_be_empty(part: &Part) -> bool {
    match part {
        Part::Item(item) => !matches!(item.kind, Kind::Byte(_)),
        Part::Inner(Inner { form: Form::Ahead | Form::NotAhead, .. }) => true,
        Part::Group(Group { inside, .. }) | Part::Inner(Inner { inside, .. }) => some_branch_is_empty(inside),
        Part::Repeat(repeat) => repeat.least == 0 || can_be_empty(&repeat.body),
    }
}

fn some_branch_is_empty(alternation: &Alternation) -> bool {
    alternation.branches.iter().any(|branch| branch.iter().all(can_be_empty))
}
