//! Where Perl 5.36 and PCRE2 10.42 differ from documents 01 and 02: docs/DECISIONS.md has the list, with these numbers. A difference that has the
//! marks of one of them is set aside and counted; any other is a fault.

use std::collections::BTreeMap;

use crate::independent::{Refusal, Row, FLAG_X, LONGEST_NAME, MOST_GROUPS, UNSET};
use crate::random::shared::Shared;
use crate::shapes::shape;

/// A point of the list.
#[derive(Clone, Copy, PartialEq, Eq, PartialOrd, Ord, Debug)]
pub enum Class {
    /// 1: Perl unsets a group whose repeat is entered again and makes no round.
    EnteredAgain = 1,
    /// 2: Perl keeps spans from a try that was given up.
    GivenUp = 2,
    /// 4: Perl panics on a class with no byte under a repeat, or leaves it out.
    EmptyClass = 4,
    /// 5: `$` before a byte 00, directly or with what `x` skips between them.
    DollarBeforeZero = 5,
    /// 8: PCRE2 unrolls a bounded repeat, and any of a `(?=`, and does not stop after an empty round.
    Unrolled = 8,
    /// 11: Perl looks for a text at a wrong place and misses a match.
    MissedText = 11,
    /// 12: PCRE2 ties a rule to the subject's start by a branch that is never begun.
    SkippedStart = 12,
    /// 13: PCRE2 refuses a class that is written like a named set, `[:alpha:]`.
    ColonClass = 13,
    /// 14: under `i` Perl's `/a` folds bytes above 7F by Unicode's rules.
    FoldedAbove = 14,
    /// 15: under `x` Perl and PCRE2 skip a byte 85.
    NextLine = 15,
    /// 16: under `i` Perl takes a byte DF for the `s` that ends a branch of literals, under `/d` too.
    SharpS = 16,
    /// 17: Perl takes a name that is used twice.
    NameTwice = 17,
    /// 18: Perl takes names of any length, PCRE2 such of up to 32 bytes.
    LongName = 18,
    /// 19: Perl takes blanks beside a name in braces.
    BlankInBraces = 19,
    /// 20: forms that document 02 has not: looking behind in both, and `\g<a>` in PCRE2.
    OtherForm = 20,
    /// 22: Perl keeps what was set inside a `(?!`.
    NotAheadKept = 22,
    /// 23: Perl drops a `(?!)` under a repeat.
    DroppedFailure = 23,
    /// 24: Perl gives back single bytes of a repeated `\R`.
    RepeatedLineBreak = 24,
    /// 25: Perl passes over starts with a byte that a `(?=` cannot begin with, though its inside can take none.
    EmptyAhead = 25,
    /// 26: Perl remembers where a repeat failed, though a reference by name behind it sees other spans by now.
    NameBehindRepeat = 26,
}

/// Who is asked whether a rule with a name is sound.
#[derive(Clone, Copy, PartialEq, Eq)]
pub enum Other {
    Perl,
    Pcre2,
}

/// The class of a rule that is refused here for a name, and that another matcher takes.
pub fn name_class(rule: &[u8], refusal: Refusal, other: Other) -> Option<Class> {
    let item = &rule[refusal.place..];
    let is_word = |byte: &&u8| byte.is_ascii_alphanumeric() || **byte == b'_';
    // The name as far as it goes, behind `(?<`, `\k<` and the like.
    let inside = item.get(3..).unwrap_or(&[]);
    let name = inside.iter().take_while(is_word).count();
    let is_braced = item.starts_with(b"\\k{") || item.starts_with(b"\\g{");
    let longest = if other == Other::Perl { usize::MAX } else { 32 };
    match refusal.number {
        26 => (other == Other::Perl).then_some(Class::NameTwice),
        25 if item.starts_with(b"(?<=") || item.starts_with(b"(?<!") => Some(Class::OtherForm),
        25 if (LONGEST_NAME + 1..=longest).contains(&name) => Some(Class::LongName),
        12 | 25 if is_braced && other == Other::Perl && has_blank_beside(inside) => Some(Class::BlankInBraces),
        12 if item.starts_with(b"\\g<") || item.starts_with(b"\\g'") => (other == Other::Pcre2).then_some(Class::OtherForm),
        _ => None,
    }
}

/// Do blanks stand before or behind a name, and then a `}`?
fn has_blank_beside(inside: &[u8]) -> bool {
    let is_blank = |byte: u8| byte == b' ' || byte == b'\t';
    let Some(end) = inside.iter().position(|&byte| byte == b'}') else { return false };
    let trimmed = inside[..end].iter().copied().skip_while(|&byte| is_blank(byte)).collect::<Vec<_>>();
    let name = trimmed.iter().take_while(|&&byte| !is_blank(byte)).count();
    trimmed.len() < end || (name < trimmed.len() && trimmed[name..].iter().all(|&byte| is_blank(byte)))
}

/// PCRE2's error "POSIX named classes are supported only within a class".
const PCRE2_NAMED_SET_OUTSIDE: i32 = 112;

/// What is compared.
pub struct Compared<'a> {
    pub case: &'a Shared,
}

impl Compared<'_> {
    /// The class of what Perl may do here beyond document 02, if it has the marks of one. It is left out by `/d` in place of `/a`, and by
    /// `rule_for_perl`.
    pub fn perl_excess(&self) -> Option<Class> {
        if self.case.tree.folds && has_folded_above(&self.case.subject) {
            Some(Class::FoldedAbove)
        } else if shape(&self.case.tree).has_repeated_line_break {
            Some(Class::RepeatedLineBreak)
        } else {
            self.pcre2_excess()
        }
    }

    /// The same for PCRE2; `plain_rule` leaves it out.
    pub fn pcre2_excess(&self) -> Option<Class> {
        (self.plain_rule() != self.case.rule).then_some(Class::NextLine)
    }

    /// The rule with each byte 85 written as an escape under `x`, so that all take it for a literal.
    pub fn plain_rule(&self) -> Vec<u8> {
        let skips = self.case.flags & FLAG_X != 0;
        rewritten(&self.case.rule, |written| (skips && written == [0x85]).then_some(b"\\x85"))
    }

    /// The same with each `\R` as document 02 writes it.
    pub fn rule_for_perl(&self) -> Vec<u8> {
        rewritten(&self.plain_rule(), |written| (written == b"\\R").then_some(br"(?>\x0D\x0A|[\x0A-\x0D\x85])"))
    }

    /// The class of a difference from Perl, if it has the marks of one. Rows are none where nothing matched.
    pub fn perl_class(&self, ours: Option<&Row>, perls: Option<&Row>) -> Option<Class> {
        if self.has_dollar_before_zero() {
            return Some(Class::DollarBeforeZero);
        }
        let shape = shape(&self.case.tree);
        if shape.has_repeated_empty_class {
            return Some(Class::EmptyClass);
        }
        if shape.has_repeated_failure {
            return Some(Class::DroppedFailure);
        }
        if shape.has_s_in_branch && self.case.tree.folds && self.case.subject.contains(&0xDF) {
            return Some(Class::SharpS);
        }
        let missed = ours.is_some_and(|ours| perls.is_none_or(|perls| perls[0] > ours[0]));
        if missed && shape.has_unbounded_repeat && shape.has_exact_in_repeat {
            return Some(Class::MissedText);
        }
        if missed && shape.has_empty_ahead {
            return Some(Class::EmptyAhead);
        }
        if missed && shape.has_unbounded_repeat && self.has_reference_by_name() {
            return Some(Class::NameBehindRepeat);
        }
        // A reference sees what Perl kept or unset, so that the match itself may be another.
        let refers_to = |groups| !shape.referred_groups.is_disjoint(groups);
        let moved = refers_to(&shape.repeated_groups) || refers_to(&shape.inner_groups) || shape.has_early_reference;
        let kept = refers_to(&shape.not_ahead_groups);
        let differing = match (ours, perls) {
            (Some(ours), Some(perls)) if ours[..2] == perls[..2] => differing_groups(ours, perls),
            _ if kept => return Some(Class::NotAheadKept),
            _ => return moved.then_some(Class::GivenUp),
        };
        let is_kept = |(group, unset): &(usize, bool)| !unset && shape.not_ahead_groups.contains(group);
        if kept || differing.iter().all(is_kept) {
            return Some(Class::NotAheadKept);
        }
        if differing.iter().all(|(group, unset)| *unset && shape.twice_repeated_groups.contains(group)) {
            return Some(Class::EnteredAgain);
        }
        let may_be_left = |(group, _): &(usize, bool)| shape.repeated_groups.contains(group) || shape.inner_groups.contains(group);
        (moved || differing.iter().all(|group| may_be_left(group) || is_kept(group))).then_some(Class::GivenUp)
    }

    /// Has the rule a `\k`, or a `\g` with a name in its braces?
    fn has_reference_by_name(&self) -> bool {
        let rule = &self.case.rule;
        let is_letter = |byte: &u8| byte.is_ascii_alphabetic() || *byte == b'_';
        rule.windows(2).any(|pair| pair == b"\\k") || rule.windows(4).any(|bytes| bytes.starts_with(b"\\g{") && is_letter(&bytes[3]))
    }

    /// Has the rule a `$` with a byte 00 right behind it, or under `x` behind what is skipped there?
    fn has_dollar_before_zero(&self) -> bool {
        let is_blank = |byte: &u8| matches!(byte, 0x09..=0x0D | 0x20);
        let behind = |at: usize| {
            let mut rest = &self.case.rule[at + 1..];
            while self.case.flags & FLAG_X != 0 && rest.first().is_some_and(|byte| is_blank(byte) || *byte == b'#') {
                let length = if rest[0] == b'#' { rest.iter().position(|&byte| byte == b'\n').unwrap_or(rest.len() - 1) + 1 } else { 1 };
                rest = &rest[length..];
            }
            rest.first()
        };
        (0..self.case.rule.len()).any(|at| self.case.rule[at] == b'$' && behind(at) == Some(&0))
    }

    /// The class of a rule that Perl refuses or fails on.
    pub fn perl_failure_class(&self) -> Option<Class> {
        shape(&self.case.tree).has_repeated_empty_class.then_some(Class::EmptyClass)
    }

    /// The class of a difference from PCRE2.
    pub fn pcre2_class(&self) -> Option<Class> {
        let shape = shape(&self.case.tree);
        let classes = [(shape.has_unrolled_empty_round, Class::Unrolled), (shape.has_skipped_start, Class::SkippedStart)];
        classes.into_iter().find(|(marked, _)| *marked).map(|(_, class)| class)
    }
}

/// The class of a rule that PCRE2 refuses with this error.
pub fn pcre2_refusal_class(rule: &[u8], error: i32) -> Option<Class> {
    (error == PCRE2_NAMED_SET_OUTSIDE && rule.windows(2).any(|pair| pair == b"[:")).then_some(Class::ColonClass)
}

/// The rule with some of its escapes and bytes written otherwise: each backslash is handed over with the byte behind it, any other byte alone.
fn rewritten<const N: usize>(rule: &[u8], otherwise: impl Fn(&[u8]) -> Option<&'static [u8; N]>) -> Vec<u8> {
    let (mut rewritten, mut rest) = (Vec::new(), rule);
    while let [first, ..] = rest {
        let length = if *first == b'\\' { rest.len().min(2) } else { 1 };
        let (written, behind) = rest.split_at(length);
        rewritten.extend(otherwise(written).map_or(written, |otherwise| &otherwise[..]));
        rest = behind;
    }
    rewritten
}

/// Has the subject what Unicode folds into other bytes: a letter from C0 on (D7 and F7 are none), or two `s`, which fold with DF?
fn has_folded_above(subject: &[u8]) -> bool {
    let is_letter = |&byte: &u8| byte >= 0xC0 && byte != 0xD7 && byte != 0xF7;
    subject.iter().any(is_letter) || subject.windows(2).any(|pair| pair.eq_ignore_ascii_case(b"ss"))
}

/// The groups whose spans differ, and for each whether it is the other matcher that has none.
fn differing_groups(ours: &Row, other: &Row) -> Vec<(usize, bool)> {
    let differs = |&group: &usize| ours[2 * group..][..2] != other[2 * group..][..2];
    (1..=MOST_GROUPS).filter(differs).map(|group| (group, other[2 * group] == UNSET)).collect()
}

/// How many differences were set aside by which point of the list.
#[derive(Default)]
pub struct SetAside(BTreeMap<Class, u64>);

impl SetAside {
    pub fn count(&mut self, class: Class) {
        *self.0.entry(class).or_default() += 1;
    }

    pub fn told(&self) -> String {
        let counts: Vec<String> = self.0.iter().map(|(class, count)| format!("{count} by point {}", *class as u32)).collect();
        format!("set aside {}", if counts.is_empty() { "none".to_string() } else { counts.join(", ") })
    }
}
