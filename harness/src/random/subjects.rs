//! Random subjects: bytes of a small alphabet, and lines that a rule nearly fits.

use std::collections::VecDeque;

use super::Rng;
use crate::independent::tree::{Alternation, Form, Inner, Kind, Part, Rule};
use crate::independent::ByteSet;

/// Lines that grow from a rule are cut here.
const LONGEST: usize = 40;

/// A subject for a rule, which is none if the rule is refused.
pub fn subject(rng: &mut Rng, rule: Option<&Rule>, alphabet: &[u8]) -> Vec<u8> {
    let mut subject = match rule {
        Some(rule) if rng.percent(60) => fitting(rng, rule),
        _ => any(rng, alphabet),
    };
    if rng.percent(35) {
        damage(rng, &mut subject, alphabet);
    }
    if rng.percent(if rule.is_some_and(|rule| rule.folds) { 40 } else { 5 }) {
        mix_case(rng, &mut subject);
    }
    if rng.percent(8) {
        subject.push(b'\n');
    }
    subject
}

/// Puts a byte in, changes one or adds one, or cuts the rest off.
pub fn damage(rng: &mut Rng, subject: &mut Vec<u8>, alphabet: &[u8]) {
    let at = rng.between(0, subject.len());
    let byte = if rng.percent(90) { *rng.pick(alphabet) } else { rng.byte() };
    match rng.below(3) {
        0 => subject.insert(at, byte),
        1 => subject.truncate(at),
        _ if at < subject.len() => subject[at] = byte,
        _ => subject.push(byte),
    }
}

/// Gives about half of the letters the other case.
pub fn mix_case(rng: &mut Rng, subject: &mut [u8]) {
    for byte in subject.iter_mut().filter(|byte| byte.is_ascii_alphabetic()) {
        *byte ^= if rng.percent(50) { 0x20 } else { 0 };
    }
}

/// Mostly short; seldom a line of some length.
fn any(rng: &mut Rng, alphabet: &[u8]) -> Vec<u8> {
    let length = match rng.weighted(&[80, 17, 3]) {
        0 => rng.between(0, 6),
        1 => rng.between(7, 14),
        _ => rng.between(15, 60),
    };
    let all_values = rng.percent(5);
    (0..length).map(|_| if all_values { rng.byte() } else { *rng.pick(alphabet) }).collect()
}

/// A line grown along the rule: the bytes of some branches and rounds. Places are not looked at, so it need not fit.
pub fn fitting(rng: &mut Rng, rule: &Rule) -> Vec<u8> {
    let mut line = Line { text: Vec::new(), ahead: VecDeque::new(), groups: vec![Vec::new(); rule.groups + 1], folds: rule.folds };
    line.alternation(rng, &rule.whole);
    // What was looked at and not taken: a capture may lie there.
    if rng.percent(70) {
        line.text.extend(line.ahead);
    }
    line.text.truncate(LONGEST);
    line.text
}

struct Line {
    text: Vec<u8>,
    /// What a part that looks ahead wants to see behind the text.
    ahead: VecDeque<u8>,
    groups: Vec<Vec<u8>>,
    /// What a reference takes may have letters of the other case.
    folds: bool,
}

impl Line {
    fn alternation(&mut self, rng: &mut Rng, alternation: &Alternation) {
        for part in rng.pick(&alternation.branches) {
            self.part(rng, part);
        }
    }

    fn part(&mut self, rng: &mut Rng, part: &Part) {
        if self.text.len() >= LONGEST {
            return;
        }
        match part {
            Part::Item(item) => self.item(rng, &item.kind),
            Part::Group(group) => {
                let from = self.text.len();
                self.alternation(rng, &group.inside);
                self.groups[group.number.unwrap_or(0)] = self.text[from..].to_vec();
            }
            Part::Repeat(repeat) => {
                let least = repeat.least as usize;
                let rounds = rng.between(least, repeat.most.map_or(least + 2, |most| (least + 2).min(most as usize)));
                for _ in 0..rounds {
                    self.part(rng, &repeat.body);
                }
            }
            Part::Inner(inner) => self.inner(rng, inner),
        }
    }

    /// What a held part takes is as that of a group. What a `(?=` takes is wanted of the bytes that follow; that of a `(?!` seldom.
    fn inner(&mut self, rng: &mut Rng, inner: &Inner) {
        if inner.form == Form::Held {
            return self.alternation(rng, &inner.inside);
        }
        if inner.form == Form::NotAhead && rng.percent(75) {
            return;
        }
        let text = std::mem::take(&mut self.text);
        self.alternation(rng, &inner.inside);
        self.ahead = std::mem::replace(&mut self.text, text).into();
    }

    /// The byte that is wanted here, if the set has it, or any other.
    fn byte(&mut self, rng: &mut Rng, set: &ByteSet) -> Option<u8> {
        let wanted = self.ahead.pop_front().filter(|&byte| set.has(byte));
        let bytes = set.bytes();
        wanted.or_else(|| (!bytes.is_empty()).then(|| *rng.pick(&bytes)))
    }

    fn item(&mut self, rng: &mut Rng, item: &Kind) {
        match item {
            Kind::Byte(set) => {
                let byte = self.byte(rng, set);
                self.text.extend(byte);
            }
            Kind::Place(_) => {}
            Kind::Reference(group) => {
                let mut same = self.groups[*group].clone();
                if self.folds {
                    mix_case(rng, &mut same);
                }
                self.ahead.drain(..same.len().min(self.ahead.len()));
                self.text.extend(same);
            }
        }
    }
}
