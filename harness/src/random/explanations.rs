//! Random explanations: the calls that others are tested by, and lines that nearly fit a rule, with budgets at the edge of what their starts need; marks
//! of every length.

use super::rules::{self, Style};
use super::{calls, fast, sound, subjects, Rng};
use crate::case::Case;
use crate::independent::{self, tree::Rule, Ending};
use crate::raw::Call;

/// Walks that are longer are not counted to their end.
const MOST_STEPS: u64 = 2_000;

/// What is written around a rule. Most are tied to the line's beginning, its end or both: others match nearly every line.
const AROUND: [(&str, &str); 10] =
    [("", ""), ("", ""), ("", "$"), ("(?:", ")\\z"), ("\\b(?:", ")\\B"), ("(?:", "){2}$"), ("^", "$"), ("^(?:", ")$"), ("^(", ")$"), ("\\A", "\\z")];

/// The case of this seed and number.
pub fn case(seed: u64, number: u64) -> Case {
    let rng = &mut Rng::new(seed ^ 0xE7, number);
    let case = match rng.weighted(&[30, 15, 55]) {
        0 => calls::case(seed, number),
        1 => fast::case(seed, number),
        _ => nearly_fitting(rng),
    };
    let marks = marks(rng, case.rule.len());
    Case { call: Call::Explain, marks, ..case }
}

/// Mostly about as many marks as the rule has bytes, else fewer or more.
fn marks(rng: &mut Rng, bytes: usize) -> usize {
    match rng.weighted(&[5, 10, 40, 10, 25, 10]) {
        0 => 0,
        1 => bytes.saturating_sub(1),
        2 => bytes,
        3 => bytes + 1,
        4 => rng.between(0, bytes),
        _ => bytes + rng.between(2, 300),
    }
}

/// A rule and a line that nearly fits it. Of some of them the first that is not matched is taken, if there is one.
fn nearly_fitting(rng: &mut Rng) -> Case {
    let flags = super::flags(rng);
    let alphabet = rng.pick(&rules::ALPHABETS);
    let mut tries = 4;
    loop {
        let (rule, tree) = sound::rule(rng, flags, |rng| Style { alphabet, ..rules::any_style(rng, flags) }, &AROUND);
        let subject = damaged_line(rng, &tree, alphabet);
        let budget = budget(rng, &tree, &subject);
        let case = Case::new(Call::Explain, &rule, flags, &subject, budget, 1);
        tries -= 1;
        if tries == 0 || case.expected().ending == Ending::NotMatched {
            return case;
        }
    }
}

/// A line grown along the rule and then damaged, or several of them one behind the other, or one behind other bytes.
fn damaged_line(rng: &mut Rng, rule: &Rule, alphabet: &[u8]) -> Vec<u8> {
    let mut line = Vec::new();
    if rng.percent(25) {
        let before = rng.between(1, 6);
        line.extend((0..before).map(|_| *rng.pick(alphabet)));
    }
    let pieces = 1 + rng.weighted(&[70, 20, 10]);
    for _ in 0..pieces {
        let mut piece = subjects::fitting(rng, rule);
        subjects::damage(rng, &mut piece, alphabet);
        line.extend(piece);
    }
    if rule.folds {
        subjects::mix_case(rng, &mut line);
    }
    line
}

/// Enough for all starts, or just enough, one step less or one more; seldom any number below.
fn budget(rng: &mut Rng, rule: &Rule, subject: &[u8]) -> u32 {
    let needed = (0..=subject.len()).map(|start| independent::steps_at(Call::Explain, rule, subject, start, MOST_STEPS)).max().unwrap_or(0);
    sound::budget(rng, MOST_STEPS, needed, [40, 30, 10, 15, 5])
}
