//! Random scans: the calls that others are tested by, and lines with several matches, many of them empty, with budgets at the edge of what a try
//! needs and with room for fewer rows than there are matches.

use super::rules::{self, Style};
use super::{calls, fast, sound, subjects, Rng};
use crate::case::Case;
use crate::independent::{tree::Rule, Tries, Walks, ROW_LENGTH};
use crate::raw::Call;

/// Walks that are longer are not counted to their end.
const MOST_STEPS: u64 = 1_000;
const LONGEST: usize = 150;

/// What is written around a rule, so that it often matches nothing first, and then something at the same place.
pub const AROUND: [(&str, &str); 9] =
    [("", ""), ("", ""), ("(?:", ")?"), ("(?:", ")??"), ("(?:", ")*?"), ("(?:", ")*"), ("|", ""), ("", "|"), ("(", "|\\b)")];

/// The case of this seed and number.
pub fn case(seed: u64, number: u64) -> Case {
    let rng = &mut Rng::new(seed ^ 0x5CA5, number);
    match rng.weighted(&[25, 15, 60]) {
        0 => Case { call: Call::Scan, ..calls::case(seed, number) },
        1 => Case { call: Call::Scan, ..fast::case(seed, number) },
        _ => several_matches(rng),
    }
}

fn several_matches(rng: &mut Rng) -> Case {
    let flags = super::flags(rng);
    let alphabet = *rng.pick(&rules::ALPHABETS);
    let (rule, tree) = sound::rule(rng, flags, |rng| Style { alphabet, ..rules::any_style(rng, flags) }, &AROUND);
    let subject = line(rng, &tree, alphabet);
    let budget = budget(rng, &tree, &subject);
    // A start has two matches at most, an empty one and then another.
    let roomy = Case::new(Call::Scan, &rule, flags, &subject, budget, 2 * subject.len() + 2);
    let rows = rows(rng, roomy.expected().rows.len());
    Case { result_area: ROW_LENGTH * rows + rng.below(2) * rng.below(ROW_LENGTH), ..roomy }
}

/// Several lines that the rule nearly fits, one behind the other, with other bytes between some of them.
pub fn line(rng: &mut Rng, rule: &Rule, alphabet: &[u8]) -> Vec<u8> {
    let mut line = Vec::new();
    let pieces = rng.between(1, 6);
    for _ in 0..pieces {
        line.extend(subjects::subject(rng, Some(rule), alphabet));
        let between = rng.below(2) * rng.between(0, 3);
        line.extend((0..between).map(|_| *rng.pick(alphabet)));
    }
    line.truncate(LONGEST);
    line
}

/// Around what all tries need, or what one of them does, mostly one with its empty end barred.
fn budget(rng: &mut Rng, rule: &Rule, subject: &[u8]) -> u32 {
    let tries: Vec<_> = Tries::new(Walks { rule, subject, budget: MOST_STEPS }).collect();
    let barred: Vec<u64> = tries.iter().filter(|tried| tried.is_barred).map(|tried| tried.steps).collect();
    let needed = match rng.weighted(&[75, 17, 8]) {
        1 if !barred.is_empty() => *rng.pick(&barred),
        0 => tries.iter().map(|tried| tried.steps).max().unwrap_or(0),
        _ => rng.pick(&tries).steps,
    };
    sound::budget(rng, MOST_STEPS, needed, [35, 30, 15, 15, 5])
}

/// Room for so many rows, where so many are needed: just enough, one more or less, or any number up to that.
fn rows(rng: &mut Rng, needed: usize) -> usize {
    let rows = match rng.weighted(&[40, 20, 20, 20]) {
        0 => needed,
        1 => needed + 1,
        2 => needed.saturating_sub(1),
        _ => rng.between(0, needed),
    };
    rows.max(1)
}
