//! Sound rules that other matchers read as documents 01 and 02 do, each with a subject: random ones, classes, and the sets.

use super::rules::{self, Style};
use super::{damage, scans, sound, subjects, Rng};
use crate::independent::{self, tree::Rule, ALL_FLAGS, FLAG_D, FLAG_I, LONGEST_RULE};

pub struct Shared {
    pub rule: Vec<u8>,
    pub flags: u32,
    pub tree: Rule,
    pub subject: Vec<u8>,
}

impl Shared {
    /// The steps that a start may take; a case that needs more is left out, since another matcher could take very long on it. On a single byte hardly
    /// any are needed, and small areas are quickly lent.
    pub fn budget(&self) -> u32 {
        if self.subject.len() == 1 {
            200
        } else {
            5_000
        }
    }
}

/// Flags that other matchers have: any but the depot profile, whose rules they know nothing of.
fn flags(rng: &mut Rng) -> u32 {
    rng.number() as u32 & ALL_FLAGS & !FLAG_D
}

/// The case of this seed and number, or none where the rule made is refused or too long.
pub fn case(seed: u64, number: u64) -> Option<Shared> {
    let rng = &mut Rng::new(seed, number);
    let flags = flags(rng);
    let style = rules::plain_style(rng, flags);
    // Blanks at odd places are mostly refused; where they are not, they tell what is part of an item.
    let rule = match rng.weighted(&[if style.blanks { 10 } else { 0 }, 2, 90]) {
        0 => damage::with_odd_blanks(rng, style),
        1 => rules::many_groups(rng, true),
        _ => rules::rule(rng, style),
    };
    let tree = independent::read(&rule, flags).ok().filter(|_| rule.len() <= LONGEST_RULE)?;
    let subject = subjects::subject(rng, Some(&tree), style.alphabet);
    Some(Shared { rule, flags, tree, subject })
}

/// The same for successive matches: mostly a rule that can match nothing first, on several lines that it nearly fits, one behind the other.
pub fn scan_case(seed: u64, number: u64) -> Option<Shared> {
    let rng = &mut Rng::new(seed ^ 0x5CA5, number);
    if rng.percent(30) {
        return case(seed, number);
    }
    let flags = flags(rng);
    let alphabet = *rng.pick(&rules::ALPHABETS);
    let (rule, tree) = sound::rule(rng, flags, |rng| Style { alphabet, ..rules::plain_style(rng, flags) }, &scans::AROUND);
    let subject = scans::line(rng, &tree, alphabet);
    Some(Shared { rule, flags, tree, subject })
}

/// A random class on each of the 256 subjects of one byte, with and without `i`; nothing where the class made is refused.
pub fn class_cases(seed: u64, number: u64) -> Vec<Shared> {
    let rng = &mut Rng::new(!seed, number);
    let style = rules::plain_style(rng, 0);
    on_every_byte(&rules::class(rng, style))
}

/// Each escape for a set and each named set on each of the 256 subjects of one byte, with and without `i`: alone, in a class and in a complemented
/// one.
pub fn set_cases() -> Vec<Shared> {
    let escapes = rules::SETS.iter().map(|&letter| format!("\\{}", char::from(letter)));
    let named = rules::NAMES.iter().flat_map(|name| [format!("[:{name}:]"), format!("[:^{name}:]")]);
    let alone = escapes.clone();
    let rules = alone.chain(escapes.chain(named).flat_map(|set| [format!("[{set}]"), format!("[^{set}]")]));
    rules.flat_map(|rule| on_every_byte(rule.as_bytes())).collect()
}

fn on_every_byte(rule: &[u8]) -> Vec<Shared> {
    let case = |flags, byte| Some(Shared { rule: rule.to_vec(), flags, tree: independent::read(rule, flags).ok()?, subject: vec![byte] });
    [0, FLAG_I].into_iter().flat_map(|flags| (0..=255).filter_map(move |byte| case(flags, byte))).collect()
}
