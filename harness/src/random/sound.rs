//! What makers of calls on sound rules share: a rule with something written around it, and a budget at the edge of what its walks need.

use super::rules::{self, Style};
use super::Rng;
use crate::independent::{self, tree::Rule, LONGEST_RULE};

/// A sound rule of styles that are made so, with one of these pairs written around it; seldom one is made that is too long.
pub fn rule(rng: &mut Rng, flags: u32, style: impl Fn(&mut Rng) -> Style, around: &[(&str, &str)]) -> (Vec<u8>, Rule) {
    loop {
        let style = style(rng);
        let inside = rules::rule(rng, style);
        let (before, behind) = *rng.pick(around);
        let rule = [before.as_bytes(), &inside, behind.as_bytes()].concat();
        match independent::read(&rule, flags) {
            Ok(tree) if rule.len() <= LONGEST_RULE => return (rule, tree),
            _ => {}
        }
    }
}

/// By these weights the most, just enough, one step less, one more, or any number up to enough.
pub fn budget(rng: &mut Rng, most: u64, needed: u64, weights: [usize; 5]) -> u32 {
    let steps = match rng.weighted(&weights) {
        0 => most,
        1 => needed,
        2 => needed.saturating_sub(1),
        3 => needed + 1,
        _ => rng.number() % (needed + 1),
    };
    steps as u32
}
