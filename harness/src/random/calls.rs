//! Random calls: a rule of one of the kinds, a subject near it, flags, a budget, areas and a name index.

use super::{damage, rules, subjects, Rng};
use crate::case::Case;
use crate::independent::tree::Rule;
use crate::independent::{self, INDEX_LENGTH, ROW_LENGTH, RULE_AREA, WORK_PER_STEP};
use crate::raw::Call;

/// The case of this seed and number.
pub fn case(seed: u64, number: u64) -> Case {
    let rng = &mut Rng::new(seed, number);
    let flags = if rng.percent(1) { *rng.pick(&[32, 33, 48, 63, 64, 1 << 20, 0x8000_0000, u32::MAX]) } else { super::flags(rng) };
    let style = rules::any_style(rng, flags);
    let rule = match rng.weighted(&[49, 16, 12, 3, 6, 7, 4, 3]) {
        0 => rules::rule(rng, style),
        1 => damage::damaged(rng, style),
        2 => damage::jumble(rng),
        3 => damage::noise(rng),
        4 => damage::at_limit(rng),
        5 => damage::with_odd_blanks(rng, style),
        6 => damage::names(rng),
        _ => rules::many_groups(rng, false),
    };
    let tree = independent::read(&rule, flags).ok();
    let mut subject = subjects::subject(rng, tree.as_ref(), style.alphabet);
    // Seldom a subject over its limit, or a long one: the same bytes over and over.
    match rng.below(2_000) {
        0 | 1 => subject.resize(65_536 + rng.below(2), b'a'),
        2 => subject = subject.iter().copied().cycle().take(rng.between(200, 3_000)).collect(),
        _ => {}
    }
    let call = if rng.percent(50) { Call::Match } else { Call::List };
    let budget = match &tree {
        Some(tree) if rng.percent(35) => within_stretch(rng, call, tree, &subject).unwrap_or_else(|| budget(rng)),
        _ => budget(rng),
    };
    let (rule_area, work_area, result_area) = areas(rng, budget);
    let name_index = if rng.percent(2) { *rng.pick(&[0, 1, 16, 17, 544, INDEX_LENGTH - 1]) } else { length(rng, INDEX_LENGTH) };
    let marks = rule.len();
    Case { call, rule, flags, subject, budget, rule_area, work_area, result_area, name_index, marks, proposal: Vec::new() }
}

/// The steps up to a reference that the call tries, or to one of the bytes that it compares, or up to a part that looks ahead or holds on, or into it; none
/// where no such is tried. Many references compare no byte, so that it is mostly the longest.
fn within_stretch(rng: &mut Rng, call: Call, rule: &Rule, subject: &[u8]) -> Option<u32> {
    let start = if rng.percent(60) { 0 } else { rng.between(0, subject.len()) };
    let tried = independent::stretches_at(call, rule, subject, start, 1_000);
    let longest = tried.iter().max_by_key(|(before, behind)| behind - before)?;
    let (before, behind) = *if rng.percent(75) { longest } else { rng.pick(&tried) };
    Some((before + rng.number() % (behind - before + 2)) as u32)
}

fn budget(rng: &mut Rng) -> u32 {
    let budget = match rng.weighted(&[400, 100, 480, 3, 2, 15]) {
        0 => rng.between(0, 30),
        1 => rng.between(31, 300),
        2 => 1_000,
        3 => rng.between(1_001, 20_000),
        4 => rng.between(99_999, 100_000),
        _ => *rng.pick(&[100_001, 100_002, 200_000, u32::MAX as usize]),
    };
    budget as u32
}

/// Lengths of rule, work and result area: exactly enough, one short, or longer.
fn areas(rng: &mut Rng, budget: u32) -> (usize, usize, usize) {
    // A budget over the limit is refused before the areas are looked at.
    let work = if budget > 100_000 { 16 } else { WORK_PER_STEP * budget as usize };
    let rows = 1 + rng.weighted(&[20, 15, 10, 10, 5, 5, 5, 5, 25]);
    let result = ROW_LENGTH * if rows == 9 { rng.between(9, 40) } else { rows } + rng.below(2) * rng.below(ROW_LENGTH);
    (length(rng, RULE_AREA), length(rng, work), if rng.percent(2) { *rng.pick(&[0, 1, 66, ROW_LENGTH - 2, ROW_LENGTH - 1]) } else { result })
}

/// Exactly what is needed, or a little more or less.
pub fn length(rng: &mut Rng, needed: usize) -> usize {
    match rng.weighted(&[67, 30, 2, 1]) {
        0 => needed,
        1 => needed + rng.between(1, 20),
        2 => needed.saturating_sub(1),
        _ => rng.between(0, needed),
    }
}
