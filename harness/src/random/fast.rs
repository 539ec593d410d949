//! Random calls aimed at what a matcher may do otherwise than step by step, and then has to count as if it had not: a repeat over one byte item
//! taken as one run, starts skipped because of their byte, branches passed over because of theirs, groups that close in vain, a listing's rows found again by
//! an index, a reference's bytes compared in one go. Half of the calls are under `i`, `x` or both: what can begin, and what a run or a reference takes, then
//! has letters of both cases. Most budgets are at an edge: the steps that the independent matcher counts for one start, or up to or
//! within one reference or one part that looks ahead or holds on, or a few more or less.

mod rules;
mod subjects;

use super::subjects::mix_case;
use super::Rng;
use crate::case::Case;
use crate::independent::tree::Rule;
use crate::independent::{self, FLAG_D, FLAG_I, FLAG_X, ROW_LENGTH, RULE_AREA, WORK_PER_STEP};
use crate::raw::Call;

/// About so many steps a call may take: a longer line is cut, so that a long one with long walks does not take the time of many cases.
const MOST_STEPS: u64 = 20_000;

/// Rows with which a listing is made in order to know how many it has.
const ROWS_COUNTED: usize = 300;

/// What a case is aimed at.
#[derive(Clone, Copy, PartialEq, Eq)]
enum Aim {
    Beginnings,
    ManyRows,
    References,
    EmptyRounds,
}

/// The case of this seed and number.
pub fn case(seed: u64, number: u64) -> Case {
    let rng = &mut Rng::new(seed ^ 0xFA57, number);
    let aim = [Aim::Beginnings, Aim::ManyRows, Aim::References, Aim::EmptyRounds][rng.weighted(&[66, 12, 14, 8])];
    let flags = *rng.pick(&[0, 0, 0, 1, 2, 2, 3]) | *rng.pick(&[0, 0, 0, 0, FLAG_I, FLAG_I, FLAG_X, FLAG_I | FLAG_X]);
    let flags = flags | if aim != Aim::References && rng.percent(5) { FLAG_D } else { 0 };
    let call = if aim == Aim::ManyRows || rng.percent(40) { Call::List } else { Call::Match };
    let (rule, tree) = sound_rule(rng, flags, aim);
    let mut subject = match aim {
        Aim::Beginnings | Aim::EmptyRounds => subjects::subject(rng, &tree),
        Aim::ManyRows => subjects::alike(rng),
        Aim::References => subjects::again(rng, &tree),
    };
    if tree.folds && rng.percent(60) {
        mix_case(rng, &mut subject);
    }
    let walk = Starts { call, rule: &tree, subject: &subject }.steps_at_any(rng);
    subject.drain(..subject.len().saturating_sub((MOST_STEPS / walk.max(1)) as usize));
    let budget = budget(rng, &Starts { call, rule: &tree, subject: &subject });
    let mut case = Case::new(call, &rule, flags, &subject, budget, ROWS_COUNTED);
    let rows = rows(rng, &case);
    case.result_area = ROW_LENGTH * rows + rng.below(2) * rng.below(ROW_LENGTH);
    case.rule_area = roomy(rng, RULE_AREA);
    case.work_area = roomy(rng, WORK_PER_STEP * budget as usize);
    case
}

/// A rule that is refused is not walked at all, and another one is made; that is seldom, with more groups than a rule can have. Most of those that can take no
/// bytes are passed by, too, unless they are for many rows or for references: they match at the first start.
fn sound_rule(rng: &mut Rng, flags: u32, aim: Aim) -> (Vec<u8>, Rule) {
    loop {
        let rule = match aim {
            Aim::Beginnings => rules::rule(rng, flags),
            Aim::ManyRows => rules::many_readings(rng, flags),
            Aim::References => rules::with_references(rng, flags),
            Aim::EmptyRounds => rules::empty_rounds(rng, flags),
        };
        match independent::read(&rule, flags) {
            Ok(tree) if aim != Aim::Beginnings || !subjects::can_be_empty(&tree) || rng.percent(40) => return (rule, tree),
            _ => {}
        }
    }
}

/// What the independent matcher counts at the starts of a call.
struct Starts<'c> {
    call: Call,
    rule: &'c Rule,
    subject: &'c [u8],
}

impl Starts<'_> {
    /// The steps at this start, or some hundreds where they are more than one run over the whole line takes.
    fn steps_at(&self, start: usize) -> u64 {
        independent::steps_at(self.call, self.rule, self.subject, start, 500 + 4 * self.subject.len() as u64)
    }

    fn steps_at_any(&self, rng: &mut Rng) -> u64 {
        self.steps_at(rng.between(0, self.subject.len()))
    }

    /// The steps before and behind each reference that is tried at a start, and each part that looks ahead or holds on, within as many steps.
    fn stretches_at_any(&self, rng: &mut Rng) -> Vec<(u64, u64)> {
        let start = rng.between(0, self.subject.len());
        independent::stretches_at(self.call, self.rule, self.subject, start, 500 + 4 * self.subject.len() as u64)
    }

    /// The budget that is just enough for all starts up to one of them. Of a long line only some starts are looked at.
    fn enough_for_some(&self, rng: &mut Rng) -> u64 {
        let (last, apart) = (rng.between(0, self.subject.len()), 1 + self.subject.len() / 100);
        (0..=last).step_by(apart).map(|start| self.steps_at(start)).max().unwrap_or(0)
    }
}

/// Mostly what some starts need, or a little beside it; where references are tried, or parts that look ahead or hold on, often what leads up to one, into
/// it or out of it. The shorter of two walks is often that of a start that cannot begin.
fn budget(rng: &mut Rng, starts: &Starts) -> u32 {
    let stretches = starts.stretches_at_any(rng);
    if !stretches.is_empty() && rng.percent(50) {
        let (before, behind) = *rng.pick(&stretches);
        let within = before + rng.number() % (behind - before + 1);
        let steps = *rng.pick(&[before, within, behind]);
        return (steps + rng.number() % 3).saturating_sub(1) as u32;
    }
    let steps = match rng.weighted(&[48, 6, 10, 8, 4, 4, 6, 14]) {
        0 => (starts.enough_for_some(rng) + rng.number() % 5).saturating_sub(2),
        1 => (starts.steps_at_any(rng) + rng.number() % 5).saturating_sub(2),
        2 => (starts.steps_at_any(rng).min(starts.steps_at_any(rng)) + rng.number() % 3).saturating_sub(1),
        3 => rng.number() % (starts.steps_at_any(rng) + 1),
        4 => rng.number() % 4,
        5 => rng.number() % 30,
        6 => rng.number() % 300,
        _ => 1_000,
    };
    steps as u32
}

/// Room for so many rows: any number, or for a listing what it needs, one more or one less.
fn rows(rng: &mut Rng, case: &Case) -> usize {
    if case.call == Call::Match {
        return rng.between(1, 3);
    }
    match rng.weighted(&[20, 20, 30, 24, 6]) {
        0 => (case.expected().rows.len() + rng.below(3)).saturating_sub(1).max(1),
        1 => rng.between(1, 3),
        2 => rng.between(4, 40),
        3 => rng.between(41, 300),
        _ => rng.between(301, 3_000),
    }
}

/// An area of the needed length, or a little longer.
fn roomy(rng: &mut Rng, needed: usize) -> usize {
    needed + if rng.percent(20) { rng.between(1, 20) } else { 0 }
}
