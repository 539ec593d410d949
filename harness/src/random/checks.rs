//! Random checks: the calls that others are tested by, and proposals along a path of the rule, as they are or with their start or choices changed, cut off or
//! added to, with budgets at the edge of what the path needs; rules of about as many branches as a check follows.

use super::rules::{self, Style};
use super::{calls, fast, scans, sound, Rng};
use crate::case::Case;
use crate::independent::check::{checked, derivations, refused_by};
use crate::independent::{self, tree::Rule, LONGEST_RULE, LONGEST_SUBJECT};
use crate::raw::Call;

/// Walks that are longer are not looked at to their end, and paths that are longer are not followed.
const MOST_STEPS: u64 = 1_000;

/// The case of this seed and number.
pub fn case(seed: u64, number: u64) -> Case {
    let rng = &mut Rng::new(seed ^ 0xC4EC, number);
    let case = match rng.weighted(&[30, 10, 50, 10]) {
        0 => calls::case(seed, number),
        1 => fast::case(seed, number),
        2 => return along_a_path(rng),
        _ => many_branches(rng),
    };
    let tree = independent::read(&case.rule, case.flags).ok();
    let proposal = match tree.filter(|tree| case.rule.len() <= LONGEST_RULE && refused_by(tree).is_none()) {
        Some(tree) => proposal(rng, &tree, &case.subject),
        None => noise(rng),
    };
    Case { call: Call::Check, proposal, ..case }
}

/// A rule that a check takes, a line near it, and a proposal.
fn along_a_path(rng: &mut Rng) -> Case {
    let (rule, flags, tree, subject) = followed(rng);
    let proposal = proposal(rng, &tree, &subject);
    let needed = checked(&tree, &subject, MOST_STEPS, &proposal).steps;
    let budget = sound::budget(rng, MOST_STEPS, needed, [30, 35, 20, 10, 5]);
    Case::check(&rule, flags, &subject, budget, &proposal)
}

/// A rule that a check takes, with its flags and its tree, and a line near it.
pub fn followed(rng: &mut Rng) -> (Vec<u8>, u32, Rule, Vec<u8>) {
    let flags = super::flags(rng);
    let alphabet = *rng.pick(&rules::ALPHABETS);
    let (rule, tree) = loop {
        let (rule, tree) = sound::rule(rng, flags, |rng| Style { alphabet, ..rules::any_style(rng, flags) }, &scans::AROUND);
        if refused_by(&tree).is_none() {
            break (rule, tree);
        }
    };
    let subject = if rng.percent(60) { super::subjects::subject(rng, Some(&tree), alphabet) } else { scans::line(rng, &tree, alphabet) };
    (rule, flags, tree, subject)
}

/// Mostly that of a derivation from a random start, as it is or damaged.
fn proposal(rng: &mut Rng, rule: &Rule, subject: &[u8]) -> Vec<u8> {
    if rng.percent(3) {
        return noise(rng);
    }
    // Some starts are tried, since many have no derivation.
    let starts: Vec<usize> = (0..5).map(|_| if rng.percent(30) { 0 } else { rng.below(subject.len().min(LONGEST_SUBJECT) + 1) }).collect();
    let found = starts.iter().map(|&start| derivations(rule, subject, start, MOST_STEPS).0).find(|found| !found.is_empty());
    let Some(found) = found else { return wandering(rng, subject) };
    let among = if rng.percent(40) { found.len() } else { 1 };
    let mut proposal = found[rng.below(among)].proposal.clone();
    if rng.percent(60) {
        let times = 1 + rng.weighted(&[75, 20, 5]);
        (0..times).for_each(|_| damage(rng, &mut proposal));
    }
    proposal
}

/// Changes one byte, leaves out, doubles or adds one, cuts the choices off, or takes another start.
fn damage(rng: &mut Rng, proposal: &mut Vec<u8>) {
    let places = proposal.len();
    match rng.weighted(&[40, 10, 10, 15, 15, 10]) {
        _ if places == 0 => proposal.push(rng.byte()),
        0 => {
            let at = rng.below(places);
            proposal[at] = other(rng, proposal[at]);
        }
        1 => drop(proposal.remove(rng.below(places))),
        2 => proposal.insert(rng.below(places), *rng.pick(&[0, 1, 2, 255])),
        3 => proposal.push(*rng.pick(&[0, 0, 1, 2, 255])),
        4 => proposal.truncate(rng.below(places)),
        _ => {
            let at = rng.below(places.min(2));
            proposal[at] = other(rng, proposal[at]);
        }
    }
}

/// Another byte: mostly one that is a choice too, one more or one less.
fn other(rng: &mut Rng, byte: u8) -> u8 {
    match rng.weighted(&[40, 20, 20, 10, 10]) {
        0 => byte ^ 1,
        1 => byte.wrapping_add(1),
        2 => byte.wrapping_sub(1),
        3 => *rng.pick(&[0, 1, 2, 3, 127, 128, 254, 255]),
        _ => rng.byte(),
    }
}

/// Choices of no path that is known, from a start in the line.
fn wandering(rng: &mut Rng, subject: &[u8]) -> Vec<u8> {
    let start = rng.below(subject.len().min(LONGEST_SUBJECT) + 1) as u16;
    let choices = rng.below(12);
    start.to_le_bytes().into_iter().chain((0..choices).map(|_| *rng.pick(&[0, 0, 1, 1, 1, 2]))).collect()
}

/// Any bytes.
fn noise(rng: &mut Rng) -> Vec<u8> {
    (0..rng.below(12)).map(|_| rng.byte()).collect()
}

/// An alternation of about as many branches as a check follows, alone or beside another, in brackets or under a repeat, with things before and behind it
/// that are refused too.
fn many_branches(rng: &mut Rng) -> Case {
    let flags = super::flags(rng);
    let branches = |rng: &mut Rng| {
        let count = *rng.pick(&[2, 254, 255, 256, 256, 257, 257, 258, 300]);
        let branch = *rng.pick(&["", "", "a", "b", "()"]);
        let mut branches = vec![branch; count];
        // One of them is another.
        let at = rng.below(count);
        branches[at] = *rng.pick(&["a", "ab", "", "(a)", "a*", "(?=a)", "a++"]);
        branches.join("|")
    };
    let first = branches(rng);
    let rule = match rng.below(7) {
        0 | 1 => first,
        2 => format!("a?({first})"),
        3 => format!("(?:{first}){{0,2}}"),
        4 => format!("(?:{first}){}", branches(rng)),
        5 => format!("\\1|(?:a|({first}))*"),
        _ => format!("(?:{})|{first}", branches(rng)),
    };
    let rule = rule + *rng.pick(&["", "", "", "\\R", "a*+", "(?!b)", "\\9", "(", "\\1"]);
    let subject = &b"aabab"[..rng.below(6)];
    Case::new(Call::Check, rule.as_bytes(), flags, subject, *rng.pick(&[0, 1, 2, 3, 5, 300]), 1)
}
