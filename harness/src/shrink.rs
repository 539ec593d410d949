//! Makes a case that fails smaller, so that a person can read it.

use crate::case::Case;
use crate::independent::{FLAG_D, FLAG_I, FLAG_M, FLAG_S, FLAG_X};

/// The smallest case found that still fails, by leaving out bytes of rule and subject and lowering the budget.
pub fn shrunk(case: &Case, mut fails: impl FnMut(&Case) -> bool) -> Case {
    let mut best = case.clone();
    loop {
        let Some(smaller) = candidates(&best).into_iter().find(|candidate| fails(candidate)) else { return best };
        best = smaller;
    }
}

fn candidates(case: &Case) -> Vec<Case> {
    let mut candidates = Vec::new();
    for length in [8, 4, 2, 1] {
        for from in 0..case.rule.len().saturating_sub(length - 1) {
            let mut smaller = case.clone();
            smaller.rule.drain(from..from + length);
            candidates.push(smaller);
        }
    }
    // Of a long subject longer parts, at some hundred places.
    let (bytes, apart) = (case.subject.len(), 1 + case.subject.len() / 200);
    for length in [bytes / 2, 8 * apart, 4 * apart, 2 * apart, 1].into_iter().filter(|&length| length > 0) {
        for from in (0..bytes.saturating_sub(length - 1)).step_by(apart) {
            let mut smaller = case.clone();
            smaller.subject.drain(from..from + length);
            candidates.push(smaller);
        }
    }
    for flag in [FLAG_S, FLAG_M, FLAG_I, FLAG_X, FLAG_D] {
        if case.flags & flag != 0 {
            candidates.push(Case { flags: case.flags & !flag, ..case.clone() });
        }
    }
    candidates
}
