//! Whether the library that was linked has the lengths that this package takes it to have. The calls have no version, and a row of another length would be
//! misread in silence.

use std::sync::OnceLock;

use crate::limits::{CARD, NAME_INDEX, PART, ROW, RULE_AREA, WORK_PER_STEP};
use crate::raw::{self, Areas, Call, CardText, Question, ANSWER_LENGTH, WRITE_ANSWER_LENGTH};

/// An area: its name, the number by which a call refuses one that is short, its length, and a call that is lent it with a length.
type Probe = (&'static str, u32, usize, fn(usize) -> u32);

const PROBES: [Probe; 6] = [
    ("the rule area", 5, RULE_AREA, |length| asked(Call::Match, [length, WORK_PER_STEP, ROW, NAME_INDEX])),
    ("the work area", 6, WORK_PER_STEP, |length| asked(Call::Match, [RULE_AREA, length, ROW, NAME_INDEX])),
    ("a row", 7, ROW, |length| asked(Call::Match, [RULE_AREA, WORK_PER_STEP, length, NAME_INDEX])),
    ("a line's part", 7, PART, |length| asked(Call::Batch, [RULE_AREA, WORK_PER_STEP, length, NAME_INDEX])),
    ("the name index", 8, NAME_INDEX, |length| asked(Call::Match, [RULE_AREA, WORK_PER_STEP, ROW, length])),
    ("a card", 9, CARD, written),
];

/// Panics if the library is not the one that belongs to this package. That is a fault of the build, and not of what a program is given.
pub(crate) fn check() {
    static CHECKED: OnceLock<()> = OnceLock::new();
    CHECKED.get_or_init(|| {
        let differing = differing(&PROBES);
        assert!(differing.is_empty(), "the linked Terravisco library is of another version: it has other lengths of {}", differing.join(", "));
    });
}

/// Which areas have other lengths in the library: one that is just long enough is not refused, and one that is shorter by one is.
fn differing(probes: &[Probe]) -> Vec<&'static str> {
    let differs = |&&(_, reason, length, probe): &&Probe| probe(length) == reason || probe(length - 1) != reason;
    probes.iter().filter(differs).map(|&(name, ..)| name).collect()
}

/// The number by which a call with areas of these lengths is refused, or 0.
fn asked(call: Call, [rule, work, result, names]: [usize; 4]) -> u32 {
    let (mut rule, mut work, mut result, mut names) = (vec![0; rule], vec![0; work], vec![0; result], vec![0; names]);
    let areas = Areas { rule: &mut rule, work: &mut work, result: &mut result, names: &mut names, marks: &mut [] };
    let mut answer = [0; ANSWER_LENGTH];
    raw::call(call, Question { rule: b"", flags: 0, subject: b"\n", budget: 1, proposal: b"" }, areas, &mut answer);
    refusal(&answer)
}

/// The number by which writing a card into an area of this length is refused, or 0.
fn written(length: usize) -> u32 {
    let mut answer = [0; WRITE_ANSWER_LENGTH];
    raw::write_card(CardText { rule: b"", flags: 0, budget: 0 }, &mut vec![0; RULE_AREA], &mut vec![0; length], &mut answer);
    refusal(&answer)
}

fn refusal(answer: &[u32]) -> u32 {
    if answer[0] == crate::areas::REFUSED {
        answer[1]
    } else {
        0
    }
}

#[cfg(test)]
mod tests {
    use super::*;

    #[test]
    fn this_library_agrees() {
        assert!(differing(&PROBES).is_empty());
    }

    #[test]
    fn another_length_is_told() {
        for (name, reason, length, probe) in PROBES {
            for other in [length - 1, length + 1] {
                assert_eq!(differing(&[(name, reason, other, probe)]), [name], "{other} for {length}");
            }
        }
    }
}
