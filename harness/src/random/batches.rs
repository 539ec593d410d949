//! Random buffers of lines: those near a rule, empty ones, ones with 0D, over-long ones, with and without a last 0A, and result areas of every length
//! around what the lines need.

use super::rules::{self, Style};
use super::{calls, scans, sound, subjects, Rng};
use crate::case::Case;
use crate::independent::{self, tree::Rule, LONGEST_SUBJECT, PART_LENGTH};
use crate::raw::Call;

/// Walks that are longer are not counted to their end.
const MOST_STEPS: u64 = 1_000;
/// A line of the longest length is walked from each of its starts, so that it is seldom made.
const FEW: usize = 10_000;

/// The case of this seed and number.
pub fn case(seed: u64, number: u64) -> Case {
    let rng = &mut Rng::new(seed ^ 0xBA7C, number);
    let alphabet = *rng.pick(&rules::ALPHABETS);
    let mut case = Case { call: Call::Batch, ..calls::case(seed, number) };
    let is_sound = rng.percent(60);
    if is_sound {
        let flags = super::flags(rng);
        let (rule, _) = sound::rule(rng, flags, |rng| Style { alphabet, ..rules::any_style(rng, flags) }, &scans::AROUND);
        case = Case::new(Call::Batch, &rule, flags, b"", 0, 0);
    }
    let tree = independent::read(&case.rule, case.flags).ok();
    case.subject = buffer(rng, tree.as_ref(), alphabet);
    if let (true, Some(tree)) = (is_sound, &tree) {
        case.budget = budget(rng, tree, &case.subject);
        case.work_area = 16 * case.budget as usize;
    }
    case.result_area = result_area(rng, independent::lines(&case.subject).len());
    case
}

fn buffer(rng: &mut Rng, rule: Option<&Rule>, alphabet: &[u8]) -> Vec<u8> {
    let lines = match rng.weighted(&[4, 76, 17, 3]) {
        0 => 0,
        1 => rng.between(1, 6),
        2 => rng.between(7, 30),
        _ => rng.between(31, 200),
    };
    let mut buffer = Vec::new();
    for _ in 0..lines {
        buffer.extend(line(rng, rule, alphabet));
        buffer.push(b'\n');
    }
    // In a third of the buffers the last piece has no 0A.
    if rng.percent(33) {
        buffer.pop();
    }
    buffer
}

/// A line near the rule, which may have an 0A in it and then is two of them; or an odd one.
fn line(rng: &mut Rng, rule: Option<&Rule>, alphabet: &[u8]) -> Vec<u8> {
    match rng.below(FEW) {
        0 => return vec![byte_but_0a(rng, alphabet); LONGEST_SUBJECT],
        1..10 => return vec![byte_but_0a(rng, alphabet); LONGEST_SUBJECT + rng.between(1, 3)],
        10..1_200 => return Vec::new(),
        1_200..1_400 => return b"\r".to_vec(),
        _ => {}
    }
    let mut line = subjects::subject(rng, rule, alphabet);
    if rng.percent(15) {
        let at = if rng.percent(70) { line.len() } else { rng.between(0, line.len()) };
        line.insert(at, b'\r');
    }
    line
}

/// A byte that a long line can be made of.
fn byte_but_0a(rng: &mut Rng, alphabet: &[u8]) -> u8 {
    match *rng.pick(alphabet) {
        b'\n' => b'a',
        byte => byte,
    }
}

/// Enough for every start of a line, or just enough, one step less or one more.
fn budget(rng: &mut Rng, rule: &Rule, buffer: &[u8]) -> u32 {
    let lines = independent::lines(buffer);
    let line = if lines.is_empty() { &[][..] } else { rng.pick(&lines) };
    let starts = 0..=line.len().min(100);
    let needed = starts.map(|start| independent::steps_at(Call::Match, rule, line, start, MOST_STEPS)).max().unwrap_or(0);
    sound::budget(rng, MOST_STEPS, needed, [40, 25, 15, 10, 10])
}

/// A length around what so many lines need: just enough, a number or a part more or less, or any other.
fn result_area(rng: &mut Rng, lines: usize) -> usize {
    let needed = PART_LENGTH * lines;
    match rng.weighted(&[45, 8, 4, 12, 15, 8, 8]) {
        0 => needed,
        1 => needed.saturating_sub(1),
        2 => needed.saturating_sub(PART_LENGTH),
        3 => needed + rng.between(1, PART_LENGTH - 1),
        4 => needed + PART_LENGTH * rng.between(1, 4),
        5 => rng.between(0, needed),
        _ => needed + rng.between(0, 500),
    }
}
