//! Subjects of stretches: the same byte over and over, bytes that the rule cannot begin with, and pieces grown along the rule.

use crate::independent::tree::{Alternation, Form, Inner, Item, Kind, Part, Rule};
use crate::independent::ByteSet;
use crate::random::subjects::fitting;
use crate::random::Rng;

/// Bytes of the rules' items.
const OWN: &[u8] = b"aaab1,";
/// Bytes that few of the items take.
const OTHER: &[u8] = b"x- \r\nz#\x00\xFF";

pub fn subject(rng: &mut Rng, rule: &Rule) -> Vec<u8> {
    let length = match rng.weighted(&[50, 42, 7, 1]) {
        0 => rng.between(0, 12),
        1 => rng.between(13, 40),
        2 => rng.between(41, 300),
        _ => rng.between(301, 3_000),
    };
    if rng.percent(12) {
        return vec![b'a'; length];
    }
    let outside = outside(rng, rule);
    let mut subject = Vec::new();
    if length > 0 && rng.percent(55) {
        let stretch = rng.between(1, length);
        add_outside(rng, &outside, stretch, &mut subject);
    }
    while subject.len() < length {
        let stretch = rng.between(1, length - subject.len());
        match rng.weighted(&[32, 30, 18, 20]) {
            0 => subject.extend(vec![*rng.pick(OWN); stretch]),
            1 => add_outside(rng, &outside, stretch, &mut subject),
            2 => subject.extend((0..stretch).map(|_| *rng.pick(OWN))),
            _ => {
                subject.push(*rng.pick(&outside));
                subject.extend(fitting(rng, rule).into_iter().take(stretch - 1));
            }
        }
    }
    if rng.percent(55) {
        subject.extend(fitting(rng, rule));
    }
    if rng.percent(6) {
        subject.push(b'\n');
    }
    subject
}

/// The same byte over and over, sometimes with one other among them.
pub fn alike(rng: &mut Rng) -> Vec<u8> {
    let length = match rng.weighted(&[30, 64, 6]) {
        0 => rng.between(1, 10),
        1 => rng.between(11, 40),
        _ => rng.between(41, 100),
    };
    let mut subject = vec![b'a'; length];
    if rng.percent(30) {
        subject[rng.below(length)] = *rng.pick(b"b1,\n");
    }
    subject
}

/// A piece over and over, with a `,` between at times, one byte changed or the end cut off: what a reference compares is equal up to any byte.
pub fn again(rng: &mut Rng, rule: &Rule) -> Vec<u8> {
    let length = if rng.percent(60) { rng.between(1, 6) } else { rng.between(7, 40) };
    let piece: Vec<u8> = match rng.below(3) {
        0 => vec![b'a'; length],
        1 => (0..length).map(|_| *rng.pick(OWN)).collect(),
        _ => fitting(rng, rule),
    };
    let between: &[u8] = *rng.pick(&[&b""[..], b"", b","]);
    let mut subject = vec![&piece[..]; rng.between(1, 4)].join(between);
    if !subject.is_empty() && rng.percent(40) {
        let at = rng.below(subject.len());
        subject[at] = *rng.pick(b"abx,");
    }
    if rng.percent(40) {
        subject.truncate(rng.between(0, subject.len()));
    }
    subject
}

/// So many bytes that cannot begin: all the same, or a mixture.
fn add_outside(rng: &mut Rng, outside: &[u8], length: usize, subject: &mut Vec<u8>) {
    let same = rng.percent(40).then(|| *rng.pick(outside));
    subject.extend((0..length).map(|_| same.unwrap_or_else(|| *rng.pick(outside))));
}

/// Some bytes that the rule cannot begin with, as far as its first items tell; any bytes where it can begin with all, or with none.
fn outside(rng: &mut Rng, rule: &Rule) -> Vec<u8> {
    let mut first = ByteSet::empty();
    add_first_of_branches(&rule.whole, &mut first);
    let known: Vec<u8> = [OTHER, b"ab1,"].concat().into_iter().filter(|&byte| !first.has(byte)).collect();
    let all = first.complement().bytes();
    match (known.is_empty(), all.is_empty()) {
        (false, _) if rng.percent(90) => known,
        (_, false) => all,
        _ => OTHER.to_vec(),
    }
}

/// Adds the bytes that an alternation can begin with, and says whether it can take none.
fn add_first_of_branches(alternation: &Alternation, first: &mut ByteSet) -> bool {
    alternation.branches.iter().fold(false, |empty, branch| add_first(branch, first) || empty)
}

/// The same for parts that follow one another; a place, a reference or what looks ahead takes no byte here.
fn add_first(parts: &[Part], first: &mut ByteSet) -> bool {
    parts.iter().all(|part| match part {
        Part::Item(Item { kind: Kind::Byte(set), .. }) => {
            first.add_all(set);
            false
        }
        Part::Item(_) => true,
        Part::Group(group) => add_first_of_branches(&group.inside, first),
        Part::Inner(Inner { form: Form::Ahead | Form::NotAhead, .. }) => true,
        Part::Inner(held) => add_first_of_branches(&held.inside, first),
        Part::Repeat(repeat) => repeat.most == Some(0) || add_first(std::slice::from_ref(&repeat.body), first) || repeat.least == 0,
    })
}

/// Can the rule take no bytes? Then it matches at nearly every start.
pub fn can_be_empty(rule: &Rule) -> bool {
    add_first_of_branches(&rule.whole, &mut ByteSet::empty())
}
