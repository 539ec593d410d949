//! Random lookups of fields: indices that a call may have filled and others, of any length; rows that fit their line, and such as break one rule of a
//! row.

use super::rules::GROUP_NAMES;
use super::Rng;
use crate::independent::{ENTRY_LENGTH, LONGEST_NAME, MOST_GROUPS, ROW_LENGTH, UNSET};
use crate::raw::Lookup;

pub struct Asked {
    name: Vec<u8>,
    names: Vec<u8>,
    line: Vec<u8>,
    kind: u32,
    row: Vec<u32>,
    standing: Vec<u8>,
}

impl Asked {
    pub fn lookup(&self) -> Lookup<'_> {
        Lookup { name: &self.name, names: &self.names, line: &self.line, kind: self.kind, row: &self.row, standing: &self.standing }
    }
}

/// The lookup of this seed and number.
pub fn asked(seed: u64, number: u64) -> Asked {
    let rng = &mut Rng::new(seed ^ 0xF1E1D, number);
    let length = match rng.weighted(&[20, 60, 19, 1]) {
        0 => rng.between(0, 1),
        1 => rng.between(2, 20),
        2 => rng.between(21, 300),
        _ => rng.between(65_000, 70_000),
    };
    let names = index(rng);
    let kind = if rng.percent(88) { 0 } else { *rng.pick(&[1, 2, 3, 4, 5, 256, 1 << 16, 1 << 31, u32::MAX]) };
    let standing = rng.between(0, 12);
    Asked { name: name(rng, &names), names, line: bytes(rng, length), kind, row: row(rng, length), standing: bytes(rng, standing) }
}

fn bytes(rng: &mut Rng, length: usize) -> Vec<u8> {
    (0..length).map(|_| rng.byte()).collect()
}

/// Up to three entries more than count, a name more than once among them, cut off or longer at the end. Half of them have a name, so that the last entries that count are
/// found too.
fn index(rng: &mut Rng) -> Vec<u8> {
    let entries = match rng.weighted(&[40, 30, 30]) {
        0 => MOST_GROUPS,
        1 => rng.between(0, 6),
        _ => rng.between(7, MOST_GROUPS + 3),
    };
    let names = rng.between(1, GROUP_NAMES.len());
    let good = *rng.pick(&[100, 90, 50, 0]);
    let mut index = Vec::new();
    for _ in 0..entries {
        index.extend(if rng.percent(good) { good_entry(rng, &GROUP_NAMES[..names]) } else { odd_entry(rng, &GROUP_NAMES[..names]) });
    }
    match rng.weighted(&[60, 15, 15, 10]) {
        0 => {}
        1 => index.truncate(index.len().saturating_sub(1)),
        2 => index.truncate(index.len().saturating_sub(rng.between(2, 20))),
        _ => {
            let more = rng.between(1, 20);
            index.extend(bytes(rng, more));
        }
    }
    index
}

/// An entry as a call fills it: a name with its padding, or nothing but 00.
fn good_entry(rng: &mut Rng, names: &[&str]) -> Vec<u8> {
    let name = if rng.percent(50) { *rng.pick(names) } else { "" };
    let mut entry = [&[name.len() as u8], name.as_bytes()].concat();
    entry.resize(ENTRY_LENGTH, 0);
    entry
}

/// An entry that no call fills so: any padding, a length that is none, or that of another name, or any bytes.
fn odd_entry(rng: &mut Rng, names: &[&str]) -> Vec<u8> {
    let mut entry = good_entry(rng, names);
    match rng.below(4) {
        0 => {
            let length = usize::from(entry[0]);
            entry[1 + length..].iter_mut().for_each(|byte| *byte = *rng.pick(b"\x00Qa_\xFF"));
        }
        1 => entry[0] = *rng.pick(&[0, 1, 2, 15, 16, 17, 18, 32, 64, 128, 254, 255]),
        2 => entry = bytes(rng, ENTRY_LENGTH),
        _ => {
            let at = rng.between(0, ENTRY_LENGTH - 1);
            entry[at] = *rng.pick(b"\x00\x01\x10\x11aA_");
        }
    }
    entry
}

/// Mostly what some entry says, else a name that others begin with, or go on behind, or none.
fn name(rng: &mut Rng, index: &[u8]) -> Vec<u8> {
    let entries: Vec<&[u8]> = index.chunks(ENTRY_LENGTH).filter(|entry| entry.len() > 1 && entry[0] > 0).collect();
    let mut name = if entries.is_empty() || rng.percent(10) {
        rng.pick(&GROUP_NAMES).as_bytes().to_vec()
    } else {
        let entry = *rng.pick(&entries);
        let length = usize::from(entry[0]).min(entry.len() - 1);
        entry[1..=length].to_vec()
    };
    match rng.weighted(&[85, 3, 3, 3, 3, 3]) {
        0 => {}
        1 => name.truncate(name.len() - 1),
        2 => name.push(*rng.pick(b"\x00a_1")),
        3 => name.clear(),
        4 => name.resize(rng.between(LONGEST_NAME, LONGEST_NAME + 2), 0),
        _ => {
            let at = rng.below(name.len());
            name[at] ^= 0x20;
        }
    }
    name
}

/// A row for a line of this length; some break a rule, and some are shorter or longer than a row.
fn row(rng: &mut Rng, length: usize) -> Vec<u32> {
    let within = |rng: &mut Rng, low: usize, high: usize| {
        let (one, other) = (rng.between(low, high), rng.between(low, high));
        (one.min(other), one.max(other))
    };
    let (start, end) = within(rng, 0, length);
    let mut row = vec![start as u32, end as u32];
    let set = *rng.pick(&[0, 50, 100]);
    // What was looked at ahead may lie behind the match, and by a row's rules anywhere in the line.
    let outside = *rng.pick(&[0, 0, 10, 100]);
    while row.len() < ROW_LENGTH {
        let (from, to) = if rng.percent(outside) { within(rng, 0, length) } else { within(rng, start, end) };
        row.extend(if rng.percent(set) { [from as u32, to as u32] } else { [UNSET; 2] });
    }
    if rng.percent(30) {
        break_rule(rng, &mut row, length as u32);
    }
    if rng.percent(15) {
        let short = ROW_LENGTH - 1;
        let numbers = *rng.pick(&[0, 1, 2, 3, 66, short - 1, short, short, short + 1, short + 2, short + 2, short + 3, 2 * ROW_LENGTH]);
        row.resize_with(numbers, || *rng.pick(&[0, 1, UNSET]));
    }
    row
}

/// Breaks one rule of a row, or moves a number to just where none is broken.
fn break_rule(rng: &mut Rng, row: &mut [u32], length: u32) {
    let pair = 2 * rng.between(1, MOST_GROUPS);
    let (start, end) = (row[0], row[1]);
    match rng.below(12) {
        0 => row[1] = length + rng.below(2) as u32,
        1 => row.swap(0, 1),
        2 => row[rng.below(2)] = UNSET,
        3 => row[pair + rng.below(2)] = UNSET,
        4 => (row[pair], row[pair + 1]) = (start.wrapping_sub(rng.below(2) as u32), end),
        5 => (row[pair], row[pair + 1]) = (start, end + rng.below(2) as u32),
        6 => (row[pair], row[pair + 1]) = (end, start),
        7 => row[pair + rng.below(2)] = *rng.pick(&[0, 1, start, end, length, UNSET - 1]),
        8 => row[ROW_LENGTH - 1] = 0,
        9 => (row[pair], row[pair + 1]) = (rng.between(0, length as usize) as u32, length + rng.below(2) as u32),
        10 => (row[pair], row[pair + 1]) = (length + rng.below(2) as u32, length + rng.below(2) as u32),
        _ => row.iter_mut().for_each(|number| *number = rng.below(length as usize + 2) as u32),
    }
}
