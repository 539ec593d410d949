//! The field lookup: document 02, request e). It reads an index and a row of any bytes and numbers, whoever wrote them.

use super::{ENTRY_LENGTH, LONGEST_NAME, MOST_GROUPS, ROW_LENGTH};
use crate::raw::Lookup;

/// A field is a part of the line or of the standing text, from one place up to another.
#[derive(Clone, Copy, PartialEq, Eq, Debug)]
pub enum Field {
    Line(usize, usize),
    Standing(usize, usize),
}

impl Field {
    /// The field as the library tells it: 0 for the line or 1 for the standing text, from, to.
    pub fn numbers(self) -> [u64; 3] {
        match self {
            Field::Line(from, to) => [0, from as u64, to as u64],
            Field::Standing(from, to) => [1, from as u64, to as u64],
        }
    }
}

const MATCHED: u32 = 0;
const UNSET: u32 = u32::MAX;

/// "the field is the part of the line that the group took, or the standing text itself when the group is unset. For an unknown field, or when the line
/// didn't match, it is the standing text's empty beginning."
pub fn field(lookup: &Lookup) -> Field {
    let (Some(group), true) = (group_of(lookup.name, lookup.names), has_matched(lookup)) else { return Field::Standing(0, 0) };
    match (lookup.row[2 * group], lookup.row[2 * group + 1]) {
        (UNSET, UNSET) => Field::Standing(0, lookup.standing.len()),
        (from, to) => Field::Line(from as usize, to as usize),
    }
}

/// 02 j): "64 entries, all of them counting in the lookup"; "the first whole one of that name, length 1 to 16, whatever its padding, counts". Groups are counted from 1.
fn group_of(name: &[u8], index: &[u8]) -> Option<usize> {
    for group in 1..=MOST_GROUPS {
        let entry = index.get(ENTRY_LENGTH * (group - 1)..ENTRY_LENGTH * group)?;
        let length = usize::from(entry[0]);
        if (1..=LONGEST_NAME).contains(&length) && entry[1..][..length] == *name {
            return Some(group);
        }
    }
    None
}

/// "If the answer row breaks 01's row rules for the line, that counts as not matched": "A row becomes 130 numbers", "old rows are not read", "an unset or
/// missing group is 4294967295 twice. Start <= end <= length", and since 02 l) a set span "may now lie outside the match, but within the line". What stands behind
/// these numbers is no part of the row.
fn has_matched(lookup: &Lookup) -> bool {
    let Some(row) = lookup.row.get(..ROW_LENGTH) else { return false };
    let is_within = |span: &[u32]| span[0] <= span[1] && span[1] as usize <= lookup.line.len();
    lookup.kind == MATCHED && is_within(&row[..2]) && row[2..].chunks(2).all(|span| span == [UNSET, UNSET] || is_within(span))
}
