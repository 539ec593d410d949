//! Names of groups: document 02, request e).

use super::escapes::Escape;
use super::reader::{Reader, Refusal, MOST_GROUPS};
use super::tree::Rule;

pub const LONGEST_NAME: usize = 16;
/// "17 bytes, the length (0 if none) and the name padded with 00"
pub const ENTRY_LENGTH: usize = 1 + LONGEST_NAME;
/// 02 j): "The name index becomes 64 entries, .. and 8 is given under 1,088 bytes."
pub const INDEX_LENGTH: usize = MOST_GROUPS * ENTRY_LENGTH;

/// The name index as a call fills it.
pub type Index = [u8; INDEX_LENGTH];

/// "25 name ill-formed or unclosed". The place is that of the `(` or of the backslash.
const ILL_FORMED: u32 = 25;

impl Reader<'_> {
    /// Reads a name and the byte that closes it: "A name is 1 to 16 letters, digits or underscores, and begins with no digit."
    pub fn name(&mut self, closing: u8, place: usize) -> Result<Vec<u8>, Refusal> {
        let from = self.at;
        while self.peek().is_some_and(|byte| byte.is_ascii_alphanumeric() || byte == b'_') {
            self.at += 1;
        }
        let name = self.bytes[from..self.at].to_vec();
        let is_name = (1..=LONGEST_NAME).contains(&name.len()) && !name[0].is_ascii_digit();
        if is_name && self.skip(closing) {
            Ok(name)
        } else {
            Err(Refusal { number: ILL_FORMED, place })
        }
    }

    /// `\k{litres}`, `\k<litres>` or `\k'litres'`; anything else behind `\k` is ill-formed.
    pub fn name_reference(&mut self, place: usize) -> Result<Escape, Refusal> {
        let closing = match self.take() {
            Some(b'{') => b'}',
            Some(b'<') => b'>',
            Some(b'\'') => b'\'',
            _ => return Err(Refusal { number: ILL_FORMED, place }),
        };
        self.named_up_to(closing, place)
    }

    /// A reference by the name that stands here. Names are compared byte by byte, under `i` too.
    pub fn named_up_to(&mut self, closing: u8, place: usize) -> Result<Escape, Refusal> {
        let name = self.name(closing, place)?;
        let group = self.known.iter().position(|known| *known == name);
        Ok(Escape::Reference(group.map(|index| index as u64 + 1)))
    }
}

/// The groups that have a name by a filled index, each with it.
pub fn named(index: &Index) -> Vec<(usize, &[u8])> {
    let name = |entry: &'_ [u8]| usize::from(entry[0]).min(LONGEST_NAME);
    let entries = (1..).zip(index.chunks_exact(ENTRY_LENGTH));
    entries.filter(|(_, entry)| entry[0] != 0).map(|(group, entry)| (group, &entry[1..][..name(entry)])).collect()
}

/// The index that a call fills.
pub fn index(rule: &Rule) -> Index {
    let mut index = [0; INDEX_LENGTH];
    for (entry, name) in index.chunks_exact_mut(ENTRY_LENGTH).zip(&rule.names) {
        entry[0] = name.len() as u8;
        entry[1..=name.len()].copy_from_slice(name);
    }
    index
}
