//! What a rule was made of, and what is known of its groups. Its answers share it.

use crate::flags::Flags;
use crate::limits::NAME_ENTRY;

#[derive(Debug)]
pub(crate) struct Source {
    pub rule: Vec<u8>,
    pub flags: Flags,
    pub budget: u32,
    /// How many capturing groups the rule has.
    pub groups: usize,
    /// The name index.
    pub names: Vec<u8>,
}

impl Source {
    /// The name of each group, from group 1 on, if it has one.
    pub fn names(&self) -> impl Iterator<Item = Option<&str>> {
        self.names.chunks_exact(NAME_ENTRY).take(self.groups).map(|entry| {
            let name = &entry[1..][..usize::from(entry[0])];
            (!name.is_empty()).then(|| std::str::from_utf8(name).expect("names are letters, digits and _"))
        })
    }

    /// The number of the group that has this name.
    pub fn number(&self, name: &str) -> Option<usize> {
        (1..).zip(self.names()).find(|(_, found)| *found == Some(name)).map(|(number, _)| number)
    }
}
