//! Looks fields up with the library, and with the independent matcher beside it.

use crate::fence::Fenced;
use crate::independent::lookup;
use crate::raw::{self, Lookup};
use crate::text;

/// All that a lookup is given stands before fences of its own, so that a byte or a number read behind it would end the program.
pub struct Looker {
    name: Fenced,
    names: Fenced,
    line: Fenced,
    row: Fenced,
    standing: Fenced,
}

impl Default for Looker {
    fn default() -> Looker {
        let [name, names, row, standing] = [(); 4].map(|()| Fenced::new(4_096));
        Looker { name, names, line: Fenced::new(80_000), row, standing }
    }
}

impl Looker {
    /// Looks the field up with the library, and tells what differs from what the independent matcher expects.
    pub fn compare(&mut self, lookup: &Lookup) -> Vec<String> {
        let (expected, mut field) = (lookup::field(lookup).numbers(), [u64::MAX; 3]);
        let held = Lookup {
            name: self.name.hold(lookup.name),
            names: self.names.hold(lookup.names),
            line: self.line.hold(lookup.line),
            kind: lookup.kind,
            row: self.row.hold_numbers(lookup.row),
            standing: self.standing.hold(lookup.standing),
        };
        raw::field(held, &mut field);
        if field == expected {
            Vec::new()
        } else {
            vec![format!("library: {field:?}, independent: {expected:?}")]
        }
    }
}

/// The lookup on one line, with all that is needed to make it again.
pub fn shown(lookup: &Lookup) -> String {
    let Lookup { name, names, line, kind, row, standing } = *lookup;
    format!(
        "name {} index {} line of {} bytes kind {kind} row {row:?} standing text of {} bytes",
        text::hex(name),
        text::hex(names),
        line.len(),
        standing.len()
    )
}
