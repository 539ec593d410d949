//! PCRE2's own answers: matches, all readings from a start by a callout at the rule's end, successive matches, and the names of groups.
//!
//! The callout stands behind the whole rule, outside all brackets: the end of what looks ahead or holds on is no reading.

pub mod sys;

use std::ffi::{c_int, c_void};
use std::ptr::null_mut;

use self::sys::*;
use crate::independent::{Row, FLAG_I, FLAG_M, FLAG_S, FLAG_X, ROW_LENGTH, UNSET};

/// An address for an empty subject.
static NOWHERE: [u8; 1] = [0];
/// How much one match may try before PCRE2 gives up.
const MATCH_LIMIT: u32 = 1_000_000;

/// What PCRE2 finds.
#[derive(PartialEq, Eq)]
pub enum Found {
    Rows(Vec<Row>),
    /// It gave up at its own limit.
    Limit,
}

/// A loop over PCRE2's matches. Both search on from where the last match ended, and give the same rows.
#[derive(Clone, Copy, PartialEq, Eq)]
pub enum Loop {
    /// As document 02 g) says it: behind an empty match one search, in which the empty end is barred at its first place alone.
    Plain,
    /// As PCRE2's documents have it (pcre2demo): behind an empty match one try at that place alone, without the empty end, and then a search from the
    /// next byte; it stops at an empty match at the subject's end, where document 02 tries once more.
    Documented,
}

impl Loop {
    fn options_after_empty(self) -> u32 {
        match self {
            Loop::Plain => NOTEMPTY_ATSTART,
            Loop::Documented => NOTEMPTY_ATSTART | ANCHORED,
        }
    }
}

/// A rule that PCRE2 has compiled, with a callout behind it. The callout does nothing in a plain match.
pub struct Pattern {
    code: *mut c_void,
    data: *mut c_void,
    context: *mut c_void,
}

impl Pattern {
    /// Compiles a rule, or gives PCRE2's error number.
    pub fn new(rule: &[u8], flags: u32) -> Result<Pattern, i32> {
        let text = [b"(?:", rule, closing(flags), b"(?C1)"].concat();
        let options = NEVER_UTF | NO_AUTO_POSSESS | NO_DOTSTAR_ANCHOR | NO_START_OPTIMIZE | options_of(flags);
        let (mut error, mut at) = (0, 0);
        // Safety: the text's pointer goes with its length, and what is made here is freed by `drop`, or below where nothing was made.
        unsafe {
            let compiling = pcre2_compile_context_create_8(null_mut());
            pcre2_set_newline_8(compiling, NEWLINE_LF);
            let code = pcre2_compile_8(text.as_ptr(), text.len(), options, &mut error, &mut at, compiling);
            pcre2_compile_context_free_8(compiling);
            if code.is_null() {
                return Err(error);
            }
            let context = pcre2_match_context_create_8(null_mut());
            pcre2_set_match_limit_8(context, MATCH_LIMIT);
            Ok(Pattern { code, data: pcre2_match_data_create_from_pattern_8(code, null_mut()), context })
        }
    }

    /// The groups that have a name, each with it, by rising numbers: PCRE2's name table.
    pub fn names(&self) -> Vec<(usize, Vec<u8>)> {
        let (mut count, mut size) = (0u32, 0u32);
        let mut table: *const u8 = NOWHERE.as_ptr();
        // Safety: each of the three is of the type that PCRE2 writes for it, and the table has as many entries of that size; it lives as long as the code.
        let entries = unsafe {
            pcre2_pattern_info_8(self.code, INFO_NAME_COUNT, (&raw mut count).cast());
            pcre2_pattern_info_8(self.code, INFO_NAME_ENTRY_SIZE, (&raw mut size).cast());
            pcre2_pattern_info_8(self.code, INFO_NAME_TABLE, (&raw mut table).cast());
            std::slice::from_raw_parts(if count == 0 { NOWHERE.as_ptr() } else { table }, (count * size) as usize)
        };
        // An entry: the group's number in two bytes, high one first, the name and a 00.
        let name = |entry: &[u8]| entry[2..].split(|&byte| byte == 0).next().unwrap_or(&[]).to_vec();
        let mut names: Vec<_> =
            entries.chunks(size.max(1) as usize).map(|entry| (256 * usize::from(entry[0]) + usize::from(entry[1]), name(entry))).collect();
        names.sort();
        names
    }

    /// The first match as one row, or no row.
    pub fn first(&self, subject: &[u8]) -> Found {
        match self.run(subject, 0, 0, None, null_mut()) {
            NO_MATCH => Found::Rows(Vec::new()),
            error if error < 0 => Found::Limit,
            _ => Found::Rows(vec![self.matched()]),
        }
    }

    /// The row of the match that was just made.
    fn matched(&self) -> Row {
        // Safety: after a match the vector holds as many pairs as it counts.
        let offsets = unsafe {
            let pairs = pcre2_get_ovector_count_8(self.data) as usize;
            std::slice::from_raw_parts(pcre2_get_ovector_pointer_8(self.data), 2 * pairs)
        };
        row(offsets[0], offsets[1], &offsets[2..])
    }

    /// Successive matches, by one of the loops.
    pub fn successive(&self, subject: &[u8], by: Loop) -> Found {
        let (mut rows, mut from, mut options) = (Vec::new(), 0, 0);
        loop {
            match self.run(subject, from, options, None, null_mut()) {
                NO_MATCH if options & ANCHORED != 0 => (from, options) = (from + 1, 0),
                NO_MATCH => return Found::Rows(rows),
                error if error < 0 => return Found::Limit,
                _ => {
                    let row = self.matched();
                    rows.push(row);
                    from = row[1] as usize;
                    let is_empty = row[0] == row[1];
                    if is_empty && from == subject.len() && by == Loop::Documented {
                        return Found::Rows(rows);
                    }
                    options = if is_empty { by.options_after_empty() } else { 0 };
                }
            }
        }
    }

    /// Every reading from a start in PCRE2's order, each once.
    pub fn readings(&self, subject: &[u8], start: usize) -> Found {
        let mut rows: Vec<Row> = Vec::new();
        let data: *mut Vec<Row> = &mut rows;
        match self.run(subject, start, ANCHORED, Some(collect), data.cast()) {
            NO_MATCH => Found::Rows(rows),
            _ => Found::Limit,
        }
    }

    fn run(&self, subject: &[u8], start: usize, options: u32, handler: Option<Handler>, data: *mut c_void) -> c_int {
        // An empty slice's pointer leads nowhere, and PCRE2 may walk round the address space from it: it gets a real address.
        let text = if subject.is_empty() { NOWHERE.as_ptr() } else { subject.as_ptr() };
        // Safety: the pointer goes with the length, and the handler is called during the match alone, while its data lives.
        unsafe {
            pcre2_set_callout_8(self.context, handler, data);
            pcre2_match_8(self.code, text, subject.len(), start, options, self.data, self.context)
        }
    }
}

impl Drop for Pattern {
    fn drop(&mut self) {
        // Safety: `new` made all three, and nothing else frees them.
        unsafe {
            pcre2_match_data_free_8(self.data);
            pcre2_match_context_free_8(self.context);
            pcre2_code_free_8(self.code);
        }
    }
}

/// PCRE2's options that are the flags of a rule.
pub fn options_of(flags: u32) -> u32 {
    let options = [(FLAG_S, DOTALL), (FLAG_M, MULTILINE), (FLAG_I, CASELESS), (FLAG_X, EXTENDED)];
    options.iter().filter(|(flag, _)| flags & flag != 0).map(|(_, option)| option).sum()
}

/// What closes a group around a rule. Under `x` the rule may end in a comment, which an 0A ends and which is skipped itself.
pub fn closing(flags: u32) -> &'static [u8] {
    if flags & FLAG_X != 0 {
        b"\n)"
    } else {
        b")"
    }
}

/// At the rule's end: keeps a new reading, and says "fail here and go on".
extern "C" fn collect(callout: *const Callout, data: *mut c_void) -> c_int {
    // Safety: PCRE2 hands over its block, and `readings` the rows.
    let (block, rows) = unsafe { (&*callout, &mut *data.cast::<Vec<Row>>()) };
    // Safety: the block is PCRE2's, and the offsets are used up on the next line.
    let offsets = unsafe { group_offsets(block) };
    let reading = row(block.start_match, block.current_position, offsets);
    if !rows.contains(&reading) {
        rows.push(reading);
    }
    1
}

/// The row of a reading, from its groups' offsets in PCRE2's form.
pub fn row(start: usize, end: usize, groups: &[usize]) -> Row {
    let mut row = [UNSET; ROW_LENGTH];
    (row[0], row[1]) = (start as u32, end as u32);
    for (number, &offset) in row[2..].iter_mut().zip(groups) {
        *number = if offset == UNSET_OFFSET { UNSET } else { offset as u32 };
    }
    row
}
