//! PCRE2's interpreter as a contender.

use std::ffi::{c_int, c_void, CStr};
use std::hint::black_box;
use std::ptr::null_mut;

use crate::bench::collector::{collect, Collector};
use crate::bench::{Case, Reply};
use crate::independent::{Row, PART_LENGTH, ROW_LENGTH};
use crate::pcre2::sys::*;
use crate::pcre2::{closing, options_of, row};
use crate::raw::Call;

const MATCH_LIMIT_REACHED: c_int = -47;

/// How PCRE2 goes about a case.
#[derive(Clone, Copy, PartialEq, Eq)]
pub enum Way {
    /// Compiles the rule on each call, as the library does; its default options.
    EachCall,
    /// The rule is compiled before; its default options.
    Once,
    /// Compiles on each call, and walks from every start: it neither looks for bytes that a match needs nor gives up choices in advance.
    NoShortcuts,
}

pub struct Rival<'c> {
    text: Vec<u8>,
    options: u32,
    subject: &'c [u8],
    /// The rule, if it is compiled once.
    kept: Option<Compiled>,
    context: *mut c_void,
    /// Keeps a listing's readings.
    collector: Option<Collector>,
}

impl<'c> Rival<'c> {
    /// A listing needs all choices and a callout at the rule's end; so it is never made with the default options.
    pub fn new(case: &'c Case, way: Way) -> Rival<'c> {
        let listing = case.call == Call::List;
        let shortcuts = !listing && way != Way::NoShortcuts;
        let all_choices = if shortcuts { 0 } else { NO_AUTO_POSSESS | NO_DOTSTAR_ANCHOR | NO_START_OPTIMIZE };
        let options = all_choices | options_of(case.flags);
        let text = if listing { [b"(?:", &case.rule[..], closing(case.flags), b"(?C1)"].concat() } else { case.rule.clone() };
        let kept = (way == Way::Once).then(|| Compiled::new(&text, options));
        // Safety: the context is freed by `drop`.
        let context = unsafe { pcre2_match_context_create_8(null_mut()) };
        if let (Some(limit), false) = (case.match_limit, shortcuts) {
            // Safety: the context was just made.
            unsafe { pcre2_set_match_limit_8(context, limit) };
        }
        let collector = listing.then(|| Collector::new(case.room));
        Rival { text, options, subject: &case.subject, kept, context, collector }
    }

    pub fn call(&mut self) {
        match self.kept.take() {
            Some(kept) => {
                black_box(self.run(&kept));
                self.kept = Some(kept);
            }
            None => {
                let compiled = Compiled::new(black_box(&self.text), self.options);
                black_box(self.run(&compiled));
            }
        }
    }

    /// What a call answers.
    pub fn reply(&mut self) -> Reply {
        let compiled = Compiled::new(&self.text, self.options);
        let end = self.run(&compiled);
        match (end, &self.collector) {
            (NO_MATCH, Some(collector)) => Reply::Rows(collector.rows().to_vec()),
            (NO_MATCH, None) => Reply::Rows(Vec::new()),
            (MATCH_LIMIT_REACHED, _) => Reply::GaveUp,
            (error, _) if error < 0 => panic!("PCRE2's error {error} in a case of the benchmark"),
            _ => Reply::Rows(compiled.first_row().to_vec()),
        }
    }

    fn run(&mut self, compiled: &Compiled) -> c_int {
        if let Some(collector) = &mut self.collector {
            collector.clear();
            let data: *mut Collector = collector;
            // Safety: the handler is called during the match below alone, while the collector lives.
            unsafe { pcre2_set_callout_8(self.context, Some(collect), data.cast()) };
        }
        let subject = black_box(self.subject);
        // Safety: the pointer goes with the length.
        unsafe { pcre2_match_8(compiled.code, subject.as_ptr(), subject.len(), 0, 0, compiled.data, self.context) }
    }
}

impl Drop for Rival<'_> {
    fn drop(&mut self) {
        // Safety: `new` made it, and nothing else frees it.
        unsafe { pcre2_match_context_free_8(self.context) };
    }
}

/// PCRE2 over the lines of a buffer: its rule compiled once, with its default options, and the lines split by C's `memchr`. What a match finds stays in
/// PCRE2's own offsets, to be read before the next one.
pub struct OverLines<'c> {
    compiled: Compiled,
    buffer: &'c [u8],
}

impl<'c> OverLines<'c> {
    pub fn new(case: &'c Case) -> OverLines<'c> {
        OverLines { compiled: Compiled::new(&case.rule, options_of(case.flags)), buffer: &case.subject }
    }

    /// Hands on what PCRE2 says of each line: below 0 where it does not match.
    fn each(&self, mut take: impl FnMut(c_int)) {
        let mut rest = black_box(self.buffer);
        while !rest.is_empty() {
            // Safety: the pointer goes with the length, and what `memchr` finds lies among the bytes.
            let end = unsafe {
                let found = memchr(rest.as_ptr().cast(), c_int::from(b'\n'), rest.len());
                if found.is_null() {
                    rest.len()
                } else {
                    found.cast::<u8>().offset_from_unsigned(rest.as_ptr())
                }
            };
            // Safety: as above, and the rule and its match data live as long as this.
            take(unsafe { pcre2_match_8(self.compiled.code, rest.as_ptr(), end, 0, 0, self.compiled.data, null_mut()) });
            rest = rest.get(end + 1..).unwrap_or(&[]);
        }
    }

    pub fn call(&self) {
        let mut matched = 0;
        self.each(|end| matched += u32::from(end >= 0));
        black_box(matched);
    }

    /// As `call`, and keeps what was found: a part for each line, as the library writes it, but for the steps.
    pub fn keep(&self, parts: &mut [u32]) {
        let mut parts = parts.chunks_exact_mut(PART_LENGTH);
        self.each(|end| {
            let part = parts.next().expect("a part for each line");
            if end >= 0 {
                part[..ROW_LENGTH].copy_from_slice(&self.compiled.first_row());
            }
            part[ROW_LENGTH..].copy_from_slice(&[u32::from(end < 0), 0, 0, 0]);
        });
    }

    /// The row of each line, or none where it is not matched.
    pub fn rows(&self) -> Vec<Option<Vec<u32>>> {
        let mut rows = Vec::new();
        self.each(|end| rows.push((end >= 0).then(|| self.compiled.first_row().to_vec())));
        rows
    }
}

extern "C" {
    fn memchr(bytes: *const c_void, byte: c_int, length: usize) -> *const c_void;
}

/// A compiled rule with room for its match.
struct Compiled {
    code: *mut c_void,
    data: *mut c_void,
}

impl Compiled {
    fn new(text: &[u8], options: u32) -> Compiled {
        let (mut error, mut at) = (0, 0);
        // Safety: the text's pointer goes with its length, and what is made here is freed by `drop`.
        unsafe {
            let code = pcre2_compile_8(text.as_ptr(), text.len(), options, &mut error, &mut at, null_mut());
            assert!(!code.is_null(), "PCRE2 refuses a rule of the benchmark: {error} at {at}");
            Compiled { code, data: pcre2_match_data_create_from_pattern_8(code, null_mut()) }
        }
    }

    /// The row of the match that was just made.
    fn first_row(&self) -> Row {
        // Safety: after a match the vector holds as many pairs as it counts.
        let offsets = unsafe {
            let pairs = pcre2_get_ovector_count_8(self.data) as usize;
            std::slice::from_raw_parts(pcre2_get_ovector_pointer_8(self.data), 2 * pairs)
        };
        row(offsets[0], offsets[1], &offsets[2..])
    }
}

impl Drop for Compiled {
    fn drop(&mut self) {
        // Safety: `new` made both, and nothing else frees them.
        unsafe {
            pcre2_match_data_free_8(self.data);
            pcre2_code_free_8(self.code);
        }
    }
}

/// PCRE2's name and version.
pub fn version() -> String {
    let mut text = [0_u8; 64];
    // Safety: PCRE2's version takes 24 bytes at most, with the zero behind it.
    unsafe { pcre2_config_8(CONFIG_VERSION, text.as_mut_ptr().cast()) };
    let words = CStr::from_bytes_until_nul(&text).expect("PCRE2 ends it with a zero").to_string_lossy();
    format!("PCRE2 {words}")
}
