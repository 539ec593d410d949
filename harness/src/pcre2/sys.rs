//! What the harness uses of PCRE2's C interface, for bytes.

use std::ffi::{c_int, c_void};

pub const ANCHORED: u32 = 0x8000_0000;
pub const CASELESS: u32 = 0x0000_0008;
pub const DOTALL: u32 = 0x0000_0020;
pub const EXTENDED: u32 = 0x0000_0080;
pub const MULTILINE: u32 = 0x0000_0400;
pub const NEVER_UTF: u32 = 0x0000_1000;
pub const NO_AUTO_POSSESS: u32 = 0x0000_4000;
pub const NO_DOTSTAR_ANCHOR: u32 = 0x0000_8000;
pub const NO_START_OPTIMIZE: u32 = 0x0001_0000;
/// An option of a match: "an empty string at the start of the subject", at the offset from which it is searched, "is not valid".
pub const NOTEMPTY_ATSTART: u32 = 0x0000_0008;
pub const NEWLINE_LF: u32 = 2;
pub const NO_MATCH: c_int = -1;
pub const CONFIG_VERSION: u32 = 11;
pub const INFO_NAME_COUNT: u32 = 17;
pub const INFO_NAME_ENTRY_SIZE: u32 = 18;
pub const INFO_NAME_TABLE: u32 = 19;
/// What stands in an offset of a group that is not set.
pub const UNSET_OFFSET: usize = usize::MAX;

/// The beginning of `pcre2_callout_block`, version 0.
#[repr(C)]
pub struct Callout {
    pub version: u32,
    pub callout_number: u32,
    pub capture_top: u32,
    pub capture_last: u32,
    pub offset_vector: *const usize,
    pub mark: *const u8,
    pub subject: *const u8,
    pub subject_length: usize,
    pub start_match: usize,
    pub current_position: usize,
}

pub type Handler = extern "C" fn(*const Callout, *mut c_void) -> c_int;

extern "C" {
    pub fn pcre2_config_8(what: u32, place: *mut c_void) -> c_int;
    pub fn pcre2_compile_context_create_8(general: *mut c_void) -> *mut c_void;
    pub fn pcre2_compile_context_free_8(context: *mut c_void);
    pub fn pcre2_set_newline_8(context: *mut c_void, newline: u32) -> c_int;
    pub fn pcre2_compile_8(pattern: *const u8, length: usize, options: u32, error: *mut c_int, at: *mut usize, context: *mut c_void) -> *mut c_void;
    pub fn pcre2_pattern_info_8(code: *const c_void, what: u32, place: *mut c_void) -> c_int;
    pub fn pcre2_code_free_8(code: *mut c_void);
    pub fn pcre2_match_context_create_8(general: *mut c_void) -> *mut c_void;
    pub fn pcre2_match_context_free_8(context: *mut c_void);
    pub fn pcre2_set_match_limit_8(context: *mut c_void, limit: u32) -> c_int;
    pub fn pcre2_set_callout_8(context: *mut c_void, handler: Option<Handler>, data: *mut c_void) -> c_int;
    pub fn pcre2_match_data_create_from_pattern_8(code: *const c_void, general: *mut c_void) -> *mut c_void;
    pub fn pcre2_match_data_free_8(data: *mut c_void);
    pub fn pcre2_get_ovector_pointer_8(data: *mut c_void) -> *const usize;
    pub fn pcre2_get_ovector_count_8(data: *mut c_void) -> u32;
    pub fn pcre2_match_8(
        code: *const c_void,
        subject: *const u8,
        length: usize,
        start: usize,
        options: u32,
        data: *mut c_void,
        context: *mut c_void,
    ) -> c_int;
}

/// The groups' offsets at a callout, two for each group up to the last that is set.
///
/// # Safety
/// The block is the one that PCRE2 hands to a handler, and the offsets are not used after that handler returns.
pub unsafe fn group_offsets(block: &Callout) -> &[usize] {
    if block.offset_vector.is_null() || block.capture_top < 2 {
        return &[];
    }
    // Pairs below `capture_top` are there; the first one stands for the whole match and is not set yet.
    std::slice::from_raw_parts(block.offset_vector.add(2), 2 * (block.capture_top as usize - 1))
}
