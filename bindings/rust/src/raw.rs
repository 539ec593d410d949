//! The library's C interface as it stands: calls on areas that are lent, of any length. It is for a program that keeps areas of its own; all others have
//! [`Rule`](crate::Rule). The header, `include/terravisco.h`, says what each number means.
//!
//! ```
//! use terravisco::limits::{NAME_INDEX, ROW, RULE_AREA, WORK_PER_STEP};
//! use terravisco::raw::{call, Areas, Call, Question, ANSWER_LENGTH};
//!
//! const BUDGET: usize = 100;
//! let (mut rule, mut work, mut row, mut names) = ([0; RULE_AREA], [0; WORK_PER_STEP * BUDGET], [0; ROW], [0; NAME_INDEX]);
//! let mut answer = [0; ANSWER_LENGTH];
//! let question = Question { rule: br"\d+", flags: 0, subject: b"tank 7", budget: BUDGET as u32, proposal: b"" };
//! let areas = Areas { rule: &mut rule, work: &mut work, result: &mut row, names: &mut names, marks: &mut [] };
//! call(Call::Match, question, areas, &mut answer);
//! // Matched, from 5 to 6.
//! assert_eq!((answer[0], row[0], row[1]), (0, 5, 6));
//! ```
//!
//! An archive from before one of the calls can be linked too, so that times can be compared: `build.rs` sets `before_cards` and the like for it, and the
//! call panics. From before names it takes no name index either.
//!
//! What the library is owed is what slices are: a pointer that is never null and leads to as many elements as the length beside it says, and areas that
//! overlap nothing. It keeps no pointer, and nothing else is required of what is handed in.

pub use crate::limits::GROUPS;
use crate::limits::{ANSWER, CARD_ANSWER, EXPLAIN_ANSWER};

/// Which of the calls.
#[derive(Clone, Copy, PartialEq, Eq, Debug)]
pub enum Call {
    /// The first reading by priority from the leftmost start that has one.
    Match,
    /// Every reading.
    List,
    /// Why the subject does not match.
    Explain,
    /// Successive matches.
    Scan,
    /// A day's lines: the subject is a buffer of them.
    Batch,
    /// Whether a proposal is a reading.
    Check,
}

/// The most numbers that an answer has: those of an explanation. The other calls have the first six.
pub const ANSWER_LENGTH: usize = EXPLAIN_ANSWER;
/// The numbers of the answer when a card is written.
pub const WRITE_ANSWER_LENGTH: usize = ANSWER;
/// The numbers of the answer when a card is read.
pub const READ_ANSWER_LENGTH: usize = CARD_ANSWER;

/// Declares calls: all are given a question and two areas, and have an answer; what else they are lent stands in brackets, and before that what else
/// they are asked.
macro_rules! calls {
    ($($(#[$when:meta])* $name:ident$([$asked:ident])?($($(#[$since:meta])* $lent:ident: $number:ty),*);)*) => {
        extern "C" {
            $($(#[$when])* fn $name(
                rule: *const u8,
                rule_len: usize,
                flags: u32,
                subject: *const u8,
                subject_len: usize,
                budget: u32,
                $($asked: *const u8, _: usize,)?
                rule_area: *mut u32,
                rule_area_len: usize,
                work_area: *mut u32,
                work_area_len: usize,
                $($(#[$since])* $lent: *mut $number, $(#[$since])* _: usize,)*
                answer: *mut u32,
            );)*
        }
    };
}

calls! {
    terravisco_match(result: u32, #[cfg(not(before_names))] names: u8);
    terravisco_list(result: u32, #[cfg(not(before_names))] names: u8);
    #[cfg(not(before_explanations))]
    terravisco_explain(names: u8, marks: u8);
    #[cfg(not(before_scans))]
    terravisco_match_all(result: u32, names: u8);
    #[cfg(not(before_batches))]
    terravisco_match_lines(result: u32, names: u8);
    #[cfg(not(before_checks))]
    terravisco_check[proposal](result: u32, names: u8);
}

extern "C" {
    #[cfg(not(before_names))]
    fn terravisco_field(
        name: *const u8,
        name_len: usize,
        names: *const u8,
        names_len: usize,
        line: *const u8,
        line_len: usize,
        kind: u32,
        row: *const u32,
        row_len: usize,
        standing: *const u8,
        standing_len: usize,
        field: *mut u64,
    );
    #[cfg(not(before_cards))]
    fn terravisco_card_write(
        rule: *const u8,
        rule_len: usize,
        flags: u32,
        budget: u32,
        rule_area: *mut u32,
        rule_area_len: usize,
        card: *mut u8,
        card_len: usize,
        answer: *mut u32,
    );
    #[cfg(not(before_cards))]
    fn terravisco_card_read(
        card: *const u8,
        card_len: usize,
        rule_area: *mut u32,
        rule_area_len: usize,
        rule_bytes: *mut u8,
        rule_bytes_len: usize,
        answer: *mut u32,
    );
}

/// What a call is asked: the rule, its flags, the line, the budget of steps for each start, and for a check what is proposed.
#[derive(Clone, Copy)]
pub struct Question<'a> {
    /// A Perl regular expression, in bytes.
    pub rule: &'a [u8],
    /// A sum of flags.
    pub flags: u32,
    /// The line, or a buffer of lines.
    pub subject: &'a [u8],
    /// The steps for each start; those of a check along its one path.
    pub budget: u32,
    /// What is checked. No other call is given it.
    pub proposal: &'a [u8],
}

/// The areas that a call works in, and those that it writes rows, names and marks to.
pub struct Areas<'a> {
    /// For the compiled rule.
    pub rule: &'a mut [u32],
    /// For the walk.
    pub work: &'a mut [u32],
    /// For rows. It is not lent to an explanation.
    pub result: &'a mut [u32],
    /// The name index.
    pub names: &'a mut [u8],
    /// For an explanation's marks. It is lent to no other call.
    pub marks: &'a mut [u8],
}

/// Calls a function of the library, with these of the areas beside the two that every call is lent.
macro_rules! ask {
    ($function:ident($question:ident$([$asked:ident])?, $areas:ident: $($lent:ident),*) -> $answer:ident) => {
        // Safety: every pointer leads to as many elements as the length beside it says, and the borrows keep the areas apart.
        unsafe {
            $function(
                $question.rule.as_ptr(),
                $question.rule.len(),
                $question.flags,
                $question.subject.as_ptr(),
                $question.subject.len(),
                $question.budget,
                $($question.$asked.as_ptr(), $question.$asked.len(),)?
                $areas.rule.as_mut_ptr(),
                $areas.rule.len(),
                $areas.work.as_mut_ptr(),
                $areas.work.len(),
                $($areas.$lent.as_mut_ptr(), $areas.$lent.len(),)*
                $answer.as_mut_ptr(),
            )
        }
    };
}

/// Calls the library. The answer's numbers are written over those handed in, as many as the call has.
pub fn call(call: Call, question: Question, areas: Areas, answer: &mut [u32; ANSWER_LENGTH]) {
    match call {
        #[cfg(not(before_names))]
        Call::Match => ask!(terravisco_match(question, areas: result, names) -> answer),
        #[cfg(not(before_names))]
        Call::List => ask!(terravisco_list(question, areas: result, names) -> answer),
        #[cfg(before_names)]
        Call::Match => ask!(terravisco_match(question, areas: result) -> answer),
        #[cfg(before_names)]
        Call::List => ask!(terravisco_list(question, areas: result) -> answer),
        #[cfg(not(before_explanations))]
        Call::Explain => ask!(terravisco_explain(question, areas: names, marks) -> answer),
        #[cfg(not(before_scans))]
        Call::Scan => ask!(terravisco_match_all(question, areas: result, names) -> answer),
        #[cfg(not(before_batches))]
        Call::Batch => ask!(terravisco_match_lines(question, areas: result, names) -> answer),
        #[cfg(not(before_checks))]
        Call::Check => ask!(terravisco_check(question[proposal], areas: result, names) -> answer),
        #[cfg(any(before_explanations, before_scans, before_batches, before_checks))]
        _ => panic!("this library is from before that call: {call:?}"),
    }
}

/// What a field is looked up by: its name, the index that a call filled, and the line with that call's answer, 0 for matched, and its row; and the
/// text that stands where the line has no such field.
#[derive(Clone, Copy)]
pub struct Lookup<'a> {
    /// The field's name.
    pub name: &'a [u8],
    /// The name index.
    pub names: &'a [u8],
    /// The line that the answer is of.
    pub line: &'a [u8],
    /// 0 where the line matched.
    pub kind: u32,
    /// The row of the match.
    pub row: &'a [u32],
    /// What stands for a group that is not set.
    pub standing: &'a [u8],
}

/// Looks a field up: 0 for the line or 1 for the standing text, and from where to where in it. The three numbers are written over those handed in.
#[cfg(not(before_names))]
pub fn field(lookup: Lookup, field: &mut [u64; 3]) {
    // Safety: every pointer leads to as many elements as the length beside it says.
    unsafe {
        terravisco_field(
            lookup.name.as_ptr(),
            lookup.name.len(),
            lookup.names.as_ptr(),
            lookup.names.len(),
            lookup.line.as_ptr(),
            lookup.line.len(),
            lookup.kind,
            lookup.row.as_ptr(),
            lookup.row.len(),
            lookup.standing.as_ptr(),
            lookup.standing.len(),
            field.as_mut_ptr(),
        );
    }
}

/// Panics: this library is from before the lookup.
#[cfg(before_names)]
pub fn field(_: Lookup, _: &mut [u64; 3]) {
    panic!("this library is from before the lookup");
}

/// What is to be written on a card.
#[derive(Clone, Copy)]
pub struct CardText<'a> {
    /// The rule's bytes.
    pub rule: &'a [u8],
    /// A sum of flags.
    pub flags: u32,
    /// The steps for each start.
    pub budget: u32,
}

/// Writes a card to the front of the area for it. The answer's numbers are written over those handed in.
#[cfg(not(before_cards))]
pub fn write_card(text: CardText, rule_area: &mut [u32], card: &mut [u8], answer: &mut [u32; WRITE_ANSWER_LENGTH]) {
    // Safety: every pointer leads to as many elements as the length beside it says, and the borrows keep the areas apart.
    unsafe {
        terravisco_card_write(
            text.rule.as_ptr(),
            text.rule.len(),
            text.flags,
            text.budget,
            rule_area.as_mut_ptr(),
            rule_area.len(),
            card.as_mut_ptr(),
            card.len(),
            answer.as_mut_ptr(),
        );
    }
}

/// Reads a card; its rule goes to the front of the area for the rule's bytes. The answer's numbers are written over those handed in.
#[cfg(not(before_cards))]
pub fn read_card(card: &[u8], rule_area: &mut [u32], rule_bytes: &mut [u8], answer: &mut [u32; READ_ANSWER_LENGTH]) {
    // Safety: every pointer leads to as many elements as the length beside it says, and the borrows keep the areas apart.
    unsafe {
        terravisco_card_read(
            card.as_ptr(),
            card.len(),
            rule_area.as_mut_ptr(),
            rule_area.len(),
            rule_bytes.as_mut_ptr(),
            rule_bytes.len(),
            answer.as_mut_ptr(),
        );
    }
}

/// Panics: this library is from before rule cards.
#[cfg(before_cards)]
pub fn write_card(_: CardText, _: &mut [u32], _: &mut [u8], _: &mut [u32; WRITE_ANSWER_LENGTH]) {
    panic!("this library is from before rule cards");
}

/// Panics: this library is from before rule cards.
#[cfg(before_cards)]
pub fn read_card(_: &[u8], _: &mut [u32], _: &mut [u8], _: &mut [u32; READ_ANSWER_LENGTH]) {
    panic!("this library is from before rule cards");
}
