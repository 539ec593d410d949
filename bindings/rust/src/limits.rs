//! The numbers of include/terravisco.h, each named once. `tests/header.rs` holds them to it.

/// The most capturing groups that a rule can have. The lengths of rows, parts and name indices follow from it.
pub const GROUPS: usize = 64;
/// The numbers of a row: start, end, and a pair for each group.
pub const ROW: usize = 2 + 2 * GROUPS;
/// The numbers that a day's lines take for each of them: a row and an outcome.
pub const PART: usize = ROW + 4;
/// The bytes of a group in a name index: the length of its name, and the name.
pub const NAME_ENTRY: usize = 17;
/// The bytes of a name index.
pub const NAME_INDEX: usize = GROUPS * NAME_ENTRY;
/// The numbers of the area that a rule is compiled into.
pub const RULE_AREA: usize = 16_384;
/// The numbers of the work area for each step of the budget.
pub const WORK_PER_STEP: usize = 16;
/// The most bytes that a rule can have.
pub const LONGEST_RULE: usize = 1_000;
/// The most bytes that a line can have.
pub const LONGEST_LINE: usize = 65_535;
/// The largest budget.
pub const MOST_BUDGET: u32 = 100_000;
/// The largest budget that a rule card can hold.
pub const MOST_CARD_BUDGET: u32 = 65_535;
/// The bytes of the area that a card is written to.
pub const CARD: usize = 1_064;
/// The bytes of the area that the rule of a card is written to.
pub const RULE_BYTES: usize = 1_000;
/// Both numbers of a group that is not set.
pub const UNSET: u32 = u32::MAX;
/// The numbers of the answer to a match, a listing, successive matches and a day's lines, and where a card is written.
pub const ANSWER: usize = 6;
/// The numbers of the answer to an explanation, the most that an answer has.
pub const EXPLAIN_ANSWER: usize = 11;
/// The numbers of the answer where a card is read.
pub const CARD_ANSWER: usize = 9;
