//! An independent matcher, written from documents 01 and 02 and the readings of their open points alone. It shares no line with the library and is
//! simple rather than fast: what it answers is what the library's answers are held against.

mod batch;
mod calls;
pub mod cards;
pub mod check;
mod classes;
mod escapes;
mod explain;
pub mod lookup;
mod names;
mod profile;
mod reader;
mod scan;
mod sets;
pub mod tree;
mod walk;

pub use batch::{lines, Part, PART_LENGTH};
pub use calls::{
    answer, steps_at, stretches_at, Answer, Ending, Inputs, Row, Walks, LONGEST_RULE, LONGEST_SUBJECT, ROW_LENGTH, RULE_AREA, UNSET, WORK_PER_STEP,
};
pub use explain::{Attempt, Explanation};
pub use names::{named, Index, ENTRY_LENGTH, INDEX_LENGTH, LONGEST_NAME};
pub use reader::{read, Refusal, ALL_FLAGS, FLAG_D, FLAG_I, FLAG_M, FLAG_S, FLAG_X, MOST_GROUPS};
pub use scan::{Outcome, Tries};
pub use sets::ByteSet;
pub use walk::Miss;
