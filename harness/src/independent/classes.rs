//! Bracketed classes: document 01, "Bracketed classes", and what `i` does to them by document 02.

use super::escapes::Escape;
use super::profile::{is_plain_range, MIXED_RANGE};
use super::reader::{Reader, Refusal};
use super::sets::{self, ByteSet};

/// "14: class not closed", "15: bad range", "16: named set unknown".
const NOT_CLOSED: u32 = 14;
const BAD_RANGE: u32 = 15;
const UNKNOWN_SET: u32 = 16;

/// One member of a class: a byte, which can be a range's end, or a set, which can not.
enum Member {
    Byte(u8),
    Set(ByteSet),
}

impl Reader<'_> {
    /// Reads the class whose `[` is the next byte.
    pub fn class(&mut self) -> Result<ByteSet, Refusal> {
        let opening = self.at;
        self.at += 1;
        let complemented = self.skip(b'^');
        let first = self.at;
        let mut marks = ByteSet::empty();
        loop {
            match self.peek() {
                None => return Err(Refusal { number: NOT_CLOSED, place: opening }),
                // "`]` first (or just after that `^`) is literal"
                Some(b']') if self.at != first => break,
                Some(_) => self.member_or_range(opening, &mut marks)?,
            }
        }
        self.at += 1;
        // 02: "a negated class or named set is folded first and complemented after"
        let marks = self.folded(marks);
        Ok(if complemented { marks.complement() } else { marks })
    }

    /// Reads one member, or two with a `-` between them that makes a range.
    ///
    /// A `-` met here at the front is first, or last, or right after a range: in all three it is a literal. One that stands behind a
    /// member makes a range, unless it is last.
    fn member_or_range(&mut self, opening: usize, marks: &mut ByteSet) -> Result<(), Refusal> {
        let place = self.at;
        let low = self.member()?;
        if self.peek() != Some(b'-') || self.bytes.get(self.at + 1) == Some(&b']') {
            match low {
                Member::Byte(byte) => marks.add_range(byte, byte),
                Member::Set(set) => marks.add_all(&set),
            }
            return Ok(());
        }
        self.at += 1;
        if self.peek().is_none() {
            return Err(Refusal { number: NOT_CLOSED, place: opening });
        }
        // "refused once both its ends have been read soundly"
        let high = self.member()?;
        match (low, high) {
            // 02 k): "29 is met left to right, after 15 on the same byte"
            (Member::Byte(low), Member::Byte(high)) if low <= high && self.is_narrow() && !is_plain_range(low, high) => {
                Err(Refusal { number: MIXED_RANGE, place })
            }
            (Member::Byte(low), Member::Byte(high)) if low <= high => {
                marks.add_range(low, high);
                Ok(())
            }
            _ => Err(Refusal { number: BAD_RANGE, place }),
        }
    }

    fn member(&mut self) -> Result<Member, Refusal> {
        match self.peek().expect("the callers have looked") {
            b'\\' => Ok(match self.escape_in_class()? {
                Escape::Byte(byte) => Member::Byte(byte),
                Escape::Set(set) => Member::Set(set),
                Escape::Place(_) | Escape::Reference(_) | Escape::LineBreak => unreachable!("none of these is an escape of a class"),
            }),
            b'[' => self.named_set_or_bracket(),
            byte => {
                self.at += 1;
                Ok(Member::Byte(byte))
            }
        }
    }

    /// "`[:`, an optional `^` (the complement), lower-case letters (maybe none) and `:]` is a named set; any other `[` is literal."
    fn named_set_or_bracket(&mut self) -> Result<Member, Refusal> {
        let place = self.at;
        self.at += 1;
        let after_bracket = self.at;
        if self.skip(b':') {
            let complemented = self.skip(b'^');
            let from = self.at;
            while self.peek().is_some_and(|byte| byte.is_ascii_lowercase()) {
                self.at += 1;
            }
            let name = &self.bytes[from..self.at];
            if self.skip(b':') && self.skip(b']') {
                let set = self.folded(sets::by_name(name).ok_or(Refusal { number: UNKNOWN_SET, place })?);
                return Ok(Member::Set(if complemented { set.complement() } else { set }));
            }
        }
        self.at = after_bracket;
        Ok(Member::Byte(b'['))
    }
}
