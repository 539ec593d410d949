//! Escapes: what a backslash and the bytes behind it stand for, outside a class and in one.

use super::reader::{Reader, Refusal};
use super::sets::{self, ByteSet};
use super::tree::Place;

/// What an escape stands for. A reference keeps its group's number, or none where counting back finds no group or N is 0.
pub enum Escape {
    Byte(u8),
    Set(ByteSet),
    Place(Place),
    Reference(Option<u64>),
    /// `\R`.
    LineBreak,
}

/// "10: an escape's backslash is the rule's last byte", "11: escape not held here", "12: escape's number or letter missing, of another
/// form, unclosed or over its limit". The place of each is the backslash.
const LAST_BYTE: u32 = 10;
const NOT_HELD: u32 = 11;
const BAD_NUMBER: u32 = 12;

/// An escape as far as it means the same in a class and outside: it is read, or its letter and its backslash's place are known.
enum Begun {
    Read(Escape),
    Letter(u8, usize),
}

impl Reader<'_> {
    fn begin_escape(&mut self) -> Result<Begun, Refusal> {
        let place = self.at;
        self.at += 1;
        let Some(letter) = self.take() else { return Err(Refusal { number: LAST_BYTE, place }) };
        if let Some(byte) = self.byte_escape(letter, place)? {
            return Ok(Begun::Read(Escape::Byte(byte)));
        }
        if let Some(set) = sets::by_escape(letter) {
            return Ok(Begun::Read(Escape::Set(set)));
        }
        Ok(Begun::Letter(letter, place))
    }

    /// Reads the escape whose backslash is the next byte, outside a class.
    pub fn escape_outside(&mut self) -> Result<Escape, Refusal> {
        let (letter, place) = match self.begin_escape()? {
            Begun::Read(escape) => return Ok(escape),
            Begun::Letter(letter, place) => (letter, place),
        };
        match letter {
            b'N' => Ok(Escape::Set(ByteSet::one(0x0A).complement())),
            b'R' => Ok(Escape::LineBreak),
            b'A' => Ok(Escape::Place(Place::Start)),
            b'z' => Ok(Escape::Place(Place::End)),
            b'Z' => Ok(Escape::Place(Place::EndOrLastNewline)),
            b'b' => Ok(Escape::Place(Place::WordEdge)),
            b'B' => Ok(Escape::Place(Place::NoWordEdge)),
            b'0' => {
                let more = self.digits(8, 2);
                Ok(Escape::Byte(u8::try_from(more.unwrap_or(0)).expect("two octal digits are below 64")))
            }
            b'1'..=b'9' => {
                self.at -= 1;
                Ok(Escape::Reference(self.digits(10, usize::MAX)))
            }
            b'g' => self.group_reference(place),
            b'k' => self.name_reference(place),
            _ => Err(Refusal { number: NOT_HELD, place }),
        }
    }

    /// Reads the escape whose backslash is the next byte, in a class: a byte or a set.
    pub fn escape_in_class(&mut self) -> Result<Escape, Refusal> {
        let (letter, place) = match self.begin_escape()? {
            Begun::Read(escape) => return Ok(escape),
            Begun::Letter(letter, place) => (letter, place),
        };
        match letter {
            b'b' => Ok(Escape::Byte(0x08)),
            b'0'..=b'7' => {
                self.at -= 1;
                let value = self.digits(8, 3);
                Ok(Escape::Byte(byte_of(value, place)?))
            }
            _ => Err(Refusal { number: NOT_HELD, place }),
        }
    }

    /// The escapes for one byte that are the same in a class and outside: escaped punctuation, `\a` and the like, `\x`, `\o`, `\c`.
    fn byte_escape(&mut self, letter: u8, place: usize) -> Result<Option<u8>, Refusal> {
        if !letter.is_ascii_alphanumeric() && letter != b'_' {
            return Ok(Some(letter));
        }
        Ok(Some(match letter {
            b'a' => 0x07,
            b'e' => 0x1B,
            b'f' => 0x0C,
            b'n' => 0x0A,
            b'r' => 0x0D,
            b't' => 0x09,
            b'x' if self.peek() == Some(b'{') => self.braced(16, place)?,
            b'x' => self.two_hex_digits(place)?,
            b'o' => self.braced(8, place)?,
            b'c' => self.control(place)?,
            _ => return Ok(None),
        }))
    }

    /// "`\x` takes exactly two hex digits".
    fn two_hex_digits(&mut self, place: usize) -> Result<u8, Refusal> {
        let from = self.at;
        let value = self.digits(16, 2);
        if self.at - from < 2 {
            return Err(Refusal { number: BAD_NUMBER, place });
        }
        byte_of(value, place)
    }

    /// "`\x{..}` and `\o{..}` take one or more digits and a value up to 255".
    fn braced(&mut self, base: u32, place: usize) -> Result<u8, Refusal> {
        if self.take() != Some(b'{') {
            return Err(Refusal { number: BAD_NUMBER, place });
        }
        let value = self.digits(base, usize::MAX);
        if self.take() != Some(b'}') {
            return Err(Refusal { number: BAD_NUMBER, place });
        }
        byte_of(value, place)
    }

    /// "`\c` takes a letter (upper case is meant) or one of `@ [ ] ^ _ ?`; the value is that byte with the bit worth 64 flipped".
    fn control(&mut self, place: usize) -> Result<u8, Refusal> {
        match self.take() {
            Some(letter) if letter.is_ascii_alphabetic() => Ok(letter.to_ascii_uppercase() ^ 64),
            Some(mark) if b"@[]^_?".contains(&mark) => Ok(mark ^ 64),
            _ => Err(Refusal { number: BAD_NUMBER, place }),
        }
    }

    /// "`\gN`, `\g{N}`, `\g-N`, `\g{-N}`, N a whole run too, are references; -N counts back from the groups opened so far".
    /// 02: "12 spares `\g{` before a letter or underscore", behind which a name is due.
    fn group_reference(&mut self, place: usize) -> Result<Escape, Refusal> {
        let braces = self.skip(b'{');
        if braces && self.peek().is_some_and(|byte| byte.is_ascii_alphabetic() || byte == b'_') {
            return self.named_up_to(b'}', place);
        }
        let back = self.skip(b'-');
        let Some(number) = self.digits(10, usize::MAX) else { return Err(Refusal { number: BAD_NUMBER, place }) };
        if braces && !self.skip(b'}') {
            return Err(Refusal { number: BAD_NUMBER, place });
        }
        if !back {
            return Ok(Escape::Reference(Some(number)));
        }
        let opened = self.names.len() as u64;
        let group = if number == 0 { None } else { (opened + 1).checked_sub(number) };
        Ok(Escape::Reference(group))
    }
}

/// The byte that a number is, if it was there and is at most 255.
fn byte_of(value: Option<u64>, place: usize) -> Result<u8, Refusal> {
    value.and_then(|number| u8::try_from(number).ok()).ok_or(Refusal { number: BAD_NUMBER, place })
}
