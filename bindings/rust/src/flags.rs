//! The flags of a rule.

use std::error::Error;
use std::fmt;
use std::ops::{BitOr, BitOrAssign};
use std::str::FromStr;

/// The flags of a rule, as many as are wanted: `Flags::I | Flags::X`, or by their letters, as the programs take them.
///
/// ```
/// use terravisco::Flags;
///
/// assert_eq!("ix".parse(), Ok(Flags::I | Flags::X));
/// assert_eq!("-".parse(), Ok(Flags::NONE));
/// assert!("y".parse::<Flags>().is_err());
/// assert_eq!((Flags::S | Flags::D).bits(), 17);
/// ```
#[derive(Clone, Copy, PartialEq, Eq, Hash, Default, Debug)]
pub struct Flags(u32);

impl Flags {
    /// No flag.
    pub const NONE: Flags = Flags(0);
    /// `.` takes a newline too.
    pub const S: Flags = Flags(1);
    /// `^` and `$` hold at every newline.
    pub const M: Flags = Flags(2);
    /// A to Z and a to z match each other.
    pub const I: Flags = Flags(4);
    /// Blanks in the rule, and `#` up to the newline, are skipped.
    pub const X: Flags = Flags(8);
    /// The depot profile: a narrower rule, without references, without repeats that could go round without taking bytes, and with ranges of digits, of
    /// upper or of lower letters alone. What it takes is answered as without it.
    pub const D: Flags = Flags(16);

    const LETTERS: [(char, Flags); 5] = [('s', Flags::S), ('m', Flags::M), ('i', Flags::I), ('x', Flags::X), ('D', Flags::D)];

    /// Flags by their sum. A rule with one that there is not is refused, by 3.
    pub const fn from_bits(bits: u32) -> Flags {
        Flags(bits)
    }

    /// Their sum.
    pub const fn bits(self) -> u32 {
        self.0
    }

    /// Whether these have all of the others.
    pub const fn contains(self, others: Flags) -> bool {
        self.0 & others.0 == others.0
    }
}

impl BitOr for Flags {
    type Output = Flags;

    fn bitor(self, other: Flags) -> Flags {
        Flags(self.0 | other.0)
    }
}

impl BitOrAssign for Flags {
    fn bitor_assign(&mut self, other: Flags) {
        *self = *self | other;
    }
}

impl FromStr for Flags {
    type Err = UnknownLetter;

    /// Flags by their letters out of `s`, `m`, `i`, `x` and `D`; `-` stands for none.
    fn from_str(letters: &str) -> Result<Flags, UnknownLetter> {
        let letters = if letters == "-" { "" } else { letters };
        letters.chars().try_fold(Flags::NONE, |flags, letter| {
            let found = Flags::LETTERS.iter().find(|(known, _)| *known == letter);
            found.map(|&(_, flag)| flags | flag).ok_or(UnknownLetter { letter })
        })
    }
}

/// A letter that is no flag.
#[derive(Clone, Copy, PartialEq, Eq, Debug)]
pub struct UnknownLetter {
    letter: char,
}

impl fmt::Display for UnknownLetter {
    fn fmt(&self, out: &mut fmt::Formatter) -> fmt::Result {
        write!(out, "flags are letters out of s, m, i, x, D, or - for none: {:?}", self.letter)
    }
}

impl Error for UnknownLetter {}
