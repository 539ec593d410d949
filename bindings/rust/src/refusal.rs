//! Why a rule, a line or a card is refused: the documents' numbers, and what each means.

use std::fmt;

/// A refusal: its reason, and the place in the rule that it is about.
#[derive(Clone, Copy, PartialEq, Eq, Debug)]
pub struct Refusal {
    /// What is wrong.
    pub reason: Reason,
    /// Counted in bytes from 0; 0 for what is not about a place in the rule: reasons 1 to 9, and those of a rule card, 30 to 34.
    pub place: usize,
}

impl Refusal {
    /// What the library told by these two numbers.
    pub(crate) fn told(number: u32, place: u32) -> Refusal {
        let reason = Reason::from_number(number).expect("the library gives only the numbers of its table");
        Refusal { reason, place: place as usize }
    }
}

impl fmt::Display for Refusal {
    fn fmt(&self, out: &mut fmt::Formatter) -> fmt::Result {
        write!(out, "{} at {}: {}", self.reason.number(), self.place, self.reason)
    }
}

/// Declares the reasons, each with its number and its sentence. The sentences are those that the programs write.
macro_rules! reasons {
    ($($name:ident = $number:literal, $sentence:literal;)*) => {
        /// What is wrong. The numbers are the documents', and the guide's table has a remedy for each.
        #[derive(Clone, Copy, PartialEq, Eq, Debug)]
        #[non_exhaustive]
        pub enum Reason {
            $(#[doc = concat!($number, ": ", $sentence, ".")] $name = $number,)*
        }

        /// Every reason with its sentence.
        const SENTENCES: &[(Reason, &str)] = &[$((Reason::$name, $sentence)),*];
    };
}

reasons! {
    RuleTooLong = 1, "the rule has more than 1000 bytes";
    LineTooLong = 2, "the line has more than 65535 bytes";
    UnknownFlag = 3, "a flag that there is not";
    BudgetTooGreat = 4, "the budget is over 100000, or over 65535 for a card";
    RuleAreaShort = 5, "the rule area is too short";
    WorkAreaShort = 6, "the work area is too short";
    ResultAreaShort = 7, "the result area is too short";
    NameIndexShort = 8, "the name index is too short";
    CardAreaShort = 9, "the area for the card, or for its rule, is too short";
    LoneBackslash = 10, "a backslash with nothing behind it";
    EscapeNotHeld = 11, "this escape may not stand here";
    EscapeIllFormed = 12, "the number or letter of this escape is missing, malformed, unclosed or too large";
    NoSuchGroup = 13, "a reference to a group that the rule has not";
    ClassNotClosed = 14, "this class is not closed by ]";
    BadRange = 15, "a range that runs backwards, or with a set of bytes at one of its ends";
    UnknownSet = 16, "no set has this name";
    NothingToRepeat = 17, "a repeat with nothing before it that it could repeat";
    BadBraces = 18, "a { that begins no repeat, or a repeat over 255 or with its bounds the wrong way round";
    RepeatOnRepeat = 19, "a repeat of a repeat";
    GroupNotClosed = 20, "this bracket is not closed by )";
    GroupNotOpened = 21, "a ) that closes nothing";
    UnknownOpening = 22, "this (? begins no group that a rule may hold";
    TooManyGroups = 23, "one group too many; a rule has at most 64";
    TooDeep = 24, "the 25th bracket inside another; they nest at most 24 deep";
    NameIllFormed = 25, "a name is missing, malformed or not closed";
    NameUsedTwice = 26, "this name is used twice";
    ReferenceInProfile = 27, "a reference, which the depot profile does not allow";
    EmptyRoundsInProfile = 28, "a repeat without upper bound of what may take no bytes, which the depot profile does not allow";
    RangeInProfile = 29, "a range whose ends are not two digits, two upper or two lower letters, as the depot profile wants them";
    UnknownRecord = 30, "a record begins with a byte that is none of the kinds 1, 2 and 3";
    CardCutShort = 31, "it ends before its last record does";
    RecordsOutOfOrder = 32, "its records are in the wrong order, or not as many as the rule's length needs";
    CardNotClean = 33, "a byte that pads the rule is not 00, or bytes stand behind the last record";
    OtherGroupNumber = 34, "the number of groups that it says is not the rule's";
    NotFollowed = 35, "this looks ahead or holds on, which a check does not follow";
    TooManyBranches = 36, "the 257th branch begins behind this bar; a check follows at most 256";
}

/// The first reason that is about a place in the rule; those before are about the call.
const FIRST_IN_RULE: u32 = 10;

impl Reason {
    /// The documents' number of the reason.
    pub fn number(self) -> u32 {
        self as u32
    }

    /// The reason of this number, if there is one.
    pub fn from_number(number: u32) -> Option<Reason> {
        SENTENCES.iter().map(|&(reason, _)| reason).find(|reason| reason.number() == number)
    }

    /// What the reason says, without a place.
    pub fn sentence(self) -> &'static str {
        SENTENCES.iter().find(|(reason, _)| *reason == self).map_or("", |(_, sentence)| sentence)
    }

    pub(crate) fn has_place(self) -> bool {
        self.number() >= FIRST_IN_RULE
    }
}

impl fmt::Display for Reason {
    fn fmt(&self, out: &mut fmt::Formatter) -> fmt::Result {
        out.write_str(self.sentence())
    }
}
