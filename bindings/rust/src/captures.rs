//! A match with what its groups took.

use std::fmt;
use std::ops::{Index, Range};
use std::str::Utf8Error;
use std::sync::Arc;

use crate::limits::UNSET;
use crate::raw::{self, Lookup};
use crate::source::Source;

/// One way in which a rule fits a line: where it begins and ends, and what each group took.
///
/// ```
/// use terravisco::{Flags, Rule};
///
/// let rule = Rule::new(r"(?<amount>\d+) (L|kg)(?: of (?<what>\w+))?", Flags::NONE)?;
/// let captures = rule.captures("tank 7: 820 L")?.expect("it fits");
/// assert_eq!(captures.range(), 8..13);
/// assert_eq!(&captures[0], b"820 L");
/// assert_eq!(&captures["amount"], b"820");
/// assert_eq!(captures.get(2).map(|unit| unit.as_bytes()), Some(&b"L"[..]));
/// // A group that is not set, and what stands for it.
/// assert!(captures.name("what").is_none());
/// assert_eq!(captures.field("what", b"milk"), Some(&b"milk"[..]));
/// # Ok::<(), Box<dyn std::error::Error>>(())
/// ```
#[derive(Clone)]
pub struct Captures<'t> {
    source: Arc<Source>,
    line: &'t [u8],
    /// As the library wrote it, whole: the lookup of a field asks for that.
    row: Box<[u32]>,
}

impl<'t> Captures<'t> {
    pub(crate) fn new(source: &Arc<Source>, line: &'t [u8], row: &[u32]) -> Captures<'t> {
        Captures { source: Arc::clone(source), line, row: row.into() }
    }

    /// The whole match.
    pub fn whole(&self) -> Match<'t> {
        Match { line: self.line, start: self.row[0] as usize, end: self.row[1] as usize }
    }

    /// From where to where the match goes in the line.
    pub fn range(&self) -> Range<usize> {
        self.whole().range()
    }

    /// What the group of this number took, or for 0 the whole match. None if the group is not set, or if the rule has no such group.
    pub fn get(&self, group: usize) -> Option<Match<'t>> {
        if group > self.source.groups {
            return None;
        }
        let (start, end) = (self.row[2 * group], self.row[2 * group + 1]);
        (start != UNSET).then_some(Match { line: self.line, start: start as usize, end: end as usize })
    }

    /// What the group of this name took. None if it is not set, or if the rule has no such name.
    pub fn name(&self, name: &str) -> Option<Match<'t>> {
        self.get(self.source.number(name)?)
    }

    /// The field of this name: what the group took, or the standing text if it is not set. None only if the rule has no such name.
    pub fn field<'f>(&self, name: &str, standing: &'f [u8]) -> Option<&'f [u8]>
    where
        't: 'f,
    {
        self.source.number(name)?;
        let lookup = Lookup { name: name.as_bytes(), names: &self.source.names, line: self.line, kind: 0, row: &self.row, standing };
        let mut field = [0; 3];
        raw::field(lookup, &mut field);
        let [part, from, to] = field;
        let text = if part == 0 { self.line } else { standing };
        Some(&text[from as usize..to as usize])
    }

    /// The whole match and what each group took, in their order; none for one that is not set.
    pub fn iter(&self) -> impl Iterator<Item = Option<Match<'t>>> + '_ {
        (0..self.len()).map(|group| self.get(group))
    }

    /// How many groups the rule has, the whole match counted too: never 0.
    #[allow(clippy::len_without_is_empty)] // as in the regex crate
    pub fn len(&self) -> usize {
        1 + self.source.groups
    }

    /// The line.
    pub fn line(&self) -> &'t [u8] {
        self.line
    }
}

/// What a group took, by its number. It panics if there is no such group or it is not set, as that of the regex crate does.
impl Index<usize> for Captures<'_> {
    type Output = [u8];

    fn index(&self, group: usize) -> &[u8] {
        self.get(group).unwrap_or_else(|| panic!("no group {group} is set")).as_bytes()
    }
}

/// What a group took, by its name. It panics if there is no such group or it is not set.
impl Index<&str> for Captures<'_> {
    type Output = [u8];

    fn index(&self, name: &str) -> &[u8] {
        self.name(name).unwrap_or_else(|| panic!("no group `{name}` is set")).as_bytes()
    }
}

/// `start-end` and, for each group that is set, `group:start-end`.
impl fmt::Debug for Captures<'_> {
    fn fmt(&self, out: &mut fmt::Formatter) -> fmt::Result {
        write!(out, "{}-{}", self.range().start, self.range().end)?;
        for (number, group) in (1..).zip(self.iter().skip(1)) {
            if let Some(Match { start, end, .. }) = group {
                write!(out, " {number}:{start}-{end}")?;
            }
        }
        Ok(())
    }
}

/// A part of a line: a match, or what a group took.
#[derive(Clone, Copy, PartialEq, Eq)]
pub struct Match<'t> {
    line: &'t [u8],
    start: usize,
    end: usize,
}

impl<'t> Match<'t> {
    /// Where it begins in the line, in bytes from 0.
    pub fn start(&self) -> usize {
        self.start
    }

    /// Where it ends: behind its last byte.
    pub fn end(&self) -> usize {
        self.end
    }

    /// From where to where it goes.
    pub fn range(&self) -> Range<usize> {
        self.start..self.end
    }

    /// Its bytes.
    pub fn as_bytes(&self) -> &'t [u8] {
        &self.line[self.range()]
    }

    /// Its text, where that is UTF-8: a rule takes bytes, and may cut a sign in two.
    pub fn as_str(&self) -> Result<&'t str, Utf8Error> {
        std::str::from_utf8(self.as_bytes())
    }

    /// How many bytes it has.
    pub fn len(&self) -> usize {
        self.end - self.start
    }

    /// Whether it has none.
    pub fn is_empty(&self) -> bool {
        self.start == self.end
    }
}

impl fmt::Debug for Match<'_> {
    fn fmt(&self, out: &mut fmt::Formatter) -> fmt::Result {
        write!(out, "{}-{} {:?}", self.start, self.end, String::from_utf8_lossy(self.as_bytes()))
    }
}
