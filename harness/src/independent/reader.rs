//! The rule reader: from a rule's bytes to its tree, or to the refusal (10 to 29) that is met first from left to right.

use super::escapes::Escape;
use super::profile;
use super::sets::ByteSet;
use super::tree::{Alternation, Form, Group, Inner, Item, Kind, Part, Place, Repeat, Rule};

/// A refusal's number and its place in the rule, counted from 0.
#[derive(Clone, Copy, PartialEq, Eq, Debug)]
pub struct Refusal {
    pub number: u32,
    pub place: usize,
}

pub const FLAG_S: u32 = 1;
pub const FLAG_M: u32 = 2;
pub const FLAG_I: u32 = 4;
pub const FLAG_X: u32 = 8;
/// The depot profile.
pub const FLAG_D: u32 = 16;
/// Document 02 k): "refusal 3 now starts at bit 5".
pub const ALL_FLAGS: u32 = FLAG_S | FLAG_M | FLAG_I | FLAG_X | FLAG_D;

/// 02 j): "Sixty-four groups", "23 at the 65th group".
pub const MOST_GROUPS: usize = crate::raw::GROUPS;
const MOST_DEPTH: usize = 24;
const GREATEST_BOUND: u64 = 255;

const NO_SUCH_GROUP: u32 = 13;
const NOTHING_TO_REPEAT: u32 = 17;
const BAD_BRACE: u32 = 18;
const REPEATED_REPEAT: u32 = 19;
const BRACKET_NOT_CLOSED: u32 = 20;
const BRACKET_NOT_OPENED: u32 = 21;
const OTHER_OPENING: u32 = 22;
const TOO_MANY_GROUPS: u32 = 23;
const TOO_DEEP: u32 = 24;
const NAME_USED_TWICE: u32 = 26;

/// Where the reading of a rule stands.
pub struct Reader<'r> {
    pub bytes: &'r [u8],
    pub at: usize,
    /// The names of the capturing groups opened so far; an empty one for a group without a name.
    pub names: Vec<Vec<u8>>,
    /// The same of all groups of the rule, once it has been read before.
    pub known: Vec<Vec<u8>>,
    flags: u32,
    /// Each reference's place and the group it names, if it can name one at all.
    references: Vec<(usize, Option<u64>)>,
}

/// What a bracket opens.
#[derive(Clone, Copy, PartialEq, Eq)]
enum Opening {
    Capturing,
    /// A capturing group whose name comes next.
    Named,
    Plain,
    Inner(Form),
}

/// What stands where a repeat could stand.
enum Written {
    Nothing,
    /// A `{` that begins no well-formed repeat.
    Stray,
    /// A repeat by its form, its bounds as they are written, and its length without a lazy or possessive mark.
    Bounds {
        least: u64,
        most: Option<u64>,
        length: usize,
    },
}

/// Reads a rule, or gives its first refusal. A name may stand behind a reference to it, so that the rule is read a second time with all its names
/// known.
pub fn read(rule: &[u8], flags: u32) -> Result<Rule, Refusal> {
    let mut first = Reader::new(rule, 0, flags);
    first.whole()?;
    let mut reader = Reader { known: first.names, ..Reader::new(rule, 0, flags) };
    let whole = reader.whole()?;
    reader.references_are_met()?;
    if let (true, Some(refusal)) = (reader.is_narrow(), profile::refused_by(&whole)) {
        return Err(refusal);
    }
    Ok(Rule { whole, groups: reader.names.len(), names: reader.names, folds: flags & FLAG_I != 0 })
}

impl<'r> Reader<'r> {
    fn new(bytes: &'r [u8], at: usize, flags: u32) -> Reader<'r> {
        Reader { bytes, at, names: Vec::new(), known: Vec::new(), flags, references: Vec::new() }
    }

    /// Reads the rule to its end, whatever groups its references name.
    fn whole(&mut self) -> Result<Alternation, Refusal> {
        let whole = self.alternation(0)?;
        if self.peek() == Some(b')') {
            return Err(Refusal { number: BRACKET_NOT_OPENED, place: self.at });
        }
        Ok(whole)
    }

    pub fn peek(&self) -> Option<u8> {
        self.bytes.get(self.at).copied()
    }

    /// Takes the next byte. At the rule's end there is none, and nothing moves.
    pub fn take(&mut self) -> Option<u8> {
        let byte = self.peek()?;
        self.at += 1;
        Some(byte)
    }

    /// Takes the next byte if it is this one.
    pub fn skip(&mut self, wanted: u8) -> bool {
        let there = self.peek() == Some(wanted);
        self.at += usize::from(there);
        there
    }

    /// 02, on `x`: "bytes 09 to 0D and 20, and `#` up to the line's end, are skipped outside classes". It is called before an item, before a repeat
    /// and behind one, so never inside an escape, a repeat or a group's opening.
    fn skip_blanks(&mut self) {
        if self.flags & FLAG_X == 0 {
            return;
        }
        while let Some(0x09..=0x0D | 0x20 | b'#') = self.peek() {
            if self.take() == Some(b'#') {
                while self.take().is_some_and(|byte| byte != 0x0A) {}
            }
        }
    }

    /// Is the rule read under the depot profile?
    pub fn is_narrow(&self) -> bool {
        self.flags & FLAG_D != 0
    }

    /// A byte item for a set: 02, on `i`: "A to Z and a to z match each other". Complements are taken of sets that were folded before.
    pub fn folded(&self, set: ByteSet) -> ByteSet {
        if self.flags & FLAG_I != 0 {
            set.folded()
        } else {
            set
        }
    }

    /// The value of the run of digits that begins here, at most so many of them, or none if there is no digit. A value too great for the
    /// type is held at its greatest, which is above every limit.
    pub fn digits(&mut self, base: u32, most: usize) -> Option<u64> {
        let from = self.at;
        let mut value = 0u64;
        while let Some(digit) = self.peek().and_then(|byte| char::from(byte).to_digit(base)) {
            if self.at - from == most {
                break;
            }
            value = value.saturating_mul(u64::from(base)).saturating_add(u64::from(digit));
            self.at += 1;
        }
        (self.at > from).then_some(value)
    }

    /// "13 is tested after the whole rule is otherwise sound, lowest place first."
    fn references_are_met(&self) -> Result<(), Refusal> {
        for &(place, group) in &self.references {
            if !group.is_some_and(|number| (1..=self.names.len() as u64).contains(&number)) {
                return Err(Refusal { number: NO_SUCH_GROUP, place });
            }
        }
        Ok(())
    }

    /// Reads branches up to a `)` or the rule's end; `depth` groups are open around them.
    fn alternation(&mut self, depth: usize) -> Result<Alternation, Refusal> {
        let (mut branches, mut bars) = (vec![self.branch(depth)?], Vec::new());
        while self.skip(b'|') {
            bars.push(self.at - 1);
            branches.push(self.branch(depth)?);
        }
        Ok(Alternation { branches, bars })
    }

    fn branch(&mut self, depth: usize) -> Result<Vec<Part>, Refusal> {
        let mut parts = Vec::new();
        self.skip_blanks();
        while !matches!(self.peek(), None | Some(b'|') | Some(b')')) {
            self.no_repeat_here()?;
            let part = self.item(depth)?;
            self.skip_blanks();
            let is_place = matches!(part, Part::Item(Item { kind: Kind::Place(_), .. }));
            parts.push(if is_place { part } else { self.with_repeat(part)? });
        }
        Ok(parts)
    }

    /// Behind the rule's start, a group's opening, a bar or a place there is nothing to repeat.
    fn no_repeat_here(&self) -> Result<(), Refusal> {
        match self.written_here() {
            Written::Nothing => Ok(()),
            Written::Stray => Err(Refusal { number: BAD_BRACE, place: self.at }),
            Written::Bounds { .. } => Err(Refusal { number: NOTHING_TO_REPEAT, place: self.at }),
        }
    }

    /// Reads one item without its repeat.
    fn item(&mut self, depth: usize) -> Result<Part, Refusal> {
        let at = self.at;
        let kind = match self.peek().expect("the caller has looked") {
            b'(' => return self.group(depth),
            b'\\' => return self.escaped(at),
            b'[' => Kind::Byte(self.class()?),
            byte => {
                self.at += 1;
                self.plain(byte)
            }
        };
        Ok(Part::Item(Item { at, kind }))
    }

    /// The item that a byte is by itself.
    fn plain(&self, byte: u8) -> Kind {
        let several_lines = self.flags & FLAG_M != 0;
        match byte {
            b'^' if several_lines => Kind::Place(Place::LineStart),
            b'^' => Kind::Place(Place::Start),
            b'$' if several_lines => Kind::Place(Place::LineEnd),
            b'$' => Kind::Place(Place::EndOrLastNewline),
            b'.' if self.flags & FLAG_S != 0 => Kind::Byte(ByteSet::empty().complement()),
            b'.' => Kind::Byte(ByteSet::one(0x0A).complement()),
            _ => Kind::Byte(self.folded(ByteSet::one(byte))),
        }
    }

    fn escaped(&mut self, at: usize) -> Result<Part, Refusal> {
        let kind = match self.escape_outside()? {
            Escape::LineBreak => return Ok(line_break(at)),
            Escape::Byte(byte) => Kind::Byte(self.folded(ByteSet::one(byte))),
            Escape::Set(set) => Kind::Byte(set),
            Escape::Place(place) => Kind::Place(place),
            Escape::Reference(group) => {
                self.references.push((at, group));
                // A group that is not there is refused before the tree is used.
                Kind::Reference(group.and_then(|number| usize::try_from(number).ok()).unwrap_or(0))
            }
        };
        Ok(Part::Item(Item { at, kind }))
    }

    /// Takes what follows a `(` and says what it opens; none for a form that is not held.
    fn opening(&mut self) -> Option<Opening> {
        if !self.skip(b'?') {
            return Some(Opening::Capturing);
        }
        Some(match self.take()? {
            b'<' => Opening::Named,
            b':' => Opening::Plain,
            b'>' => Opening::Inner(Form::Held),
            b'=' => Opening::Inner(Form::Ahead),
            b'!' => Opening::Inner(Form::NotAhead),
            _ => return None,
        })
    }

    /// Reads a group, or what looks ahead or holds on. All five faults of an opening have its place: "on one byte the lower number".
    fn group(&mut self, depth: usize) -> Result<Part, Refusal> {
        let place = self.at;
        self.at += 1;
        let Some(opening) = self.opening() else { return Err(Refusal { number: OTHER_OPENING, place }) };
        let named = opening == Opening::Named;
        let capturing = named || opening == Opening::Capturing;
        if capturing && self.names.len() == MOST_GROUPS {
            return Err(Refusal { number: TOO_MANY_GROUPS, place });
        }
        if depth == MOST_DEPTH {
            return Err(Refusal { number: TOO_DEEP, place });
        }
        let name = if named { self.name(b'>', place)? } else { Vec::new() };
        if named && self.names.contains(&name) {
            return Err(Refusal { number: NAME_USED_TWICE, place });
        }
        let number = capturing.then_some(self.names.len() + 1);
        self.names.extend(capturing.then_some(name));
        let inside = self.alternation(depth + 1)?;
        if !self.skip(b')') {
            return Err(Refusal { number: BRACKET_NOT_CLOSED, place });
        }
        Ok(match opening {
            Opening::Inner(form) => Part::Inner(Inner { at: place, form, inside }),
            _ => Part::Group(Group { number, inside }),
        })
    }

    /// The part with the repeat that stands here behind it, if one does, and the blanks behind that. 02 l): "possessive `+` after a greedy repeat".
    fn with_repeat(&mut self, body: Part) -> Result<Part, Refusal> {
        let at = self.at;
        let (least, most) = match self.good_bounds_here()? {
            None => return Ok(body),
            Some((least, most, length)) => {
                self.at += length;
                (least, most)
            }
        };
        let greedy = !self.skip(b'?');
        let plus = self.at;
        let possessive = greedy && self.skip(b'+');
        self.skip_blanks();
        if self.good_bounds_here()?.is_some() {
            return Err(Refusal { number: REPEATED_REPEAT, place: self.at });
        }
        let repeat = Part::Repeat(Box::new(Repeat { at, body, least, most, greedy }));
        Ok(if possessive { held(plus, vec![vec![repeat]]) } else { repeat })
    }

    /// The bounds and the length of the repeat that stands here, if one does; "18: stray `{`, a bound over 255, or n > m".
    fn good_bounds_here(&self) -> Result<Option<(u64, Option<u64>, usize)>, Refusal> {
        match self.written_here() {
            Written::Nothing => Ok(None),
            Written::Bounds { least, most, length } if least.max(most.unwrap_or(0)) <= GREATEST_BOUND && most.is_none_or(|most| least <= most) => {
                Ok(Some((least, most, length)))
            }
            _ => Err(Refusal { number: BAD_BRACE, place: self.at }),
        }
    }

    fn written_here(&self) -> Written {
        match self.peek() {
            Some(b'*') => Written::Bounds { least: 0, most: None, length: 1 },
            Some(b'+') => Written::Bounds { least: 1, most: None, length: 1 },
            Some(b'?') => Written::Bounds { least: 0, most: Some(1), length: 1 },
            Some(b'{') => self.braces_here().unwrap_or(Written::Stray),
            _ => Written::Nothing,
        }
    }

    /// `{n}`, `{n,}` or `{n,m}`, if that is what stands here.
    fn braces_here(&self) -> Option<Written> {
        let mut ahead = Reader::new(self.bytes, self.at + 1, 0);
        let least = ahead.digits(10, usize::MAX)?;
        let most = if ahead.skip(b',') { ahead.digits(10, usize::MAX) } else { Some(least) };
        ahead.skip(b'}').then_some(Written::Bounds { least, most, length: ahead.at - self.at })
    }
}

fn held(at: usize, branches: Vec<Vec<Part>>) -> Part {
    Part::Inner(Inner { at, form: Form::Held, inside: Alternation { branches, bars: Vec::new() } })
}

/// 02 l): "`\R` as `(?>\x0D\x0A|[\x0A-\x0D\x85])`", and for f) its items are "at its place".
fn line_break(at: usize) -> Part {
    let item = |ranges: &[(u8, u8)]| Part::Item(Item { at, kind: Kind::Byte(ByteSet::of(ranges)) });
    held(at, vec![vec![item(&[(0x0D, 0x0D)]), item(&[(0x0A, 0x0A)])], vec![item(&[(0x0A, 0x0D), (0x85, 0x85)])]])
}
