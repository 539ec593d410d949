//! Random rules within the held syntax. Weights favour what goes wrong in matchers: nested repeats, empty rounds and branches, references
//! to groups before and behind, by number and by name, classes with `-` and `]` at odd places; letters in both cases, and under `x` blanks and
//! comments. Many of the rules look ahead or hold on.

use super::Rng;
use crate::independent::{FLAG_X, MOST_GROUPS};

/// How a rule is made.
#[derive(Clone, Copy)]
pub struct Style {
    /// The bytes of literals.
    pub alphabet: &'static [u8],
    /// How deep groups may nest.
    pub depth: usize,
    /// Only forms that Perl and PCRE2 read as document 01 does: no zeros before a number, no references that may count as octal, no
    /// bracket in a class that may begin a POSIX form.
    pub plain: bool,
    /// Blanks and comments stand where `x` lets them be skipped.
    pub blanks: bool,
}

/// Among them letters in both cases with the bytes beside A, Z, a and z, what `x` skips, line ends, and bytes above 7F that are letters elsewhere.
pub const ALPHABETS: [&[u8]; 10] =
    [b"ab", b"ab", b"aAbB", b"ab1\n", b"a1, -_", b"aAzZ@[`{", b"a# \t\n\x0B", b"a\r\n\x85", b"\x00a\n\x7F\x80\x85\xA0\xFF]", b"sSkE\xC9\xE9\xDF"];

/// What opens a part that looks ahead or holds on. A `(?!` fails on much of what the others are tried on.
const INNER: [&str; 5] = ["(?>", "(?>", "(?=", "(?=", "(?!"];

/// What `x` skips. A comment may hold anything but an 0A.
const BLANKS: [&str; 16] =
    [" ", " ", "  ", "\t", "\n", "\x0B", "\x0C", "\r", " \r\n", "#\n", "# a \n", "#(\n", "#)*\n", "#\\\n", "#[\r|\n", "\t##\n "];

/// Names for groups: some differ in their case alone, some begin another, one has the greatest length.
pub const GROUP_NAMES: [&str; 12] = ["a", "A", "b", "_", "_1", "n1", "n12", "litres", "Litres", "litre", "tank_nr", "a23456789_bcdefZ"];

/// The letters of the escapes for sets.
pub const SETS: &[u8] = b"dDwWsShHvV";
/// The names of sets.
pub const NAMES: [&str; 14] =
    ["alpha", "upper", "lower", "alnum", "xdigit", "blank", "cntrl", "ascii", "print", "graph", "punct", "digit", "word", "space"];

/// A style for any reader of document 01, for a rule under these flags.
pub fn any_style(rng: &mut Rng, flags: u32) -> Style {
    let blanks = flags & FLAG_X != 0 && rng.percent(85);
    Style { alphabet: ALPHABETS[rng.below(ALPHABETS.len())], depth: rng.between(1, 4), plain: false, blanks }
}

/// A style for rules that other matchers are to read too.
pub fn plain_style(rng: &mut Rng, flags: u32) -> Style {
    Style { plain: true, ..any_style(rng, flags) }
}

/// A rule of this style. It is nearly always sound; a reference may have no group, and a class range may be bad.
pub fn rule(rng: &mut Rng, style: Style) -> Vec<u8> {
    let mut maker = Maker::new(rng, style);
    maker.alternation(style.depth);
    if maker.rule.is_empty() && maker.rng.percent(90) {
        maker.item(style.depth);
    }
    if maker.holds && maker.rng.percent(40) {
        maker.blank();
        maker.look_at_group();
    }
    maker.keep_promises();
    // Behind all groups a reference mostly finds its group set.
    if maker.groups > 0 && maker.rng.percent(25) {
        let group = maker.rng.between(1, maker.groups);
        maker.blank();
        match maker.names.iter().find(|(number, _)| *number == group) {
            Some(&(_, name)) => maker.reference_by(name),
            None => maker.write(&format!("\\g{{{group}}}")),
        }
    }
    // What a comment at the rule's end holds is not looked at, and it needs no 0A.
    if style.blanks && maker.rng.percent(15) {
        let comment = *maker.rng.pick(&["#", "# a", "#(", "#\\", "#[a", "#\r*"]);
        maker.write(comment);
    }
    maker.rule
}

/// What the depot profile takes and what it refuses, with repeats of every kind over what can take no bytes and over what cannot.
const PROFILE_PIECES: [&str; 37] = [
    "a",
    "a",
    "b",
    "[a-z]",
    "[A-Z]",
    "[0-9]",
    "[A-z]",
    "[a-\\x7a]",
    "[,-9]",
    "[^\\d\\D]",
    "^",
    "\\b",
    "a?",
    "a??",
    "a{0}",
    "a{2}",
    "a{1,3}",
    "(",
    "(",
    "(?:",
    "(?:",
    ")",
    ")",
    ")*",
    ")+",
    "){2,}?",
    "){0,2}",
    "|",
    "*",
    "\\1",
    "(?>",
    "(?=",
    "(?!",
    "\\R",
    "++",
    ")*+",
    "){0,}+",
];

/// A few of these pieces in any order, with the brackets that are open closed.
pub fn for_profile(rng: &mut Rng) -> Vec<u8> {
    let (mut rule, mut open) = (String::new(), 0);
    let pieces = rng.between(1, 10);
    for _ in 0..pieces {
        let piece = *rng.pick(&PROFILE_PIECES);
        // A bracket that closes nothing, and a reference in most rules, would hide all the rest.
        if (piece.starts_with(')') && open == 0) || (piece == "\\1" && rng.percent(60)) {
            continue;
        }
        open += usize::from(piece.starts_with('('));
        open -= usize::from(piece.starts_with(')'));
        rule += piece;
    }
    for _ in 0..open {
        rule += *rng.pick(&[")", ")", ")*", ")+?", ")?", "){3}", "){0,}", ")*+"]);
    }
    rule.into_bytes()
}

/// A rule of about as many groups as there can be, some of them with names, with references to any of them, before the group too; in some rules it is all
/// repeated. Unless other matchers are to read it, it has seldom a group too many, or a reference to one.
pub fn many_groups(rng: &mut Rng, plain: bool) -> Vec<u8> {
    let beyond = if plain { 0 } else { rng.below(3) * rng.below(2) * rng.below(2) };
    let groups = if beyond > 0 { MOST_GROUPS + beyond } else { rng.between(MOST_GROUPS / 2, MOST_GROUPS) };
    let (named, referred) = (*rng.pick(&[0, 30, 100]), *rng.pick(&[0, 5, 15]));
    let names: Vec<bool> = (0..groups).map(|_| rng.percent(named)).collect();
    let mut rule = String::new();
    for number in 1..=groups {
        let opening = if names[number - 1] { format!("(?<n{number}>") } else { "(".to_string() };
        let (inside, repeat) = (*rng.pick(&["", "a", "a?", "b?", "a|b", "[ab]", "."]), *rng.pick(&["", "", "", "?", "??", "*"]));
        let (before, behind) = *rng.pick(&[("", ""), ("", ""), ("", ""), ("", ""), ("(?=", ")"), ("(?>", ")")]);
        rule += &format!("{before}{opening}{inside}){repeat}{behind}");
        if rng.percent(referred) || (referred > 0 && number == groups) {
            let missing = usize::from(!plain && rng.percent(2));
            let group = rng.between(1, groups) + missing * groups;
            rule += &reference_to(rng, group, &names, plain);
        }
    }
    if rng.percent(20) {
        rule = format!("(?:{rule}){{1,2}}");
    }
    rule.into_bytes()
}

/// A reference to this group, often by its name if it has one.
fn reference_to(rng: &mut Rng, group: usize, names: &[bool], plain: bool) -> String {
    match rng.below(4) {
        0 | 1 if names.get(group - 1) == Some(&true) => format!("\\k<n{group}>"),
        2 if !plain => format!("\\{group}"),
        _ => format!("\\g{{{group}}}"),
    }
}

/// A rule that is one class of this style.
pub fn class(rng: &mut Rng, style: Style) -> Vec<u8> {
    let mut maker = Maker::new(rng, style);
    maker.class();
    maker.rule
}

struct Maker<'r> {
    rng: &'r mut Rng,
    style: Style,
    groups: usize,
    /// The groups with names so far.
    names: Vec<(usize, &'static str)>,
    /// Names that were referred to and that no group has yet.
    promised: Vec<&'static str>,
    /// Do groups have names in this rule?
    is_named: bool,
    /// Are there parts in it that look ahead or hold on?
    holds: bool,
    rule: Vec<u8>,
}

impl<'r> Maker<'r> {
    fn new(rng: &'r mut Rng, style: Style) -> Maker<'r> {
        let (is_named, holds) = (rng.percent(35), rng.percent(60));
        Maker { rng, style, groups: 0, names: Vec::new(), promised: Vec::new(), is_named, holds, rule: Vec::new() }
    }

    fn write(&mut self, text: &str) {
        self.rule.extend_from_slice(text.as_bytes());
    }

    fn alternation(&mut self, depth: usize) {
        let branches = 1 + self.rng.weighted(&[60, 25, 10, 5]);
        for branch in 0..branches {
            if branch > 0 {
                self.write("|");
            }
            let items = self.rng.weighted(&[12, 40, 28, 14, 6]);
            for _ in 0..items {
                self.blank();
                self.item(depth);
            }
            self.blank();
        }
    }

    /// Nothing, or under `x` what is skipped here.
    fn blank(&mut self) {
        if self.style.blanks && self.rng.percent(30) {
            let blank = *self.rng.pick(&BLANKS);
            self.write(blank);
        }
    }

    fn item(&mut self, depth: usize) {
        let (group, inner, line_break) = match (depth, self.holds) {
            (0, false) => (0, 0, 0),
            (0, true) => (0, 0, 5),
            (_, false) => (25, 0, 0),
            (_, true) => (18, 20, 5),
        };
        match self.rng.weighted(&[30, 5, 4, 6, 10, 8, 8, group, group / 2, inner, line_break]) {
            0 => self.literal(),
            1 => self.write("."),
            2 => self.byte_escape(),
            3 => {
                let letter = if self.rng.percent(15) { b'N' } else { *self.rng.pick(SETS) };
                self.rule.extend([b'\\', letter]);
            }
            4 => self.class(),
            5 => {
                let place = *self.rng.pick(&["^", "$", "\\A", "\\z", "\\Z", "\\b", "\\B"]);
                self.write(place);
                return;
            }
            6 => self.reference(),
            7 => self.capturing_group(depth),
            8 => self.group("(?:", depth),
            9 => {
                let opening = *self.rng.pick(&INNER);
                self.group(opening, depth);
            }
            _ => self.write("\\R"),
        }
        if self.rng.percent(45) {
            self.blank();
            self.repeat();
        }
    }

    fn capturing_group(&mut self, depth: usize) {
        self.groups += 1;
        if !self.is_named || self.rng.percent(30) {
            return self.group("(", depth);
        }
        match self.promised.pop().or_else(|| self.new_name()) {
            Some(name) => self.named_group(name, depth),
            None => self.group("(", depth),
        }
    }

    fn named_group(&mut self, name: &'static str, depth: usize) {
        self.names.push((self.groups, name));
        self.group(&format!("(?<{name}>"), depth);
    }

    /// A name that no group has; seldom, where a refusal does no harm, one that a group has.
    fn new_name(&mut self) -> Option<&'static str> {
        let name = *self.rng.pick(&GROUP_NAMES);
        let is_used = self.promised.contains(&name) || self.names.iter().any(|&(_, used)| used == name);
        (!is_used || (!self.style.plain && self.rng.percent(10))).then_some(name)
    }

    /// Groups for the names that were referred to and are still missing; seldom they stay so.
    fn keep_promises(&mut self) {
        while let Some(name) = self.promised.pop() {
            if self.style.plain || self.rng.percent(90) {
                self.groups += 1;
                self.named_group(name, 1);
            }
        }
    }

    fn group(&mut self, opening: &str, depth: usize) {
        self.write(opening);
        self.alternation(depth - 1);
        self.write(")");
    }

    /// A group that is only looked at: at the rule's end it mostly lies behind the match.
    fn look_at_group(&mut self) {
        let opening = if self.rng.percent(85) { "(?=" } else { "(?!" };
        self.write(opening);
        let before = self.rng.weighted(&[50, 35, 15]);
        for _ in 0..before {
            self.item(0);
        }
        self.capturing_group(1);
        if self.rng.percent(25) {
            self.item(0);
        }
        self.write(")");
    }

    fn literal(&mut self) {
        let byte = *self.rng.pick(self.style.alphabet);
        // A blank that is meant as a literal needs its backslash under `x`.
        let escaped = if self.style.blanks && b"\t\n\x0B\r #".contains(&byte) { 90 } else { 10 };
        if b"\\^$.|()[*+?{".contains(&byte) || (!byte.is_ascii_alphanumeric() && byte != b'_' && self.rng.percent(escaped)) {
            self.rule.push(b'\\');
        }
        self.rule.push(byte);
    }

    /// An escape for one byte, mostly of the alphabet.
    fn byte_escape(&mut self) {
        let byte = if self.rng.percent(70) { *self.rng.pick(self.style.alphabet) } else { self.rng.byte() };
        let zeros = if self.style.plain { 0 } else { self.rng.below(3) };
        match self.rng.below(6) {
            0 => self.write(&format!("\\x{byte:02x}")),
            1 => self.write(&format!("\\x{{{:0>zeros$}{byte:X}}}", "")),
            2 => self.write(&format!("\\o{{{:0>zeros$}{byte:o}}}", "")),
            3 => {
                let control = *self.rng.pick(b"@ajM[]^_?");
                self.rule.extend([b'\\', b'c', control]);
            }
            4 => {
                let width = if self.style.plain { 2 } else { self.rng.between(0, 2) };
                self.write(&format!("\\0{:0>width$o}", byte % 64));
            }
            _ => {
                let letter = *self.rng.pick(b"aefnrt");
                self.rule.extend([b'\\', letter]);
            }
        }
    }

    /// A reference by name, in any of its four forms; seldom, where a refusal does no harm, with letters of the other case.
    fn reference_by(&mut self, name: &str) {
        let other = name.chars().map(|letter| if letter.is_lowercase() { letter.to_ascii_uppercase() } else { letter.to_ascii_lowercase() });
        let name = if !self.style.plain && self.rng.percent(4) { other.collect() } else { name.to_string() };
        let (opening, closing) = *self.rng.pick(&[("g{", "}"), ("k{", "}"), ("k<", ">"), ("k'", "'")]);
        self.write(&format!("\\{opening}{name}{closing}"));
    }

    /// A reference to a group before or behind, or, seldom, to none.
    fn reference(&mut self) {
        if self.is_named && self.rng.percent(60) {
            let known: Vec<&'static str> = self.names.iter().map(|&(_, name)| name).collect();
            if !known.is_empty() && self.rng.percent(75) {
                let name = *self.rng.pick(&known);
                return self.reference_by(name);
            }
            if let Some(name) = self.new_name() {
                self.promised.extend((!known.contains(&name)).then_some(name));
                return self.reference_by(name);
            }
        }
        if self.groups == 0 && self.rng.percent(80) {
            return self.literal();
        }
        let group = self.rng.between(1, self.groups + 1);
        let back = self.groups + 1 - group.min(self.groups);
        let zero = if !self.style.plain && self.rng.percent(3) { "0" } else { "" };
        let text = match self.rng.below(5) {
            0 | 1 if group < 10 => format!("\\{group}"),
            2 => format!("\\g{{-{zero}{back}}}"),
            3 => format!("\\g-{zero}{back}"),
            _ => format!("\\g{{{zero}{group}}}"),
        };
        self.write(&text);
    }

    fn repeat(&mut self) {
        let low = self.rng.weighted(&[25, 35, 30, 10]);
        let high = low + self.rng.weighted(&[30, 40, 20, 10]);
        let zero = if !self.style.plain && self.rng.percent(2) { "0" } else { "" };
        let text = match self.rng.weighted(&[28, 20, 18, 10, 10, 14]) {
            0 => "*".to_string(),
            1 => "+".to_string(),
            2 => "?".to_string(),
            3 => format!("{{{zero}{low}}}"),
            4 => format!("{{{zero}{low},}}"),
            _ => format!("{{{low},{zero}{high}}}"),
        };
        self.write(&text);
        let possessive = if self.holds { 25 } else { 0 };
        let mark = ["", "?", "+"][self.rng.weighted(&[70, 30, possessive])];
        self.write(mark);
    }

    fn class(&mut self) {
        self.write("[");
        if self.rng.percent(25) {
            self.write("^");
        }
        if self.rng.percent(12) {
            let first = *self.rng.pick(&["]", "-", "]-a", "--a"]);
            self.write(first);
        }
        let members = self.rng.between(1, 3);
        for _ in 0..members {
            self.member();
        }
        if self.rng.percent(10) {
            self.write("-");
        }
        self.write("]");
    }

    fn member(&mut self) {
        match self.rng.weighted(&[40, 20, 12, 14, 8, 6]) {
            0 => self.class_literal(),
            1 => self.range(),
            2 => {
                let letter = *self.rng.pick(SETS);
                self.rule.extend([b'\\', letter]);
            }
            3 => {
                let name = *self.rng.pick(&NAMES);
                let not = if self.rng.percent(25) { "^" } else { "" };
                self.write(&format!("[:{not}{name}:]"));
            }
            4 => {
                let escape = *self.rng.pick(&["\\b", "\\n", "\\t", "\\x41", "\\x{61}", "\\o{12}", "\\012", "\\61", "\\-", "\\]", "\\\\", "\\cJ"]);
                self.write(escape);
            }
            _ => {
                let odd = if self.style.plain {
                    *self.rng.pick(&["+", "[a", "^", "-", "--"])
                } else {
                    *self.rng.pick(&["[", "[:", "[a", "-", "--", "^", ":]"])
                };
                self.write(odd);
            }
        }
    }

    fn class_literal(&mut self) {
        let byte = *self.rng.pick(self.style.alphabet);
        if b"\\]-[".contains(&byte) {
            self.rule.push(b'\\');
        }
        self.rule.push(byte);
    }

    /// A range between two bytes, nearly always in their order.
    fn range(&mut self) {
        let (one, other) = (*self.rng.pick(b"abcMYZz19,[`"), *self.rng.pick(b"abcMYZz19,[`"));
        let (low, high) = if self.rng.percent(97) { (one.min(other), one.max(other)) } else { (one, other) };
        self.rule.extend([low, b'-', high]);
        if self.rng.percent(10) {
            self.write("-");
        }
    }
}
