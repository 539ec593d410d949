//! Rules by how they begin: with sets, groups, branches, repeats of every kind and places, alone and within each other. Under `x` blanks and
//! comments stand before what begins and before its repeat. Nearly a third of the rules look ahead or hold on.

use crate::independent::FLAG_X;
use crate::random::Rng;

/// Items that take one byte; those that are here twice fit the subjects' bytes best.
const ITEMS: [&str; 34] = [
    "a",
    "a",
    "a",
    "b",
    "b",
    "1",
    ",",
    "#",
    "[ab]",
    "[ab]",
    "[^a]",
    "[a-c1]",
    ".",
    ".",
    "\\d",
    "\\d",
    "\\w",
    "\\W",
    "\\N",
    "\\x61",
    "[\\d,]",
    "\\n",
    "\n",
    "[^\\n]",
    "[\\x80-\\xFF]",
    "\\x00",
    "[\\d\\D]",
    "[^\\d\\D]",
    "A",
    "[B-b]",
    "[^A]",
    "[[:upper:]1]",
    "[[:^lower:]]",
    "[^[:^upper:]b]",
];

/// Rules of many readings, many of them met more than once, and others of one span that differ in a group.
const MANY_READINGS: [&str; 28] = [
    "(.*)",
    "^(.*)",
    "(?:.*|.*)",
    "^(?:.*|.*)",
    "(a*)(a*)",
    "(a*)(a*)(a*)",
    "^(a*)(b*)(a*)",
    "(a|a)*",
    "(a?)*",
    "(a??)*",
    "(?:(a)|(b)|(a))*",
    "(a+)",
    "(?:a*|a*?)",
    "(a*?)(a*)",
    "((a)|a)*",
    ".*.*",
    "(.)*",
    "(?:|a)(?:a|)",
    "(a|ab)(b|)",
    "(\\d*),?(\\d*)",
    "(?>(a*))(a*)",
    "(a*)(a*+)",
    "(?=(a*))(a*)",
    "(?=(a*?))*(a*)",
    "(a*)(?=(a*))(a*)",
    "(?>a|aa)*(a*)",
    "(?:a(?!b))*(a?)",
    "(?:(?=(a))|(a))*",
];

/// Rules with references: to long spans and short, empty and unset ones, to a group that is set anew, alone, repeated and in branches.
const REFERENCES: [&str; 42] = [
    "(a+)\\1",
    "(a*)\\1",
    "^(a+)\\1$",
    "(.+)\\1",
    "(.*?)\\1b",
    "(.+),\\1",
    "^(.*),\\1$",
    "^(.*?),\\1$",
    "(a+)(b*)\\2\\1",
    "(?:(a+)|b)\\1",
    "(a|ab)*\\1",
    "(a+)\\1+",
    "(a+)\\1{2,3}?",
    "(a{2,})(?:\\1|b)*",
    "(aa)\\1",
    "((a)\\2)*",
    "(a|b\\1)+",
    "(a+|b\\1)*$",
    "\\1?(a+)",
    "\\1*(a+)",
    "(?:\\1b|(a+))+",
    "()\\1",
    "(a?)\\1*",
    "(.{8})\\1",
    "(.{3,20}),?\\1",
    "(?:(a*)|b)\\1\\1",
    "(?:x\\1|y\\1|(a+))*",
    "(?:(.+)\\1|(.+),\\2)$",
    "(?<n>a+)\\k<n>",
    "^(?<n>.*),\\g{n}$",
    "\\k'n'*(?<n>a+)",
    "(?<n>a|b\\k{n})+",
    "(?=(a+))\\1",
    "(?=(.*),)\\1,\\1",
    "(?>(a+))\\1",
    "(a++)b?\\1",
    "(a+)(?=\\1)a*",
    "(a+)(?!\\1)",
    "^(?>(.*?),)\\1$",
    "(?:(?=(a+))a)+\\1",
    "(?!(a+)\\1)(.*)\\2",
    "(.+?)(?>\\1)++,",
];

/// Groups that can take nothing, repeated before a byte: many rounds are empty, and what closes them is followed by a byte that is not there.
const EMPTY_ROUNDS: [&str; 26] = [
    "(a*)*b",
    "(a*)+b",
    "(a*)*?b",
    "(a*){2,}b",
    "(a*){0,2}b",
    "(a*){3}b",
    "(a?)*b",
    "(a??)*b",
    "(a|)*b",
    "(|a)*b",
    "((a*)*)*b",
    "((a*)*b)*1",
    "(?:(a*)b?)*,",
    "(?:(a*)(b*))*,",
    "(?:(a*)|(b*))*,",
    "((a)|b*)*,",
    "(a*|b)*1",
    "(\\d*)*,",
    "(\\w*)*\\W",
    "(a*b?)*[^ab]",
    "a(b*)*a",
    "(?:1|(a*)*b)*#",
    "((?=a)a*)*b",
    "(?:(a*)(?>b*))*1",
    "(?>(a*)*b|a)",
    "(?!(a*)*b)(.*)*,",
];

/// Places that say something of the byte before or behind, so that a start's own byte does not settle whether it can begin.
const PLACES: [&str; 6] = ["$", "\\b", "\\B", "\\z", "\\Z", "^"];

/// A rule of any of the beginnings, for these flags.
pub fn rule(rng: &mut Rng, flags: u32) -> Vec<u8> {
    let mut maker = Maker::new(rng, flags);
    let depth = maker.rng.weighted(&[35, 35, 22, 8]);
    maker.alternation(depth, true);
    maker.rule.into_bytes()
}

/// A rule that has many readings on a line of the same bytes.
pub fn many_readings(rng: &mut Rng, flags: u32) -> Vec<u8> {
    one_of(rng, &MANY_READINGS, flags)
}

/// A rule whose references are often tried, with one more behind them at times.
pub fn with_references(rng: &mut Rng, flags: u32) -> Vec<u8> {
    let mut rule = one_of(rng, &REFERENCES, flags);
    if rng.percent(20) {
        rule.extend(b"\\g{1}");
    }
    rule
}

/// A rule whose groups often close in vain.
pub fn empty_rounds(rng: &mut Rng, flags: u32) -> Vec<u8> {
    one_of(rng, &EMPTY_ROUNDS, flags)
}

/// One of these rules, often with an item behind it.
fn one_of(rng: &mut Rng, rules: &[&str], flags: u32) -> Vec<u8> {
    let mut maker = Maker::new(rng, flags);
    let text = *maker.rng.pick(rules);
    maker.write(text);
    if maker.rng.percent(40) {
        maker.item(1, false);
    }
    maker.rule.into_bytes()
}

struct Maker<'r> {
    rng: &'r mut Rng,
    /// Items that this rule has more often than others: what stands behind a run then often takes the same bytes.
    favoured: [&'static str; 2],
    /// The rule is for `x`.
    blanks: bool,
    /// There are parts in it that look ahead or hold on.
    holds: bool,
    /// Groups opened so far.
    groups: usize,
    rule: String,
}

impl<'r> Maker<'r> {
    fn new(rng: &'r mut Rng, flags: u32) -> Maker<'r> {
        let favoured = [(); 2].map(|()| *rng.pick(&ITEMS));
        let holds = rng.percent(45);
        Maker { rng, favoured, blanks: flags & FLAG_X != 0, holds, groups: 0, rule: String::new() }
    }

    fn write(&mut self, text: &str) {
        self.rule.push_str(text);
    }

    /// Nothing, or under `x` what is skipped here.
    fn blank(&mut self) {
        if self.blanks && self.rng.percent(20) {
            let blank = *self.rng.pick(&[" ", "\n", "\t ", "#a*\n"]);
            self.write(blank);
        }
    }

    /// Branches; `begins` says that nothing stands before them.
    fn alternation(&mut self, depth: usize, begins: bool) {
        let branches = 1 + self.rng.weighted(&[52, 25, 14, 9]);
        for branch in 0..branches {
            if branch > 0 {
                self.write("|");
            }
            self.sequence(depth, begins);
        }
    }

    fn sequence(&mut self, depth: usize, begins: bool) {
        if self.rng.percent(if begins { 15 } else { 2 }) {
            let place = *self.rng.pick(&["^", "^", "\\A", "\\A", "^^", "\\A^"]);
            self.write(place);
        }
        if self.holds && self.rng.percent(if begins { 15 } else { 5 }) {
            self.look();
        }
        let items = self.rng.weighted(&[6, 42, 30, 15, 7]);
        for index in 0..items {
            self.item(depth, begins && index == 0);
        }
        if self.holds && self.rng.percent(10) {
            self.look();
        }
    }

    fn item(&mut self, depth: usize, begins: bool) {
        let group = if depth > 0 { 15 } else { 0 };
        self.blank();
        let line_break = if self.holds { 4 } else { 0 };
        match self.rng.weighted(&[36, 32, group, group, 3, 8, line_break]) {
            0 => self.byte(),
            1 => self.run(),
            2 => self.group(depth, begins),
            3 => {
                self.group(depth, begins);
                self.repeat();
            }
            4 => {
                let place = *self.rng.pick(&PLACES);
                self.write(place);
            }
            5 => self.reference(),
            _ => {
                self.write("\\R");
                if self.rng.percent(50) {
                    self.repeat();
                }
            }
        }
    }

    /// What looks at the bytes that come next: one item, a run, or either with a place behind it; at times a group.
    fn look(&mut self) {
        let (opening, closing) = *self.rng.pick(&[("(?=", ")"), ("(?=(", "))"), ("(?!", ")")]);
        self.groups += usize::from(opening == "(?=(");
        self.write(opening);
        if self.rng.percent(60) {
            self.byte();
        } else {
            self.run();
        }
        if self.rng.percent(15) {
            let place = *self.rng.pick(&PLACES);
            self.write(place);
        }
        self.write(closing);
    }

    fn byte(&mut self) {
        let item = if self.rng.percent(70) { *self.rng.pick(&self.favoured) } else { *self.rng.pick(&ITEMS) };
        if self.blanks && ["#", "\n"].contains(&item) {
            self.write("\\");
        }
        self.write(item);
    }

    /// A repeat over one byte item, which may stand in brackets.
    fn run(&mut self) {
        let (opening, closing) = *self.rng.pick(&[("", ""), ("", ""), ("", ""), ("", ""), ("", ""), ("(?:", ")"), ("(", ")"), ("(?:(?:", "))")]);
        let (opening, closing) = if self.holds && self.rng.percent(10) { ("(?>", ")") } else { (opening, closing) };
        self.groups += usize::from(opening == "(");
        self.write(opening);
        self.byte();
        self.write(closing);
        self.repeat();
    }

    fn group(&mut self, depth: usize, begins: bool) {
        let holds = if self.holds { 50 } else { 0 };
        let opening = match self.rng.weighted(&[50, 50, holds]) {
            0 => "(",
            1 => "(?:",
            _ => *self.rng.pick(&["(?>", "(?>", "(?=", "(?!"]),
        };
        self.groups += usize::from(opening == "(");
        self.write(opening);
        self.alternation(depth - 1, begins);
        self.write(")");
    }

    /// A reference to a group that was opened before, or a byte item where there is none.
    fn reference(&mut self) {
        if self.groups == 0 {
            return self.byte();
        }
        let group = self.rng.between(1, self.groups);
        self.write(&format!("\\g{{{group}}}"));
    }

    fn repeat(&mut self) {
        self.blank();
        let low = self.rng.between(0, 4);
        let high = low + self.rng.weighted(&[30, 35, 20, 15]);
        let text = match self.rng.weighted(&[28, 24, 14, 8, 8, 11, 3, 2, 2]) {
            0 => "*".to_string(),
            1 => "+".to_string(),
            2 => "?".to_string(),
            3 => format!("{{{low}}}"),
            4 => format!("{{{low},}}"),
            5 => format!("{{{low},{high}}}"),
            6 => "{0}".to_string(),
            7 => format!("{{{low},{}}}", low + self.rng.between(5, 60)),
            _ => format!("{{{},}}", low + self.rng.between(5, 30)),
        };
        self.write(&text);
        let possessive = if self.holds { 25 } else { 0 };
        let mark = ["", "?", "+"][self.rng.weighted(&[80, 20, possessive])];
        self.write(mark);
    }
}
