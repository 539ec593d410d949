//! Every refusal that a rule, a line, a check or a card can have, with the picture that its error shows.

use std::collections::BTreeSet;
use std::error::Error;

use terravisco::{read_card, write_card, Flags, Reason, Rule, RuleError, Unknown};

/// The number, a rule and the place, from the tables of documents 01 and 02 and of the guide. All are short enough for one row.
const IN_RULES: [(u32, &str, Flags, usize); 33] = [
    (10, "ab\\", Flags::NONE, 2),
    (11, r"\q", Flags::NONE, 0),
    (11, r"[\A]", Flags::NONE, 1),
    (12, r"\x4", Flags::NONE, 0),
    (12, r"a\g{}", Flags::NONE, 1),
    (13, r"(a)\2", Flags::NONE, 3),
    (13, r"(?<a>a)\k<b>", Flags::NONE, 7),
    (14, "[abc", Flags::NONE, 0),
    (15, "[z-a]", Flags::NONE, 1),
    (15, r"[\d-z]", Flags::NONE, 1),
    (16, "[[:digits:]]", Flags::NONE, 1),
    (17, "*a", Flags::NONE, 0),
    (17, "a|+", Flags::NONE, 2),
    (18, "a{,3}", Flags::NONE, 1),
    (18, "a{256}", Flags::NONE, 1),
    (18, "a{2,1}", Flags::NONE, 1),
    (19, "a**", Flags::NONE, 2),
    (20, "(ab", Flags::NONE, 0),
    (20, "a b (c", Flags::X, 4),
    (21, "ab)", Flags::NONE, 2),
    (21, "#)", Flags::NONE, 1),
    (22, "b(?a)", Flags::NONE, 1),
    (22, "(?P<a>b)", Flags::NONE, 0),
    (24, "((((((((((((((((((((((((()))))))))))))))))))))))))", Flags::NONE, 24),
    (25, "(?<1st>a)", Flags::NONE, 0),
    (25, r"a\k<a", Flags::NONE, 1),
    (26, "(?<n>a)|(?<n>b)", Flags::NONE, 8),
    (26, "(?<a>a)(?<a>b)", Flags::NONE, 7),
    (27, r"(\w)\1", Flags::D, 4),
    (27, r"(a)\1", Flags::D, 3),
    (28, r"(\d*)*", Flags::D, 5),
    (28, "(a?)*", Flags::D, 4),
    (29, "[A-z]", Flags::D, 1),
];

fn refused(rule: impl AsRef<[u8]>, flags: Flags) -> RuleError {
    Rule::new(rule, flags).expect_err("the rule is refused")
}

fn numbered(error: &RuleError) -> (u32, usize) {
    (error.refusal().reason.number(), error.refusal().place)
}

#[test]
fn each_place_of_a_rule_is_marked() {
    for (number, rule, flags, place) in IN_RULES {
        let error = refused(rule, flags);
        assert_eq!((numbered(&error), error.rule()), ((number, place), rule.as_bytes()), "{rule}");
        let sentence = error.refusal().reason.sentence();
        assert_eq!(error.to_string(), format!("the rule is refused, {number} at {place}: {sentence}\n  {rule}\n  {}^", " ".repeat(place)));
    }
}

/// With 23, which is about a rule that takes several rows.
#[test]
fn every_number_of_a_rule_is_among_them() {
    let numbers: BTreeSet<u32> = IN_RULES.iter().map(|&(number, ..)| number).chain([23]).collect();
    assert_eq!(numbers, (10..=29).collect());
}

/// A rule over several rows: each byte in one column, rows of 64 and the rule's own lines, and a dot for what cannot be shown.
#[test]
fn longer_and_odder_rules() {
    let (long, brackets) = ("a".repeat(64), "()".repeat(32));
    let cases: [(&[u8], Flags, String); 6] = [
        (b"\t\xFF)", Flags::NONE, "21 at 2: a ) that closes nothing\n  ..)\n    ^".to_string()),
        (b"a  # one\n  b **\n  c", Flags::X, "19 at 14: a repeat of a repeat\n  a  # one\n    b **\n       ^\n    c".to_string()),
        (b"\n\n(", Flags::X, "20 at 2: this bracket is not closed by )\n  \n  \n  (\n  ^".to_string()),
        (
            &[long.as_bytes(), b"aaaaaa\\"].concat(),
            Flags::NONE,
            format!("10 at 70: a backslash with nothing behind it\n  {long}\n  aaaaaa\\\n        ^"),
        ),
        (
            &[&long.as_bytes()[1..], b"\\"].concat(),
            Flags::NONE,
            format!("10 at 63: a backslash with nothing behind it\n  {}\\\n{}^", &long[1..], " ".repeat(65)),
        ),
        (
            &[brackets.as_bytes(), brackets.as_bytes(), b"()"].concat(),
            Flags::NONE,
            format!("23 at 128: one group too many; a rule has at most 64\n  {brackets}\n  {brackets}\n  ()\n  ^"),
        ),
    ];
    for (rule, flags, text) in cases {
        assert_eq!(refused(rule, flags).to_string(), format!("the rule is refused, {text}"));
    }
}

/// What is about the call has no picture: its place is no place in the rule.
#[test]
fn refusals_of_the_call() {
    let long = refused([b'('; 1_001], Flags::NONE);
    assert_eq!(long.to_string(), "the rule is refused, 1 at 0: the rule has more than 1000 bytes");
    let flag = refused("(", Flags::from_bits(32));
    assert_eq!(flag.to_string(), "the rule is refused, 3 at 0: a flag that there is not");
    let budget = Rule::with_budget("(", Flags::NONE, 100_001).unwrap_err();
    assert_eq!(budget.to_string(), "the rule is refused, 4 at 0: the budget is over 100000, or over 65535 for a card");
    for (flags, number) in [(Flags::from_bits(u32::MAX), 3), (Flags::NONE, 4)] {
        assert_eq!(numbered(&Rule::with_budget("(", flags, u32::MAX).unwrap_err()), (number, 0));
    }
    assert!(Rule::with_budget("a", Flags::NONE, 100_000).is_ok());
}

/// What a check does not follow: the rule itself is sound, and can be matched.
#[test]
fn rules_that_are_not_checked() {
    let (many, most) = ("|".repeat(256), "|".repeat(255));
    for (rule, number, place) in [
        ("ab(?=c)", 35, 2),
        ("(?!a)", 35, 0),
        ("b(?>a)", 35, 1),
        (r"a\R", 35, 1),
        ("ab*+", 35, 3),
        (&many, 36, 255),
        (&format!("{many}a++"), 35, 258),
        (&format!("(?:{many})"), 36, 258),
    ] {
        let made = Rule::new(rule, Flags::NONE).unwrap();
        let error = made.check("ab", &[0, 0], 99).unwrap_err();
        assert_eq!((numbered(&error), error.rule()), ((number, place), rule.as_bytes()));
        assert!(made.is_match("ab").is_ok());
    }
    let error = Rule::new("ab(?=c)", Flags::NONE).unwrap().check("ab", &[0, 0], 99).unwrap_err();
    assert_eq!(error.to_string(), "the rule is refused, 35 at 2: this looks ahead or holds on, which a check does not follow\n  ab(?=c)\n    ^");
    assert!(Rule::new(most, Flags::NONE).unwrap().check("", &[0, 0, 255], 2).unwrap().known().unwrap().is_some());
}

#[test]
fn a_line_that_is_too_long() {
    let rule = Rule::new("a", Flags::NONE).unwrap();
    let line = [b'a'; 65_536];
    assert_eq!(rule.is_match(&line[..65_535]), Ok(true));
    let error = rule.is_match(&line).unwrap_err();
    assert_eq!((error, error.to_string()), (Unknown::TooLong, "the line is refused, 2 at 0: the line has more than 65535 bytes".to_string()));
}

#[test]
fn each_refusal_of_a_card() {
    let card = write_card("(a)", Flags::NONE, 7).unwrap();
    let changed = |at: usize, byte: u8| [&card[..at], &[byte], &card[at + 1..]].concat();
    // Kind 1 and its body of 4, kind 2 and its body of 32, kind 3 and its body of 2.
    for (card, text) in [
        (vec![4], "30 at 0: a record begins with a byte that is none of the kinds 1, 2 and 3"),
        (changed(0, b'x'), "30 at 0: a record begins with a byte that is none of the kinds 1, 2 and 3"),
        (card[..card.len() - 1].to_vec(), "31 at 0: it ends before its last record does"),
        (card[5..].to_vec(), "32 at 0: its records are in the wrong order, or not as many as the rule's length needs"),
        ([&card[..], b"\n"].concat(), "33 at 0: a byte that pads the rule is not 00, or bytes stand behind the last record"),
        (changed(4, 2), "34 at 0: the number of groups that it says is not the rule's"),
        (changed(1, 32), "3 at 0: a flag that there is not"),
        (changed(8, b'('), "20 at 2: this bracket is not closed by )"),
    ] {
        let error = read_card(&card).unwrap_err();
        assert_eq!(error.to_string(), format!("the card is refused, {text}"));
        assert_eq!(Rule::from_card(&card).unwrap_err(), error);
    }
    let error = write_card("a**", Flags::NONE, 7).unwrap_err();
    assert_eq!(error.to_string(), "the rule is refused, 19 at 2: a repeat of a repeat\n  a**\n    ^");
    let budget = Rule::with_budget("a", Flags::NONE, 65_536).unwrap().card().unwrap_err();
    assert_eq!(numbered(&budget), (4, 0));
}

/// Each reason has a number and a sentence of its own, and the numbers have no gap.
#[test]
fn reasons_and_their_numbers() {
    let reasons: Vec<Reason> = (1..=36).map(|number| Reason::from_number(number).expect("there is no gap")).collect();
    assert!((1..).zip(&reasons).all(|(number, reason)| reason.number() == number));
    assert_eq!(reasons.iter().map(|reason| reason.sentence()).collect::<BTreeSet<_>>().len(), 36);
    assert_eq!([Reason::from_number(0), Reason::from_number(37)], [None, None]);
}

/// A program hands them on by `?`, also between threads.
#[test]
fn errors_are_errors() {
    fn boxed(error: impl Error + Send + Sync + 'static) -> Box<dyn Error + Send + Sync> {
        Box::new(error)
    }
    for (error, text) in [
        (boxed(refused("(", Flags::NONE)), "the rule is refused, 20 at 0: this bracket is not closed by )\n  (\n  ^"),
        (boxed(read_card(b"").unwrap_err()), "the card is refused, 31 at 0: it ends before its last record does"),
        (boxed(Unknown::Exhausted { start: 3, steps: 50 }), "exhausted at 3, after 50 steps in all"),
        (boxed(Unknown::Full { steps: 50 }), "there are more readings than were asked for"),
        (boxed("q".parse::<Flags>().unwrap_err()), "flags are letters out of s, m, i, x, D, or - for none: 'q'"),
    ] {
        assert_eq!(error.to_string(), text);
        assert!(error.source().is_none());
    }
}
