//! What each call answers, on the examples that it was made for and at its edges.

use terravisco::{limits, read_card, write_card, Attempt, Captures, Card, Checked, Explanation, Failure, Flags, Listing, Outcome, Rule, Unknown};

const TANK: &str = r"^tank (?<tank>\w+):(?: (?<litres>\d+) L)?$";

fn rule(rule: &str) -> Rule {
    Rule::new(rule, Flags::NONE).expect("the rule is sound")
}

fn with_budget(rule: &str, budget: u32) -> Rule {
    Rule::with_budget(rule, Flags::NONE, budget).expect("the rule is sound")
}

fn shown(found: impl Iterator<Item = impl std::fmt::Debug>) -> Vec<String> {
    found.map(|found| format!("{found:?}")).collect()
}

#[test]
fn the_four_outcomes() {
    let rule = with_budget("a*", 6);
    assert!(matches!(rule.match_line("a"), Outcome::Matched { steps: 5, .. }));
    assert!(matches!(with_budget("a", 6).match_line("b"), Outcome::NotMatched { steps: 2 }));
    assert!(matches!(rule.match_line("aa"), Outcome::Exhausted { start: 0, steps: 6 }));
    assert!(matches!(rule.match_line(&[b'a'; 65_536]), Outcome::TooLong));
    assert!(matches!(with_budget("", 0).match_line(""), Outcome::Exhausted { start: 0, steps: 0 }));
}

#[test]
fn as_results() {
    let rule = with_budget("a*b", 20);
    assert_eq!(rule.is_match("aab"), Ok(true));
    assert_eq!(rule.is_match("aac"), Ok(false));
    assert_eq!(rule.is_match(&[b'a'; 20]), Err(Unknown::Exhausted { start: 0, steps: 20 }));
    assert!(rule.captures("aac").unwrap().is_none());
    assert_eq!(rule.captures("caab").unwrap().unwrap().range(), 1..4);
}

#[test]
fn captures_by_number_and_name() {
    let rule = rule(TANK);
    let captures: Captures = rule.captures("tank A1:").unwrap().unwrap();
    assert_eq!((captures.len(), captures.range(), captures.line()), (3, 0..8, &b"tank A1:"[..]));
    assert_eq!((&captures[0], &captures[1], &captures["tank"]), (&b"tank A1:"[..], &b"A1"[..], &b"A1"[..]));
    assert_eq!(captures.name("tank").map(|tank| (tank.start(), tank.end(), tank.len(), tank.is_empty())), Some((5, 7, 2, false)));
    assert_eq!(captures.get(1).unwrap().as_str(), Ok("A1"));
    // Not set, no such number, no such name.
    assert!(captures.get(2).is_none() && captures.name("litres").is_none() && captures.get(3).is_none() && captures.name("").is_none());
    assert_eq!(shown(captures.iter()), [r#"Some(0-8 "tank A1:")"#, r#"Some(5-7 "A1")"#, "None"]);
    assert_eq!(rule.capture_names().collect::<Vec<_>>(), [None, Some("tank"), Some("litres")]);
    assert_eq!(rule.captures_len(), 3);
}

/// What a group took, also nothing, what stands for one that is not set, and none for a name that the rule has not.
#[test]
fn fields_with_a_standing_text() {
    let rule = rule(r"^tank (?<tank>\w*):(?: (?<litres>\d+) L)?$");
    for (line, name, expected) in [
        ("tank A1: 820 L", "litres", Some(&b"820"[..])),
        ("tank A1: 820 L", "tank", Some(b"A1")),
        ("tank A1:", "litres", Some(b"600")),
        ("tank : 1 L", "tank", Some(b"")),
        ("tank A1: 820 L", "Litres", None),
        ("tank A1: 820 L", "litre", None),
        ("tank A1: 820 L", "", None),
    ] {
        assert_eq!(rule.captures(line).unwrap().unwrap().field(name, b"600"), expected, "{name} of {line}");
    }
    assert!(rule.captures("hall A1: 820 L").unwrap().is_none());
}

#[test]
fn a_field_of_each_reading() {
    let readings = rule(r"^(?:(?<thousands>\d{1,3},\d{3})|(?<decimal>\d+,\d+)) L$").readings("1,500 L", 9).known().unwrap();
    assert_eq!(readings.map(|reading| reading.field("decimal", b"none").unwrap().to_vec()).collect::<Vec<_>>(), [&b"none"[..], b"1,500"]);
}

#[test]
#[should_panic(expected = "no group `litres` is set")]
fn a_name_that_is_not_set() {
    let rule = rule(TANK);
    let _ = &rule.captures("tank A1:").unwrap().unwrap()["litres"];
}

#[test]
#[should_panic(expected = "no group 3 is set")]
fn a_number_that_there_is_not() {
    let _ = &rule(TANK).captures("tank A1:").unwrap().unwrap()[3];
}

/// As many groups as there can be, named by as many bytes as a name can have.
#[test]
fn the_most_groups() {
    let names: Vec<String> = (0..64).map(|number| format!("n{number:0>2}")).collect();
    let text: String = names.iter().map(|name| format!("(?<{name}>.)")).collect();
    let (rule, line) = (rule(&text), "x".repeat(64));
    let captures = rule.captures(&line).unwrap().unwrap();
    assert_eq!((rule.captures_len(), captures.get(64).unwrap().range(), captures.name("n63").unwrap().range()), (65, 63..64, 63..64));
    assert_eq!(rule.capture_names().flatten().collect::<Vec<_>>(), names);
    let longest = Rule::new("(?<abcdefghijklmnop>a)", Flags::NONE).unwrap();
    assert_eq!(&longest.captures("a").unwrap().unwrap()["abcdefghijklmnop"], b"a");
}

#[test]
fn flags_by_name_and_letter() {
    let each =
        [(Flags::S, "s", "^a.b", "a\nb"), (Flags::M, "m", "^b", "a\nb"), (Flags::I, "i", "tank", "TANK"), (Flags::X, "x", "t a n k # 7", "tank")];
    for (flag, letter, text, line) in each {
        assert_eq!(letter.parse(), Ok(flag));
        assert_eq!(rule(text).is_match(line), Ok(false));
        for (other, ..) in each {
            assert_eq!(Rule::new(text, other).unwrap().is_match(line), Ok(other == flag), "{text} under {other:?}");
        }
    }
    assert_eq!(Rule::new(r"(\d+),\d", Flags::D).unwrap().is_match("1,5"), Ok(true));
    assert_eq!("sD".parse(), Ok(Flags::S | Flags::D));
    assert!(Flags::from_bits(5).contains(Flags::I) && !Flags::from_bits(5).contains(Flags::M));
}

#[test]
fn successive_matches() {
    for (text, line, expected) in [
        (r"(\d+) L", "tank 7: 820 L, tank 8: 640 L", &["Ok(8-13 1:8-11)", "Ok(23-28 1:23-26)"][..]),
        ("a*?", "aa", &["Ok(0-0)", "Ok(0-1)", "Ok(1-1)", "Ok(1-2)", "Ok(2-2)"]),
        ("x", "aa", &[]),
    ] {
        assert_eq!(shown(rule(text).captures_iter(line)), expected);
    }
}

/// There is always room in the end, also for as many matches as a line can have.
#[test]
fn many_successive_matches() {
    for length in [7, 8, 31, 32, 1_000] {
        let line = "a".repeat(length);
        assert_eq!(rule("a??").captures_iter(&line).len(), 2 * length + 1);
    }
}

/// Those found before come first, then what is not known, and then nothing.
#[test]
fn successive_matches_that_are_exhausted() {
    let rule = with_budget("a+b|c", 20);
    let line = format!("c{}", "a".repeat(20));
    let mut matches = rule.captures_iter(&line);
    assert_eq!((matches.len(), matches.steps()), (2, 26));
    assert_eq!(matches.next().unwrap().unwrap().range(), 0..1);
    assert_eq!(matches.next().unwrap().unwrap_err(), Unknown::Exhausted { start: 1, steps: 26 });
    assert!(matches.next().is_none() && matches.next().is_none());
    let long = vec![b'a'; 65_536];
    assert_eq!(shown(rule.captures_iter(&long)), ["Err(TooLong)"]);
}

#[test]
fn readings() {
    let comma = rule(r"^(?:(\d{1,3},\d{3})|(\d+,\d+)) L$");
    assert_eq!(shown(comma.readings("1,500 L", 1_000).known().unwrap()), ["0-7 1:0-5", "0-7 2:0-5"]);
    assert_eq!(comma.readings("none", 1).known().unwrap().len(), 0);
    // One asked for, and two there.
    let Listing::Full { readings, steps } = comma.readings("1,500 L", 1) else { panic!("there are two") };
    assert_eq!(shown(readings), ["0-7 1:0-5"]);
    assert_eq!(comma.readings("1,500 L", 1).known().unwrap_err(), Unknown::Full { steps });
    // None asked for counts as one.
    assert!(matches!(comma.readings("1,500 L", 0), Listing::Full { readings, .. } if readings.len() == 1));
    let Listing::Exhausted { start: 0, readings, steps: 6 } = with_budget("a*", 6).readings("aa", 9) else { panic!("it takes 9 steps") };
    assert_eq!(readings.len(), 0);
    assert!(matches!(comma.readings(&[b'a'; 65_536], 9), Listing::TooLong));
}

/// More of them than are asked for at first: at, before and behind the edges.
#[test]
fn many_readings() {
    for count in [15, 16, 17, 63, 64, 65, 300] {
        let line = "a".repeat(count - 1);
        for most in [count, count + 1, usize::MAX] {
            assert_eq!(rule("^a*").readings(&line, most).known().unwrap().len(), count);
        }
        assert!(matches!(rule("^a*").readings(&line, count - 1), Listing::Full { readings, .. } if readings.len() == count - 1));
    }
}

#[test]
fn explanations() {
    let rule = with_budget(r"^tank (\w+): (\d+) L$", 1_000);
    let Explanation::NotMatched(misfit) = rule.explain("tank A1 820 L") else { panic!("it does not fit") };
    assert_eq!((misfit.steps, misfit.furthest, misfit.closest), (30, Failure { at: 13, item: 0 }, Attempt { start: 0, at: 7, item: 7 }));
    assert_eq!(misfit.wanted, [7, 11]);
    assert!(matches!(rule.explain("tank A1: 820 L"), Explanation::Matched { .. }));
    assert!(matches!(with_budget("(a*)*b", 1_000).explain(&[b'a'; 40]), Explanation::Exhausted { start: 0, steps: 1_000 }));
    assert!(matches!(rule.explain(&[b'a'; 65_536]), Explanation::TooLong));
    let longest = Rule::new([b'a'; limits::LONGEST_RULE], Flags::NONE).unwrap();
    assert!(matches!(longest.explain("a"), Explanation::NotMatched(misfit) if misfit.wanted == [1]));
}

/// A mark may stand behind the line's last byte, also where a row ends there.
#[test]
fn explanations_shown_at_a_rows_end() {
    for length in [0, 1, 63, 64, 65, 128] {
        let line = "a".repeat(length);
        let rule = rule("^a*b");
        let Explanation::NotMatched(misfit) = rule.explain(&line) else { panic!("it does not fit") };
        let last = if length == 0 { 0 } else { (length - 1) % 64 + 1 };
        let row = format!("\n  {}\n  {}^\nwhat", "a".repeat(last), "-".repeat(last));
        assert!(misfit.to_string().contains(&row), "{misfit}");
    }
}

fn words(outcome: &Outcome) -> &'static str {
    match outcome {
        Outcome::Matched { .. } => "matched",
        Outcome::NotMatched { .. } => "not matched",
        Outcome::Exhausted { .. } => "exhausted",
        Outcome::TooLong => "too long",
    }
}

/// Each with its own answer, an empty one, an exhausted one and one that is too long among them.
#[test]
fn lines() {
    let rule = with_budget("^(?:a*)*b?$|^c", 200);
    let buffer = [b"c\nd\n\n", &[b'a'; 30][..], b"x\n", &[b'a'; 65_536], b"\nab"].concat();
    let told: Vec<_> = rule.match_lines(&buffer).map(|(line, outcome)| (line.len(), words(&outcome))).collect();
    assert_eq!(told, [(1, "matched"), (1, "not matched"), (0, "matched"), (31, "exhausted"), (65_536, "too long"), (2, "matched")]);
    assert_eq!(rule.match_lines("").count(), 0);
    assert_eq!(rule.match_lines("\n\n").count(), 2);
}

#[test]
fn a_field_of_each_line() {
    let rule = rule(TANK);
    let buffer = "tank 7: 820 L\nhall 3\n\ntank 8:\ntank 9: 5 L";
    let litres = |outcome: Outcome| outcome.known().unwrap().map(|captures| captures.field("litres", b"600").unwrap().to_vec());
    let told: Vec<_> = rule.match_lines(buffer).map(|(_, outcome)| litres(outcome)).collect();
    assert_eq!(told, [Some(b"820".to_vec()), None, None, Some(b"600".to_vec()), Some(b"5".to_vec())]);
}

/// A long day is handed over in pieces: each line is as by a call of its own, at the edges of the pieces too.
#[test]
fn many_lines() {
    let rule = with_budget(r"^(\d+)$", 100);
    for count in [999, 1_000, 1_001, 2_000, 2_001] {
        for last in ["", "\n"] {
            let buffer = (0..count).map(|number| format!("{number}{}", if number % 7 == 0 { "x" } else { "" })).collect::<Vec<_>>().join("\n") + last;
            let told: Vec<_> = rule.match_lines(&buffer).map(|(line, outcome)| (line, format!("{outcome:?}"))).collect();
            let each: Vec<_> = buffer.lines().map(|line| (line.as_bytes(), format!("{:?}", rule.match_line(line)))).collect();
            assert_eq!(told, each);
        }
    }
}

/// Threads share a rule and take turns, or have a clone each.
#[test]
fn the_four_answers_to_a_proposal() {
    let rule = rule("(a|ab)*");
    // Two rounds, `a` and `ab`.
    let proposal = [0, 0, 1, 0, 1, 1, 0];
    let Checked::Reading { captures, steps } = rule.check("aab", &proposal, 100).unwrap() else { panic!("it is a reading") };
    assert_eq!((format!("{captures:?}"), steps), ("0-3 1:1-3".to_string(), 13));
    // It is a reading, and not the match.
    assert_eq!(format!("{:?}", rule.captures("aab").unwrap().unwrap()), "0-2 1:1-2");
    assert!(matches!(rule.check("aab", &proposal[..6], 100), Ok(Checked::NoReading { steps: 12 })));
    assert!(matches!(rule.check("aab", &[0], 100), Ok(Checked::NoReading { steps: 0 })));
    assert!(matches!(rule.check("xaab", &[&[1], &proposal[1..]].concat(), 12), Ok(Checked::Exhausted { start: 1, steps: 12 })));
    assert!(matches!(rule.check(&[b'a'; 65_536], &proposal, 100), Ok(Checked::TooLong)));
}

#[test]
fn checks_as_results() {
    let rule = rule("a*");
    assert_eq!(rule.check("aa", &[0, 0, 1, 0], 9).unwrap().known().unwrap().map(|reading| reading.range()), Some(0..1));
    assert!(rule.check("aa", &[0, 0, 2], 9).unwrap().known().unwrap().is_none());
    assert_eq!(rule.check("aa", &[0, 0, 1, 0], 3).unwrap().known().unwrap_err(), Unknown::Exhausted { start: 0, steps: 3 });
    assert_eq!(rule.check(&[b'a'; 65_536], &[], 3).unwrap().known().unwrap_err(), Unknown::TooLong);
}

/// A check may have a smaller budget than its rule, or a larger one, and the rule's own stays.
#[test]
fn a_check_has_a_budget_of_its_own() {
    for own in [0, 5, 6, 100_000] {
        let rule = with_budget("a*", own);
        for budget in [6, 7, 1_000, 100_000] {
            assert!(matches!(rule.check("aa", &[0, 0, 1, 1, 0], budget), Ok(Checked::Reading { steps: 6, .. })));
        }
        assert!(matches!(rule.check("aa", &[0, 0, 1, 1, 0], 5), Ok(Checked::Exhausted { start: 0, steps: 5 })));
        assert_eq!((rule.budget(), rule.is_match("").is_ok()), (own, own > 0));
    }
    let error = rule("a*").check("aa", &[0, 0, 0], 100_001).unwrap_err();
    assert_eq!(error.to_string(), "the rule is refused, 4 at 0: the budget is over 100000, or over 65535 for a card");
}

/// Every choice that there can be at an alternation of as many branches as a check follows.
#[test]
fn the_most_branches() {
    let rule = rule(&(0..256).map(|number| "a".repeat(number % 3)).collect::<Vec<_>>().join("|"));
    for number in 0..=255 {
        let reading = rule.check("aa", &[0, 0, number], 9).unwrap().known().unwrap().expect("each is a reading");
        assert_eq!(reading.range(), 0..usize::from(number) % 3);
    }
}

#[test]
fn threads() {
    let rule = rule(r"^(\d+)$");
    let (shared, own) = (&rule, rule.clone());
    std::thread::scope(|scope| {
        for thread in 0..4 {
            let own = own.clone();
            scope.spawn(move || {
                for number in 0..200 {
                    let line = format!("{}", thread * 1_000 + number);
                    assert_eq!(&shared.captures(&line).unwrap().unwrap()[1], line.as_bytes());
                    assert_eq!(&own.captures(&line).unwrap().unwrap()[1], line.as_bytes());
                }
            });
        }
    });
}

/// A capture outlives its rule and is kept with its line alone.
#[test]
fn captures_outlive_their_rule() {
    let line = String::from("tank A1: 820 L");
    let captures = rule(TANK).captures(&line).unwrap().unwrap();
    assert_eq!(&captures["litres"], b"820");
}

/// A `str` is its bytes in UTF-8: a sign beyond ASCII is two of them or more, and in a class each is for itself.
#[test]
fn signs_beyond_ascii() {
    assert_eq!(rule("é").captures("é").unwrap().unwrap().range(), 0..2);
    let half = rule("[é]").captures("é").unwrap().unwrap().whole();
    assert_eq!((half.range(), half.as_str().is_err()), (0..1, true));
}

#[test]
fn a_card_written_and_read() {
    let rule = br"^tank (?<tank>\w+): (\d+) L$";
    let card = write_card(rule, Flags::I, 1_000).unwrap();
    assert_eq!(card.len(), 41);
    assert_eq!(read_card(&card), Ok(Card { rule: rule.to_vec(), flags: Flags::I, budget: 1_000, groups: 2 }));
}

#[test]
fn what_a_rule_is_made_of() {
    let rule = Rule::with_budget(b"a\xFF".as_slice(), Flags::I | Flags::M, 7).unwrap();
    assert_eq!((rule.as_bytes(), rule.flags(), rule.budget()), (&b"a\xFF"[..], Flags::from_bits(6), 7));
    assert_eq!(self::rule("a").budget(), terravisco::BUDGET);
    let again = Rule::from_card(&rule.card().unwrap()).unwrap();
    assert_eq!((again.as_bytes(), again.flags(), again.budget()), (rule.as_bytes(), rule.flags(), rule.budget()));
    assert_eq!(again.captures_len(), 1);
}
