//! The numbers of `limits` and the sentences of refusals, held to include/terravisco.h and docs/GUIDE.md.

use std::collections::BTreeMap;
use std::path::Path;

use terravisco::{limits, Flags, Reason};

fn text(file: &str) -> String {
    std::fs::read_to_string(Path::new(env!("CARGO_MANIFEST_DIR")).join("../..").join(file)).expect("the repository has it")
}

/// The header's constants, worked out in their order: sums and products of numbers and of constants before.
fn constants(header: &str) -> BTreeMap<String, usize> {
    let body = header.split("enum {").nth(1).and_then(|rest| rest.split("};").next()).expect("the header has its numbers in an enum");
    let mut values = BTreeMap::new();
    for line in body.lines() {
        let line = line.split("/*").next().unwrap_or("").trim().trim_end_matches(',');
        if let Some((name, sum)) = line.split_once(" = ") {
            let factor = |factor: &str| factor.parse().unwrap_or_else(|_| values[factor]);
            let value = sum.split(" + ").map(|product| product.split(" * ").map(factor).product::<usize>()).sum();
            values.insert(name.to_string(), value);
        }
    }
    values
}

#[test]
fn each_constant() {
    let found = constants(&text("include/terravisco.h"));
    let ours = [
        ("RULE_AREA", limits::RULE_AREA),
        ("WORK_PER_STEP", limits::WORK_PER_STEP),
        ("GROUPS", limits::GROUPS),
        ("ROW", limits::ROW),
        ("PART", limits::PART),
        ("NAME_ENTRY", limits::NAME_ENTRY),
        ("NAME_INDEX", limits::NAME_INDEX),
        ("LONGEST_RULE", limits::LONGEST_RULE),
        ("DEPOT", Flags::D.bits() as usize),
        ("CARD", limits::CARD),
        ("RULE_BYTES", limits::RULE_BYTES),
        ("ANSWER", limits::ANSWER),
        ("EXPLAIN_ANSWER", limits::EXPLAIN_ANSWER),
        ("CARD_ANSWER", limits::CARD_ANSWER),
    ];
    assert_eq!(found, ours.iter().map(|(name, value)| (format!("TERRAVISCO_{name}"), *value)).collect());
}

#[test]
fn what_the_header_has_in_words() {
    let header = text("include/terravisco.h");
    for words in [
        format!("TERRAVISCO_UNSET UINT32_C({})", limits::UNSET),
        format!("steps for each start in the subject, at most {}", grouped(limits::MOST_BUDGET)),
        format!("budget    at most {}", grouped(limits::MOST_CARD_BUDGET)),
        format!("only each line is limited, to {} bytes", grouped(limits::LONGEST_LINE as u32)),
    ] {
        assert!(header.contains(&words), "{words}");
    }
    for (bit, (letter, flag)) in [("s", Flags::S), ("m", Flags::M), ("i", Flags::I), ("x", Flags::X)].into_iter().enumerate() {
        assert!(header.contains(&format!("bit {bit} is `{letter}`")));
        assert_eq!(flag.bits(), 1 << bit);
    }
}

/// A number as texts write it: 65,535.
fn grouped(number: u32) -> String {
    format!("{},{:03}", number / 1_000, number % 1_000)
}

/// Limits stand in some sentences.
#[test]
fn sentences_have_the_limits() {
    for (reason, limit) in [
        (Reason::RuleTooLong, limits::LONGEST_RULE),
        (Reason::LineTooLong, limits::LONGEST_LINE),
        (Reason::BudgetTooGreat, limits::MOST_BUDGET as usize),
        (Reason::BudgetTooGreat, limits::MOST_CARD_BUDGET as usize),
        (Reason::TooManyGroups, limits::GROUPS),
    ] {
        assert!(reason.sentence().contains(&limit.to_string()), "{reason}");
    }
}

#[test]
fn each_reason_is_in_the_guides_table() {
    let guide = text("docs/GUIDE.md");
    for number in (1..).take_while(|&number| Reason::from_number(number).is_some()) {
        assert!(guide.contains(&format!("\n| {number} | ")), "{number}");
    }
}
