//! The Rust interface: a `Rule` of the package in `bindings/rust` answers as the independent matcher does, on random calls, made from several threads at
//! once, and on random rule cards. What it was made for, examples and edges, is in the package's own tests.

use harness::cards::{shown as shown_card, Asked, CardCase, Told};
use harness::case::{shown, Case};
use harness::independent::{self, Answer};
use harness::random::{calls, cards as random_cards, checks};
use harness::raw::Call;
use harness::report::Group;
use terravisco::{
    read_card, write_card, Attempt, Card, Checked, Explanation, Failure, Flags, Listing, Matches, Misfit, Outcome, Readings, Refusal, Rule, Unknown,
};

const BUDGET: u32 = 1_000;
const ROWS: usize = 5;

fn main() -> std::process::ExitCode {
    let mut group = Group::new("the Rust interface");
    rule_cards(&mut group);
    // Four threads at once, each with rules of its own: the library has no state that calls share.
    let threads: Vec<_> = (0..4).map(|seed| std::thread::spawn(move || random_calls(90 + seed))).collect();
    for thread in threads {
        for (case, faults) in thread.join().expect("a thread does not panic") {
            group.judge(&case, &faults);
        }
    }
    group.end("")
}

/// Random calls of this seed, shown, and what is wrong with each answer.
fn random_calls(seed: u64) -> Vec<(String, Vec<String>)> {
    let mut judged = Vec::new();
    for number in 0..2_000 {
        let random = calls::case(seed, number);
        let flags = random.flags & independent::ALL_FLAGS;
        let rule = Rule::with_budget(&random.rule, Flags::from_bits(flags), BUDGET);
        // A rule is refused before there is a line.
        let subject = if rule.is_ok() { &random.subject[..] } else { b"" };
        for call in [random.call, Call::Explain, Call::Scan, Call::Batch] {
            let case = Case::new(call, &random.rule, flags, subject, BUDGET, room(call, subject.len()));
            // The words have no names: fields are looked up on the examples.
            let expected = shown(&Answer { names: None, ..case.expected() });
            let ours = rule.as_ref().map_or_else(|error| refused(error.refusal()), |rule| told(rule, &case));
            judged.push(judged_by(&case, &ours, &expected));
        }
    }
    (0..2_000).filter_map(|number| check(seed, number)).for_each(|each| judged.push(each));
    judged
}

fn judged_by(case: &Case, ours: &str, expected: &str) -> (String, Vec<String>) {
    (case.shown(), if ours == expected { Vec::new() } else { vec![format!("rule: {ours}\nexpected: {expected}")] })
}

/// A random check, with a budget of its own: that of the rule is another. None where a rule is refused before there is a line.
fn check(seed: u64, number: u64) -> Option<(String, Vec<String>)> {
    let random = checks::case(seed, number);
    let flags = random.flags & independent::ALL_FLAGS;
    let rule = Rule::with_budget(&random.rule, Flags::from_bits(flags), BUDGET / 2).ok()?;
    let case = Case::check(&random.rule, flags, &random.subject, random.budget, &random.proposal);
    let expected = shown(&Answer { names: None, ..case.expected() });
    Some(judged_by(&case, &told(&rule, &case), &expected))
}

/// How many rows or lines there is room for: a rule has it for every line of a buffer, and for all successive matches.
fn room(call: Call, subject: usize) -> usize {
    match call {
        Call::Batch => subject + 1,
        Call::Scan => 2 * subject + 1,
        _ => ROWS,
    }
}

/// Random cards, written and read.
fn rule_cards(group: &mut Group) {
    for number in 0..2_000 {
        let case = random_cards::case(95, number);
        let (ours, case) = match &case.asked {
            Asked::Write { rule, flags, budget } => {
                let written = write_card(rule, Flags::from_bits(*flags), *budget).map_err(|error| error.refusal());
                (written.map(Told::Written), CardCase::write(rule, *flags, *budget))
            }
            Asked::Read { card } => (read_card(card).map(told_card).map_err(|error| error.refusal()), CardCase::read(card)),
        };
        let ours = ours.map_err(|refusal| independent::Refusal { number: refusal.reason.number(), place: refusal.place });
        let (ours, expected) = (shown_card(&ours), shown_card(&case.expected()));
        group.judge(&case.shown(), &if ours == expected { Vec::new() } else { vec![format!("{ours}, expected {expected}")] });
    }
}

fn told_card(card: Card) -> Told {
    Told::Read(independent::cards::Card { rule: card.rule, flags: card.flags.bits(), budget: card.budget, groups: card.groups })
}

/// What the rule says, in the words of `shown`.
fn told(rule: &Rule, case: &Case) -> String {
    match case.call {
        Call::Match => match rule.match_line(&case.subject) {
            Outcome::TooLong => TOO_LONG.to_string(),
            outcome => {
                let (words, row) = told_outcome(&outcome);
                format!("{words} [{row}]")
            }
        },
        Call::List => told_listing(rule.readings(&case.subject, ROWS)),
        Call::Scan => told_matches(rule.captures_iter(&case.subject)),
        Call::Batch => told_lines(rule.match_lines(&case.subject).map(|(_, outcome)| outcome)),
        Call::Explain => told_explanation(rule.explain(&case.subject), case.rule.len()),
        Call::Check => rule.check(&case.subject, &case.proposal, case.budget).map_or_else(|error| refused(error.refusal()), told_check),
    }
}

fn told_check(checked: Checked) -> String {
    match checked {
        Checked::Reading { captures, steps } => format!("a reading, {steps} steps [{captures:?}]"),
        Checked::NoReading { steps } => format!("no reading, {steps} steps []"),
        Checked::Exhausted { start, steps } => format!("exhausted at {start}, {steps} steps []"),
        Checked::TooLong => TOO_LONG.to_string(),
    }
}

fn refused(refusal: Refusal) -> String {
    format!("refused {} at {}", refusal.reason.number(), refusal.place)
}

/// What is said of a line that is too long, as a call of its own.
const TOO_LONG: &str = "refused 2 at 0";

/// A match's outcome with its steps, and its row if it has one, as of a line among others.
fn told_outcome(outcome: &Outcome) -> (String, String) {
    match outcome {
        Outcome::Matched { captures, steps } => (format!("matched, {steps} steps"), format!("{captures:?}")),
        Outcome::NotMatched { steps } => (format!("not matched, {steps} steps"), String::new()),
        Outcome::Exhausted { start, steps } => (format!("exhausted at {start}, {steps} steps"), String::new()),
        Outcome::TooLong => ("refused 2, 0 steps".to_string(), String::new()),
    }
}

fn told_lines<'t>(outcomes: impl Iterator<Item = Outcome<'t>>) -> String {
    let parts: Vec<String> = outcomes
        .map(|outcome| {
            let (words, row) = told_outcome(&outcome);
            format!("{words} {row}").trim_end().to_string()
        })
        .collect();
    format!("done, {} lines [{}]", parts.len(), parts.join("; "))
}

fn told_listing(listing: Listing) -> String {
    let rows = |readings: Readings| readings.map(|reading| format!("{reading:?}")).collect::<Vec<_>>().join("; ");
    match listing {
        Listing::Complete { readings, steps } => format!("complete, {steps} steps [{}]", rows(readings)),
        Listing::Full { readings, steps } => format!("full, {steps} steps [{}]", rows(readings)),
        Listing::Exhausted { start, readings, steps } => format!("exhausted at {start}, {steps} steps [{}]", rows(readings)),
        Listing::TooLong => TOO_LONG.to_string(),
    }
}

/// Successive matches: an error is the last of them, and says how they end.
fn told_matches(matches: Matches) -> String {
    let (mut ending, mut rows) = (format!("complete, {} steps", matches.steps()), Vec::new());
    for found in matches {
        match found {
            Ok(captures) => rows.push(format!("{captures:?}")),
            Err(Unknown::Exhausted { start, steps }) => ending = format!("exhausted at {start}, {steps} steps"),
            Err(_) => return TOO_LONG.to_string(),
        }
    }
    format!("{ending} [{}]", rows.join("; "))
}

/// An explanation with a mark for each byte of the rule.
fn told_explanation(explanation: Explanation, rule: usize) -> String {
    match explanation {
        Explanation::Matched { steps } => format!("matched, {steps} steps []"),
        Explanation::NotMatched(Misfit { steps, furthest, closest, wanted, .. }) => {
            let marks: String = (0..rule).map(|item| if wanted.contains(&item) { '1' } else { '0' }).collect();
            let (Failure { at, item }, Attempt { start, at: close_at, item: close_item }) = (furthest, closest);
            format!("not matched, {steps} steps [] furthest {at} {item} closest {start} {close_at} {close_item} marks {marks}")
        }
        Explanation::Exhausted { start, steps } => format!("exhausted at {start}, {steps} steps []"),
        Explanation::TooLong => TOO_LONG.to_string(),
    }
}
