//! Runs the examples of `data/`: Perl's documents, documents 01 and 02 with their open points, the guide, explanations, successive matches, a
//! day's lines, proposals that are checked, lookups and rule cards. Both the library and the independent matcher have to give what was written down by hand. `--independent` leaves
//! the library out.

use std::path::Path;

use harness::arguments::arguments_and_switch;
use harness::card_examples;
use harness::cards::CardLender;
use harness::case::Case;
use harness::examples::{self, Example};
use harness::independent::lookup::field;
use harness::lender::Lender;
use harness::looker::{self, Looker};
use harness::lookup_examples;
use harness::raw::Call;
use harness::report::Group;
use harness::text;

fn main() -> std::process::ExitCode {
    let files = [
        ("examples of Perl's documents", "source-examples.txt"),
        ("checked readings, traps and open points", "checked-readings.txt"),
        ("examples of the guide", "guide-examples.txt"),
        ("explanations", "explanations.txt"),
        ("successive matches", "scans.txt"),
        ("a day's lines", "batches.txt"),
        ("proposed readings", "checks.txt"),
    ];
    let (_, is_independent) = arguments_and_switch("--independent", 0, 0..0);
    let has_library = !is_independent;
    let others = [run_lookups("lookups of fields", "lookups.txt", has_library), run_cards("rule cards", "cards.txt", has_library)];
    if files.map(|(name, file)| run(name, file, has_library)).iter().chain(&others).all(|passed| *passed) {
        std::process::ExitCode::SUCCESS
    } else {
        std::process::ExitCode::FAILURE
    }
}

/// Runs one file's examples; says whether all of them passed.
fn run(name: &'static str, file: &str, has_library: bool) -> bool {
    let mut group = Group::new(name);
    match text_of(file).and_then(|text| examples::read(&text)) {
        Err(error) => group.fail(&format!("{file}: {error}")),
        Ok(examples) => {
            let mut lender = has_library.then(Lender::default);
            for example in &examples {
                let faults = judge(lender.as_mut(), example);
                let case = if example.case.subject.len() > 500 { String::new() } else { example.case.shown() };
                group.judge(&format!("line {}: {}\n{case}", example.line, example.from), &faults);
            }
        }
    }
    let passed = !group.has_failed();
    group.end("");
    passed
}

/// The same for the lookups.
fn run_lookups(name: &'static str, file: &str, has_library: bool) -> bool {
    let mut group = Group::new(name);
    match text_of(file).and_then(|text| lookup_examples::read(&text)) {
        Err(error) => group.fail(&format!("{file}: {error}")),
        Ok(examples) => {
            let mut looker = has_library.then(Looker::default);
            for example in &examples {
                let (lookup, expected) = (example.lookup(), example.expected.expect("an example expects something"));
                let mut faults = looker.as_mut().map_or(Vec::new(), |looker| looker.compare(&lookup));
                if field(&lookup) != expected {
                    faults.push(format!("the independent matcher gives {:?}, expected {expected:?}", field(&lookup)));
                }
                group.judge(&format!("line {}: {}\n{}", example.line, example.from, looker::shown(&lookup)), &faults);
            }
        }
    }
    let passed = !group.has_failed();
    group.end("");
    passed
}

/// The same for the rule cards.
fn run_cards(name: &'static str, file: &str, has_library: bool) -> bool {
    let mut group = Group::new(name);
    match text_of(file).and_then(|text| card_examples::read(&text)) {
        Err(error) => group.fail(&format!("{file}: {error}")),
        Ok(examples) => {
            let mut lender = has_library.then(CardLender::default);
            for example in &examples {
                for (case, expected) in example.calls() {
                    let mut faults = lender.as_mut().map_or(Vec::new(), |lender| lender.compare(&case));
                    faults.extend(card_examples::faults(&case, &expected));
                    group.judge(&format!("line {}: {}\n{}", example.line, example.from, case.shown()), &faults);
                }
            }
        }
    }
    let passed = !group.has_failed();
    group.end("");
    passed
}

fn text_of(file: &str) -> Result<String, String> {
    std::fs::read_to_string(Path::new(env!("CARGO_MANIFEST_DIR")).join("data").join(file)).map_err(|error| error.to_string())
}

fn judge(mut lender: Option<&mut Lender>, example: &Example) -> Vec<String> {
    if let Some(other) = &example.same {
        return (0..=255).flat_map(|byte| one_byte(lender.as_deref_mut(), &example.case, other, byte)).collect();
    }
    let mut faults = example.faults("the independent matcher", &example.case.expected());
    if let Some(lender) = lender {
        let run = lender.run(&example.case);
        faults.extend(run.faults);
        faults.extend(example.faults("the library", &run.answer));
    }
    faults
}

/// Both rules have to answer alike on a subject of this byte alone, and as the independent matcher does.
fn one_byte(lender: Option<&mut Lender>, case: &Case, other: &[u8], byte: u8) -> Vec<String> {
    let [one, two] = [&case.rule[..], other].map(|rule| Case::new(Call::Match, rule, case.flags, &[byte], 1_000, 1));
    let mut faults = Vec::new();
    if one.expected().ending != two.expected().ending {
        faults.push(format!("on byte {byte:02x} the independent matcher tells them apart"));
    }
    let Some(lender) = lender else { return faults };
    faults.extend(lender.compare(&one, &one.expected()));
    let endings = [&one, &two].map(|case| lender.run(case).answer.ending);
    if endings[0] != endings[1] {
        faults.push(format!("on byte {byte:02x} {:?}, but {:?} for `{}`", endings[0], endings[1], text::escaped(other)));
    }
    faults
}
