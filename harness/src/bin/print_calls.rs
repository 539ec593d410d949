//! Prints random calls, each on a line with what the independent matcher answers, for `compare_reference.py`: call, flags, budget, the lengths
//! of the areas, of the name index and of the marks, rule, subject and proposal in hex, and the answer, with tabs between them. `--fast`,
//! `--explanations`, `--scans`, `--batches` and `--checks` print the calls of that kind.

use harness::arguments::arguments_and_switches;
use harness::case::{shown, Case};
use harness::random::{batches, calls, checks, explanations, fast, scans};
use harness::raw::Call;
use harness::text::hex;

/// The calls by their numbers.
const KINDS: [Call; 6] = [Call::Match, Call::List, Call::Explain, Call::Scan, Call::Batch, Call::Check];

fn main() {
    let (arguments, switches) = arguments_and_switches(["--fast", "--explanations", "--scans", "--batches", "--checks"], 10_000, 1..2);
    let makers: [fn(u64, u64) -> Case; 5] = [fast::case, explanations::case, scans::case, batches::case, checks::case];
    let make = switches.iter().zip(makers).find(|(is_given, _)| **is_given).map_or(calls::case as fn(u64, u64) -> Case, |(_, make)| make);
    for seed in arguments.seeds.clone() {
        for number in 0..arguments.cases {
            let case = make(seed, number);
            let kind = KINDS.iter().position(|&call| call == case.call).expect("it is one of them");
            let areas = [case.rule_area, case.work_area, case.result_area, case.name_index, case.marks];
            let answer = shown(&case.expected());
            let numbers = [kind, case.flags as usize, case.budget as usize].into_iter().chain(areas).map(|number| number.to_string());
            let fields: Vec<String> = numbers.chain([hex(&case.rule), hex(&case.subject), hex(&case.proposal), answer]).collect();
            println!("{}", fields.join("\t"));
        }
    }
}
