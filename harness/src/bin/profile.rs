//! The depot profile with the library: random calls with flag bit 4 and without. A rule that it takes is answered as without the bit, by every call; one
//! that it refuses for 27 or 28 is sound without it; any other refusal is given without it too. Both are held against the independent matcher.
//! `--cases N --seeds A..B` runs others.

use harness::arguments::arguments;
use harness::case::{shown, Case};
use harness::independent::{Answer, Ending, ALL_FLAGS, FLAG_D};
use harness::lender::Lender;
use harness::random::{calls, rules, Rng};
use harness::raw::Call;
use harness::report::Group;

const CALLS: [Call; 5] = [Call::Match, Call::List, Call::Explain, Call::Scan, Call::Batch];

fn main() -> std::process::ExitCode {
    let arguments = arguments(60_000, 1..3);
    let mut group = Group::new("the depot profile beside the full syntax");
    let mut lender = Lender::default();
    let mut counts = [0u64; 5];
    for seed in arguments.seeds.clone() {
        for number in 0..arguments.cases {
            let case = case(seed, number);
            let with = Case { flags: case.flags | FLAG_D, ..case.clone() };
            let mut faults = lender.compare(&case, &case.expected());
            faults.extend(lender.compare(&with, &with.expected()));
            let answers = [&with, &case].map(|case| lender.run(case).answer);
            counts[kind(&answers[0])] += 1;
            faults.extend(fault(&answers));
            if faults.is_empty() {
                group.pass();
            } else {
                group.fail_with(|| format!("case {number} of seed {seed}\n{}\n{}", case.shown(), faults.join("\n")));
            }
        }
    }
    let [taken, references, repeats, ranges, others] = counts;
    let told = format!("{taken} taken, refused {references} by 27, {repeats} by 28, {ranges} by 29, {others} by others");
    group.end(&format!("seeds {:?}: {told}", arguments.seeds))
}

/// A call without the bit. Half of the rules are made of pieces that the profile takes or refuses.
fn case(seed: u64, number: u64) -> Case {
    let rng = &mut Rng::new(seed ^ 0xDE90, number);
    let case = calls::case(seed, number);
    let rule = if rng.percent(50) { rules::for_profile(rng) } else { case.rule };
    let marks = rule.len();
    Case { call: CALLS[number as usize % CALLS.len()], rule, flags: case.flags & ALL_FLAGS & !FLAG_D, marks, ..case }
}

/// Taken, refused by 27, 28 or 29, or by another number.
fn kind(answer: &Answer) -> usize {
    match answer.ending {
        Ending::Refused(refusal) if (27..=29).contains(&refusal.number) => refusal.number as usize - 26,
        Ending::Refused(_) => 4,
        _ => 0,
    }
}

/// What is wrong with the answers with and without the bit.
fn fault([with, without]: &[Answer; 2]) -> Option<String> {
    let is_right = match kind(with) {
        1 | 2 => !matches!(without.ending, Ending::Refused(_)),
        3 => true,
        _ => with == without,
    };
    (!is_right).then(|| format!("with the bit: {}\nwithout it:   {}", shown(with), shown(without)))
}
