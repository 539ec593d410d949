//! Request n) of document 02 with the library: random calls of every kind, each at a budget and at a larger one. What is known at the smaller one stays, with
//! row and steps; an exhausted listing's rows are the first rows of the other. No other matcher is asked. `--cases N --seeds A..B` runs others.

use harness::arguments::arguments;
use harness::case::{shown, shown_part, Case};
use harness::independent::{Answer, Ending, Part, WORK_PER_STEP};
use harness::lender::Lender;
use harness::random::{batches, calls, checks, explanations, fast, scans, Rng};
use harness::report::Group;

const MAKERS: [fn(u64, u64) -> Case; 6] = [calls::case, fast::case, explanations::case, scans::case, batches::case, checks::case];
const MOST_BUDGET: u32 = 100_000;

fn main() -> std::process::ExitCode {
    let arguments = arguments(60_000, 1..3);
    let mut group = Group::new("a larger budget");
    let mut lender = Lender::default();
    let (mut known, mut cut, mut told_then) = (0u64, 0u64, 0u64);
    for seed in arguments.seeds.clone() {
        for number in 0..arguments.cases {
            let rng = &mut Rng::new(seed ^ 0xB0D6, number);
            let small = MAKERS[number as usize % MAKERS.len()](seed, number);
            let large = with_more(rng, &small);
            let [first, second] = [&small, &large].map(|case| lender.run(case).answer);
            if [&first, &second].iter().any(|answer| matches!(answer.ending, Ending::Refused(_))) {
                continue;
            }
            match is_cut(&first) {
                false => known += 1,
                true if is_cut(&second) => cut += 1,
                true => told_then += 1,
            }
            group.judge(&format!("case {number} of seed {seed}, and with budget {}\n{}", large.budget, small.shown()), &faults(&first, &second));
        }
    }
    let told = format!("{known} known at both, {cut} exhausted at both, {told_then} known at the larger alone");
    group.end(&format!("seeds {:?}: {told}", arguments.seeds))
}

/// The same call with a larger budget, and a work area for it.
fn with_more(rng: &mut Rng, case: &Case) -> Case {
    let more = match rng.weighted(&[30, 30, 30, 10]) {
        0 => 1,
        1 => rng.between(1, 10),
        2 => rng.between(10, 300),
        _ => rng.between(300, 3_000),
    };
    let budget = case.budget.saturating_add(more as u32).min(MOST_BUDGET.max(case.budget));
    let work_area = case.work_area + WORK_PER_STEP * (budget - case.budget) as usize;
    Case { budget, work_area, ..case.clone() }
}

/// Was it exhausted, or one of its lines?
fn is_cut(answer: &Answer) -> bool {
    matches!(answer.ending, Ending::Exhausted(_)) || answer.parts.iter().any(is_cut_line)
}

fn is_cut_line(part: &Part) -> bool {
    part.outcome[0] == 2
}

/// What is wrong with the answer at the larger budget.
fn faults(small: &Answer, large: &Answer) -> Vec<String> {
    let mut faults = Vec::new();
    match small.ending {
        Ending::Exhausted(_) if !large.rows.starts_with(&small.rows) => faults.push("its rows are not the first of the other's".to_string()),
        Ending::Exhausted(_) => {}
        Ending::Done => {
            let lines = small.parts.iter().zip(&large.parts).filter(|(one, two)| !is_cut_line(one) && one != two);
            faults.extend(lines.map(|(one, two)| format!("a line was `{}`, and is `{}`", shown_part(one), shown_part(two))));
        }
        _ if small != large => faults.push("the answer has changed".to_string()),
        _ => {}
    }
    if !faults.is_empty() {
        faults.push(format!("at first: {}\nthen:     {}", shown(small), shown(large)));
    }
    faults
}
