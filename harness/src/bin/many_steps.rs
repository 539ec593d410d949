//! Calls that take more steps than 32 bits can count, so that the answer's second number of steps is not 0. A reference pays a step for each byte that it
//! compares: a start makes nearly 100,000 steps at some 200 nodes, which the independent matcher can follow too.

use harness::case::{shown, Case};
use harness::lender::Lender;
use harness::raw::Call;
use harness::report::Group;

/// Three times seven times the 4,352 bytes of the third group, as far as the line has them: just within the budget. The `b` is never there.
const RULE: &[u8] = br"(a{16})(\1{16})(\2{17})(?!\3{7}b)(?!\3{7}b)\3{7}b";
const BUDGET: u32 = 100_000;

fn main() -> std::process::ExitCode {
    let mut group = Group::new("steps beyond 32 bits");
    let mut lender = Lender::default();
    for call in [Call::Match, Call::Explain, Call::Scan, Call::Batch] {
        // With an 0A, so that it is a line of a batch too.
        let behind = if call == Call::Batch { &b"\n"[..] } else { b"" };
        let case = Case::new(call, RULE, 0, &[&[b'a'; 65_535][..], behind].concat(), BUDGET, 1);
        let expected = case.expected();
        let mut faults = lender.compare(&case, &expected);
        let steps = expected.parts.first().map_or(expected.steps, |part| u64::from(part.outcome[3]) << 32);
        if steps >> 32 == 0 {
            faults.push(format!("the case has too few steps: {}", shown(&expected)));
        }
        group.judge(&format!("{call:?}"), &faults);
    }
    group.end("")
}
