//! The library against the independent matcher on random calls: answers, steps, rows, refusals with their places, and every number of the
//! three areas. `--cases N --seeds A..B` runs other cases, as many as wanted; `--fast` those that are aimed at a matcher's fast paths.

use harness::arguments::arguments_and_switch;
use harness::case::Case;
use harness::random::{calls, fast};
use harness::trial::{run, Kinds, OF_CHECKS};

fn main() -> std::process::ExitCode {
    let (arguments, is_fast) = arguments_and_switch("--fast", 100_000, 1..4);
    let (name, make): (_, fn(u64, u64) -> Case) = if is_fast {
        ("random calls for fast paths against the independent matcher", fast::case)
    } else {
        ("random calls against the independent matcher", calls::case)
    };
    let mut kinds = Kinds::new(&OF_CHECKS);
    let group = run(name, &arguments, make, |_, expected| kinds.count(expected));
    group.end(&format!("seeds {:?}: {}", arguments.seeds, kinds.told()))
}
