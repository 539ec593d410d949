//! Random field lookups with the library against the independent matcher: on indices of any bytes and any length, and on rows that break each rule of a
//! row. `--cases N --seeds A..B` runs others.

use harness::arguments::arguments;
use harness::independent::lookup::{field, Field};
use harness::looker::{shown, Looker};
use harness::random::lookups;
use harness::report::Group;

fn main() -> std::process::ExitCode {
    let arguments = arguments(200_000, 1..2);
    let mut group = Group::new("random field lookups");
    let mut looker = Looker::default();
    let mut kinds = [0u64; 4];
    for seed in arguments.seeds.clone() {
        for number in 0..arguments.cases {
            let asked = lookups::asked(seed, number);
            let lookup = asked.lookup();
            kinds[kind(field(&lookup), lookup.standing.len())] += 1;
            let faults = looker.compare(&lookup);
            if faults.is_empty() {
                group.pass();
            } else {
                group.fail_with(|| format!("lookup {number} of seed {seed}\n{}\n{}", shown(&lookup), faults.join("\n")));
            }
        }
    }
    let [taken, empty, standing, none] = kinds;
    let told = format!("{taken} parts of the line and {empty} empty ones, {standing} standing texts, {none} empty beginnings");
    group.end(&format!("seeds {:?}: {told}", arguments.seeds))
}

/// Which kind of field: a part of the line, an empty one, the standing text, or its empty beginning; an empty standing text is both.
fn kind(field: Field, standing: usize) -> usize {
    match field {
        Field::Line(from, to) => usize::from(from == to),
        Field::Standing(_, to) if to == standing && standing > 0 => 2,
        Field::Standing(..) => 3,
    }
}
