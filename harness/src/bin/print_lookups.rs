//! Prints random lookups, each on a line with what the independent matcher gives, for `compare_reference.py --lookups`: name and index in hex, the line's
//! length, kind, row and the standing text's length, and the field's three numbers, with tabs between them.

use harness::arguments::arguments;
use harness::independent::lookup;
use harness::random::lookups;
use harness::text::hex;

fn main() {
    let arguments = arguments(20_000, 1..2);
    let numbers = |numbers: &mut dyn Iterator<Item = u64>| numbers.map(|number| number.to_string()).collect::<Vec<_>>().join(" ");
    for seed in arguments.seeds.clone() {
        for number in 0..arguments.cases {
            let asked = lookups::asked(seed, number);
            let lookup = asked.lookup();
            let row = numbers(&mut lookup.row.iter().map(|&number| u64::from(number)));
            let field = numbers(&mut lookup::field(&lookup).numbers().into_iter());
            let (name, names, line, standing) = (hex(lookup.name), hex(lookup.names), lookup.line.len(), lookup.standing.len());
            println!("{name}\t{names}\t{line}\t{}\t{row}\t{standing}\t{field}", lookup.kind);
        }
    }
}
