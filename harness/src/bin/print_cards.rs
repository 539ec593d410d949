//! Prints random rule cards, each on a line with what the independent matcher answers, for `compare_reference.py --cards`: the rule in hex, its flags and
//! its budget, or `read`, nothing and the card in hex; the lengths of the two areas; and the answer, with tabs between them.

use harness::arguments::arguments;
use harness::cards::{shown, Asked};
use harness::random::cards;
use harness::text::hex;

fn main() {
    let arguments = arguments(20_000, 1..2);
    for seed in arguments.seeds.clone() {
        for number in 0..arguments.cases {
            let case = cards::case(seed, number);
            let asked = match &case.asked {
                Asked::Write { rule, flags, budget } => format!("{}\t{flags}\t{budget}", hex(rule)),
                Asked::Read { card } => format!("read\t\t{}", hex(card)),
            };
            println!("{asked}\t{}\t{}\t{}", case.rule_area, case.written_area, shown(&case.expected()));
        }
    }
}
