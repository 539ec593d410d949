//! The arguments that the test programs share: `--cases N` and `--seeds A..B`, and switches that some of them have.

use std::ops::Range;

/// How many cases of each seed, and which seeds.
pub struct Arguments {
    pub cases: u64,
    pub seeds: Range<u64>,
}

/// The arguments given, or these for the ones that are not; ends the program where they cannot be read.
pub fn arguments(cases: u64, seeds: Range<u64>) -> Arguments {
    read_all(std::env::args().skip(1).collect(), Arguments { cases, seeds })
}

/// The same where a switch may stand among them, and whether it does.
pub fn arguments_and_switch(switch: &str, cases: u64, seeds: Range<u64>) -> (Arguments, bool) {
    let (arguments, [is_given]) = arguments_and_switches([switch], cases, seeds);
    (arguments, is_given)
}

/// The same for several switches.
pub fn arguments_and_switches<const N: usize>(switches: [&str; N], cases: u64, seeds: Range<u64>) -> (Arguments, [bool; N]) {
    let (given_switches, given): (Vec<String>, Vec<String>) = std::env::args().skip(1).partition(|argument| switches.contains(&argument.as_str()));
    (read_all(given, Arguments { cases, seeds }), switches.map(|switch| given_switches.iter().any(|given| given == switch)))
}

fn read_all(given: Vec<String>, mut arguments: Arguments) -> Arguments {
    if !given.len().is_multiple_of(2) || !given.chunks(2).all(|pair| read(&mut arguments, &pair[0], &pair[1])) {
        eprintln!("usage: [--cases N] [--seeds A..B]");
        std::process::exit(2);
    }
    arguments
}

fn read(arguments: &mut Arguments, name: &str, value: &str) -> bool {
    match name {
        "--cases" => value.parse().map(|cases| arguments.cases = cases).is_ok(),
        "--seeds" => {
            let ends = value.split_once("..").and_then(|(from, to)| Some((from.parse().ok()?, to.parse().ok()?)));
            ends.map(|(from, to)| arguments.seeds = from..to).is_some()
        }
        _ => false,
    }
}
