//! Times the library beside PCRE2's interpreter and Perl, and prints a table for docs/BENCHMARKS.md; `--only WORDS` of the cases that have the words in
//! their name. `--growth` prints how the library's times grow with the size, and `--lines` times a day's lines at once. For two libraries there are as many programs: `--numbers WORDS`
//! prints the numbers of the cases of that name, `--plain NUMBER` plain numbers of one of them (nothing where the library does not hold its flags),
//! and `--compare BEFORE AFTER` a table of two files of such lines.

use std::fs::read_to_string;
use std::process::ExitCode;

use harness::bench::contest::{measure, Measured, Rate};
use harness::bench::library::Library;
use harness::bench::perl::{self, Perl};
use harness::bench::{cases, compare, growth, lines, pcre2, table, Case, Reply};

/// Passes over all cases: work beside that slows a whole case down is hardly there at the same case of each pass.
const PASSES: usize = 4;

fn main() -> ExitCode {
    let given: Vec<String> = std::env::args().skip(1).collect();
    match given.iter().map(String::as_str).collect::<Vec<_>>()[..] {
        [] => print_table(""),
        ["--only", words] => print_table(words),
        ["--numbers", words] => print_numbers(words),
        ["--plain", number] => {
            let case = &cases::all()[number.parse::<usize>().expect("a case has a number")];
            if Library::new(case).holds() {
                compare::print_plain(case, &measure(case));
            }
        }
        ["--growth"] => growth::print(),
        ["--lines"] => {
            println!("{}\n", pcre2::version());
            lines::print();
            growth::print_by_lines();
        }
        ["--compare", before, after] => return print_comparison(before, after),
        _ => {
            eprintln!("usage: [--only WORDS | --growth | --lines | --numbers WORDS | --plain NUMBER | --compare BEFORE AFTER]");
            return ExitCode::from(2);
        }
    }
    ExitCode::SUCCESS
}

fn print_numbers(words: &str) {
    for (number, _) in cases::all().iter().enumerate().filter(|(_, case)| case.name.contains(words)) {
        println!("{number}");
    }
}

fn print_table(words: &str) {
    let cases = cases::named(words);
    let (mut all, perl) = pass(&cases);
    for _ in 1..PASSES {
        for (measured, other) in all.iter_mut().zip(pass(&cases).0) {
            measured.shorten(&other);
        }
    }
    println!("{}; {perl}\n", pcre2::version());
    table::print_head();
    for (case, measured) in cases.iter().zip(&all) {
        table::print_row(case, measured);
    }
}

/// The steps are part of every answer: two libraries that differ in them are not both right, whatever their times.
fn print_comparison(before: &str, after: &str) -> ExitCode {
    println!("{}\n", pcre2::version());
    let read = |path| read_to_string(path).map_err(|error| format!("{path}: {error}"));
    match read(before).and_then(|before| compare::print_table(&before, &read(after)?)) {
        Ok(true) => return ExitCode::SUCCESS,
        Ok(false) => println!("\nFAILED: THE STEPS OF SOME CASES DIFFER. One of the two libraries counts wrongly."),
        Err(error) => eprintln!("{error}"),
    }
    ExitCode::FAILURE
}

/// All cases once, and Perl's version or what is wrong with it.
fn pass(cases: &[Case]) -> (Vec<Measured>, String) {
    let perl = perl::run(cases);
    let mut all: Vec<Measured> = cases.iter().map(measure).collect();
    for (index, measured) in all.iter_mut().enumerate() {
        let rate = perl.as_ref().map_or(Rate::Skipped, |perl| rate_of(perl, index, &measured.reply));
        measured.rivals.push(rate);
    }
    (all, perl.map_or_else(|error| error, |perl| perl.version))
}

fn rate_of(perl: &Perl, index: usize, reply: &Reply) -> Rate {
    match &perl.results[index] {
        None => Rate::None,
        Some((theirs, seconds)) if theirs == reply => Rate::Seconds(*seconds),
        Some((theirs, _)) => Rate::Differs(theirs.word()),
    }
}
