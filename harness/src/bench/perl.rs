//! Perl as a contender: one process that takes its own time for each case, apart from the others' turns.

use super::{Case, Reply};
use crate::perl::{self, Answer, Charset, Question};
use crate::raw::Call;
use crate::text;

const SCRIPT: &str = include_str!("../../perl/bench.pl");

/// Perl's version and, for each case, its answer and the seconds a match takes; a listing has none.
pub struct Perl {
    pub version: String,
    pub results: Vec<Option<(Reply, f64)>>,
}

/// Asks Perl all cases that are matches, or tells what went wrong.
pub fn run(cases: &[Case]) -> Result<Perl, String> {
    let matches: Vec<&Case> = cases.iter().filter(|case| case.call == Call::Match).collect();
    let asked = matches.iter().map(|case| format!("{}\t{}\t{}\n", case.flags, text::hex(&case.rule), text::hex(&case.subject))).collect();
    let output = perl::run_script(SCRIPT, asked).map_err(|error| format!("perl does not run: {error}"))?;
    let mut lines = output.lines();
    let version = format!("Perl {}", lines.next().unwrap_or("of no version"));
    let times: Option<Vec<f64>> = lines.map(|line| line.parse().ok()).collect();
    let times = times.filter(|times| times.len() == matches.len()).ok_or("perl gave other lines than asked for")?;
    let mut answered = replies(&matches)?.into_iter().zip(times);
    let results = cases.iter().map(|case| if case.call == Call::Match { answered.next() } else { None }).collect();
    Ok(Perl { version, results })
}

fn replies(cases: &[&Case]) -> Result<Vec<Reply>, String> {
    let questions: Vec<Question> = cases.iter().map(|case| question(case)).collect();
    let reply = |answer| match answer {
        Answer::Rows(rows, _) => Reply::Rows(rows.concat()),
        Answer::Failed | Answer::Slow => Reply::GaveUp,
    };
    Ok(perl::answers(&questions)?.into_iter().map(reply).collect())
}

fn question(case: &Case) -> Question<'_> {
    Question { rule: &case.rule, flags: case.flags, charset: Charset::Ascii, subject: &case.subject, groups: 32, all: false }
}
