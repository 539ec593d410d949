//! Perl's own answers: one `perl` process for a batch of questions.

use std::collections::BTreeMap;
use std::io::{ErrorKind, Write};
use std::process::{Command, Stdio};

use crate::independent::{Row, ROW_LENGTH, UNSET};
use crate::text;

/// What Perl is asked.
pub struct Question<'a> {
    pub rule: &'a [u8],
    pub flags: u32,
    pub charset: Charset,
    pub subject: &'a [u8],
    pub groups: usize,
    /// All matches, by `/g`, and not the first alone.
    pub all: bool,
}

/// By which of its character sets Perl reads a rule. On bytes the two have the same sets, and differ in what `i` folds.
#[derive(Clone, Copy)]
pub enum Charset {
    /// `/a`: under `i` the bytes above 7F are Unicode's letters.
    Ascii,
    /// `/d`: they are none.
    Native,
}

pub enum Answer {
    /// The rule was refused, or the match ended in a panic.
    Failed,
    /// Perl took too long.
    Slow,
    /// The matches, one after another, and the names of the first one where it alone was asked for.
    Rows(Vec<Row>, Fields),
}

/// The names of a rule's groups, and what each group took, or none where it is not set.
pub type Fields = BTreeMap<Vec<u8>, Option<Vec<u8>>>;

const SCRIPT: &str = include_str!("../perl/matches.pl");

/// Perl's answers in the order of the questions, or what went wrong. The script ends at a match that takes too long, and what is left is asked anew.
pub fn answers(questions: &[Question]) -> Result<Vec<Answer>, String> {
    let mut answers = Vec::new();
    while answers.len() < questions.len() {
        answers.extend(first_answers(&questions[answers.len()..])?);
    }
    Ok(answers)
}

/// The answers to all questions, or to those up to the first that takes too long.
fn first_answers(questions: &[Question]) -> Result<Vec<Answer>, String> {
    let mut asked = String::new();
    for question in questions {
        let Question { flags, groups, .. } = question;
        let all = u8::from(question.all);
        let charset = if let Charset::Ascii = question.charset { "a" } else { "" };
        asked += &format!("{flags}\t{charset}\t{}\t{}\t{groups}\t{all}\n", text::hex(question.rule), text::hex(question.subject));
    }
    let output = run_script(SCRIPT, asked).map_err(|error| format!("perl does not run: {error}"))?;
    let answers: Option<Vec<Answer>> = output.lines().map(answer).collect();
    match answers {
        Some(answers) if answers.len() == questions.len() || matches!(answers.last(), Some(Answer::Slow)) => Ok(answers),
        _ => Err(format!("perl gave {} lines for {} questions, or one that cannot be read", output.lines().count(), questions.len())),
    }
}

/// What a script prints that is given these lines. It need not read all of them.
pub fn run_script(script: &str, asked: String) -> std::io::Result<String> {
    let mut perl = Command::new("perl").args(["-e", script]).stdin(Stdio::piped()).stdout(Stdio::piped()).spawn()?;
    let mut pipe = perl.stdin.take().expect("the pipe was asked for");
    // Written beside the reading: neither pipe can fill up and block the other.
    let writer = std::thread::spawn(move || pipe.write_all(asked.as_bytes()));
    let output = perl.wait_with_output()?;
    match writer.join().expect("the writer does not panic") {
        Err(error) if error.kind() != ErrorKind::BrokenPipe => Err(error),
        _ => Ok(String::from_utf8_lossy(&output.stdout).into_owned()),
    }
}

/// One line of the script: `failed`, `slow`, `none`, or rows with bars between them, the names of the first among its parts.
fn answer(line: &str) -> Option<Answer> {
    let mut fields = Fields::new();
    match line {
        "failed" => Some(Answer::Failed),
        "slow" => Some(Answer::Slow),
        "none" => Some(Answer::Rows(Vec::new(), fields)),
        _ => {
            let rows = line.split('|').map(|written| row(written, &mut fields)).collect::<Option<Vec<Row>>>()?;
            Some(Answer::Rows(rows, fields))
        }
    }
}

/// `start-end`, `group:start-end` for each group that is set, and `name=hex` or `name=-` for each name.
fn row(written: &str, fields: &mut Fields) -> Option<Row> {
    let mut row = [UNSET; ROW_LENGTH];
    for part in written.split(' ') {
        if let Some((name, taken)) = part.split_once('=') {
            let taken = if taken == "-" { None } else { Some(text::from_hex(taken)?) };
            fields.insert(name.as_bytes().to_vec(), taken);
            continue;
        }
        let (group, span) = part.split_once(':').unwrap_or(("0", part));
        let group: usize = group.parse().ok()?;
        let (from, to) = span.split_once('-')?;
        (row[2 * group], row[2 * group + 1]) = (from.parse().ok()?, to.parse().ok()?);
    }
    Some(row)
}
