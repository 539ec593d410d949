//! Examples written down by hand in `data/`: what is asked and what is expected. The head of `source-examples.txt` says how they look.

use crate::case::{shown_part, shown_row, Case};
use crate::independent::{
    self, Answer, Attempt, Ending, Explanation, Miss, FLAG_D, FLAG_I, FLAG_M, FLAG_S, FLAG_X, INDEX_LENGTH, LONGEST_NAME, PART_LENGTH, ROW_LENGTH,
};
use crate::raw::Call;
use crate::text;

pub struct Example {
    /// The document and its words, or the point decided.
    pub from: String,
    /// The line in the file at which the example begins.
    pub line: usize,
    pub case: Case,
    /// A second rule that takes the same single bytes, instead of an expected answer.
    pub same: Option<Vec<u8>>,
    /// The readings in order, as `shown_row` writes them, or the lines' parts as `shown_part` does.
    rows: Vec<String>,
    ending: Option<Ending>,
    steps: Option<u64>,
    /// The groups' names, as `shown_names` writes them.
    names: Option<String>,
    told: Told,
    /// How many letters `a` stand for each `~` of the subject, and how many bars for each of the rule.
    long: Option<usize>,
    bars: Option<usize>,
}

/// What an explanation is to tell, as far as it is written down.
#[derive(Default)]
struct Told {
    furthest: Option<Miss>,
    closest: Option<Attempt>,
    /// The places in the rule of the items that are marked.
    marked: Option<Vec<usize>>,
}

/// The examples of a file, or what cannot be read in it.
pub fn read(file: &str) -> Result<Vec<Example>, String> {
    let mut examples: Vec<Example> = Vec::new();
    let mut open = false;
    for (number, line) in (1..).zip(file.lines()) {
        if line.is_empty() || line.starts_with('#') {
            open = false;
            continue;
        }
        if !open {
            examples.push(Example::new(number));
            open = true;
        }
        let (field, value) = line.split_once(' ').unwrap_or((line, ""));
        let example = examples.last_mut().expect("one was pushed");
        example.set(field, value).ok_or(format!("line {number} cannot be read: {line}"))?;
    }
    for example in &mut examples {
        example.finish()?;
    }
    Ok(examples)
}

impl Example {
    fn new(line: usize) -> Example {
        let case = Case { marks: 1_000, ..Case::new(Call::Match, b"", 0, b"", 10_000, 10) };
        let (from, rows, told) = (String::new(), Vec::new(), Told::default());
        Example { from, line, case, same: None, rows, ending: None, steps: None, names: None, told, long: None, bars: None }
    }

    fn set(&mut self, field: &str, value: &str) -> Option<()> {
        match field {
            "from" => self.from = value.to_string(),
            "rule" => self.case.rule = value.as_bytes().to_vec(),
            "escaped" => self.case.rule = text::unescaped(value)?,
            "same" => self.same = Some(value.as_bytes().to_vec()),
            "subject" => self.case.subject = text::unescaped(value)?,
            "long" => self.long = Some(value.parse().ok()?),
            "flags" => self.case.flags = flags(value)?,
            "call" => self.case.call = call(value)?,
            "budget" => self.case.budget = value.parse().ok()?,
            "rows" => self.case.result_area = ROW_LENGTH * value.parse::<usize>().ok()?,
            "parts" => self.case.result_area = PART_LENGTH * value.parse::<usize>().ok()?,
            "numbers" => self.case.result_area = length(value)?,
            "index" => self.case.name_index = length(value)?,
            "marks" => self.case.marks = value.parse().ok()?,
            "proposal" => self.case.proposal = text::from_hex(value)?,
            "bars" => self.bars = Some(value.parse().ok()?),
            "names" => self.names = Some(value.to_string()),
            "furthest" | "closest" | "marked" => self.told.set(field, &numbers(value)?)?,
            "line" => self.rows.push(value.to_string()),
            "steps" => self.steps = Some(value.parse().ok()?),
            "expect" => self.expect(value)?,
            _ => return None,
        }
        Some(())
    }

    fn expect(&mut self, value: &str) -> Option<()> {
        let words: Vec<&str> = value.split(' ').collect();
        let checks = self.case.call == Call::Check;
        self.ending = Some(match words[..] {
            ["none"] if checks => Ending::NoReading,
            ["none"] => Ending::NotMatched,
            ["matched"] if self.case.call == Call::Explain => Ending::Matched,
            ["done"] => Ending::Done,
            ["complete"] => Ending::Complete,
            ["full"] => Ending::Full,
            ["exhausted", start] => Ending::Exhausted(start.parse().ok()?),
            ["refused", number, "at", place] => Ending::Refused(independent::Refusal { number: number.parse().ok()?, place: place.parse().ok()? }),
            _ => {
                self.rows.push(value.to_string());
                if checks {
                    Ending::Reading
                } else {
                    Ending::Matched
                }
            }
        });
        Some(())
    }

    /// The work area follows from the budget. An example expects something.
    fn finish(&mut self) -> Result<(), String> {
        for (text, byte, count) in [(&mut self.case.subject, b'a', self.long), (&mut self.case.rule, b'|', self.bars)] {
            if let Some(count) = count {
                *text = text.split(|&byte| byte == b'~').collect::<Vec<_>>().join(&vec![byte; count][..]);
            }
        }
        self.case.work_area = if self.case.budget > 100_000 { 0 } else { 16 * self.case.budget as usize };
        let call = self.case.call;
        let (for_one, explains) = (matches!(call, Call::Match | Call::Explain), call == Call::Explain);
        let fits = match self.ending {
            None => self.same.is_some(),
            Some(Ending::Matched) => for_one && self.rows.len() == usize::from(!explains),
            Some(Ending::NotMatched) => for_one && self.rows.is_empty() && self.told.explanation(&self.case).is_some() == explains,
            Some(Ending::Complete | Ending::Full) => matches!(call, Call::List | Call::Scan),
            Some(Ending::Done) => call == Call::Batch,
            Some(Ending::Reading | Ending::NoReading) => call == Call::Check,
            Some(Ending::Exhausted(_)) => call != Call::Batch,
            Some(Ending::Refused(_)) => self.rows.is_empty(),
        };
        if fits {
            Ok(())
        } else {
            Err(format!("the example at line {} does not say what it expects", self.line))
        }
    }

    /// What an answer has that is not expected.
    pub fn faults(&self, who: &str, answer: &Answer) -> Vec<String> {
        let mut faults = Vec::new();
        let rows: Vec<String> = answer.rows.iter().map(shown_row).chain(answer.parts.iter().map(shown_part)).collect();
        if Some(answer.ending) != self.ending || rows != self.rows {
            faults.push(format!("{who} answers {}, expected {:?} {:?}", crate::case::shown(answer), self.ending, self.rows));
        }
        let explanation = self.told.explanation(&self.case);
        if answer.explanation != explanation {
            faults.push(format!("{who} tells {:?}, expected {explanation:?}", answer.explanation));
        }
        if self.steps.is_some_and(|steps| steps != answer.steps) {
            faults.push(format!("{who} takes {} steps, expected {:?}", answer.steps, self.steps));
        }
        let names = answer.names.as_deref().map(shown_names);
        if self.names.is_some() && self.names != names {
            faults.push(format!("{who} fills the index with {names:?}, expected {:?}", self.names));
        }
        faults
    }
}

impl Told {
    fn set(&mut self, field: &str, numbers: &[usize]) -> Option<()> {
        match (field, numbers) {
            ("furthest", &[at, item]) => self.furthest = Some(Miss { at, item }),
            ("closest", &[start, at, item]) => self.closest = Some(Attempt { start, miss: Miss { at, item } }),
            ("marked", _) => self.marked = Some(numbers.to_vec()),
            _ => return None,
        }
        Some(())
    }

    /// The explanation, if all of it is written down.
    fn explanation(&self, case: &Case) -> Option<Explanation> {
        let marked = self.marked.as_ref()?;
        let marks = (0..case.marks.min(case.rule.len())).map(|item| u8::from(marked.contains(&item))).collect();
        Some(Explanation { furthest: self.furthest?, closest: self.closest?, marks })
    }
}

/// Each group that has a name with it, as `group:name`. A byte other than 00 that is no part of a name makes an entry `group:?`.
fn shown_names(index: &independent::Index) -> String {
    let shown = |(group, entry): (usize, &[u8])| {
        let (name, padding) = entry[1..].split_at(usize::from(entry[0]).min(LONGEST_NAME));
        match padding.iter().all(|&byte| byte == 0) {
            true if name.is_empty() => None,
            true => Some(format!("{group}:{}", text::escaped(name))),
            false => Some(format!("{group}:?")),
        }
    };
    (1..).zip(index.chunks_exact(independent::ENTRY_LENGTH)).filter_map(shown).collect::<Vec<_>>().join(" ")
}

/// A call other than a match by its name.
fn call(value: &str) -> Option<Call> {
    let calls = [("list", Call::List), ("explain", Call::Explain), ("scan", Call::Scan), ("batch", Call::Batch), ("check", Call::Check)];
    calls.into_iter().find(|(name, _)| *name == value).map(|(_, call)| call)
}

/// A length: a number; or `row`, `part` or `index` for what one of these needs, or a number of them, and a number more or less, as in `2 part - 1`.
pub fn length(value: &str) -> Option<usize> {
    let mut length = 0;
    let mut words = value.split(' ').peekable();
    while let Some(word) = words.next() {
        length = match word {
            "+" => length + words.next()?.parse::<usize>().ok()?,
            "-" => length - words.next()?.parse::<usize>().ok()?,
            _ => {
                let (number, unit) = word.parse().map_or((1, Some(word)), |number: usize| (number, words.next_if(|next| !"+-".contains(next))));
                number * unit.map_or(Some(1), needed)?
            }
        };
    }
    Some(length)
}

/// What a row, a part or the name index needs.
fn needed(what: &str) -> Option<usize> {
    [("row", ROW_LENGTH), ("part", PART_LENGTH), ("index", INDEX_LENGTH)].into_iter().find(|(name, _)| *name == what).map(|(_, length)| length)
}

/// Numbers with a blank between two of them; none in an empty text.
fn numbers(value: &str) -> Option<Vec<usize>> {
    value.split_terminator(' ').map(|number| number.parse().ok()).collect()
}

/// Flags as letters, each once, or as a number.
pub fn flags(value: &str) -> Option<u32> {
    let flag = |letter| match letter {
        's' => Some(FLAG_S),
        'm' => Some(FLAG_M),
        'i' => Some(FLAG_I),
        'x' => Some(FLAG_X),
        'D' => Some(FLAG_D),
        _ => None,
    };
    value.parse().ok().or_else(|| value.chars().map(flag).sum())
}
