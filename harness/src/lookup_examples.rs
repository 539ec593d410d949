//! Lookups written down by hand in `data/lookups.txt`, whose head says how they look.

use crate::examples::length;
use crate::independent::lookup::Field;
use crate::independent::{ENTRY_LENGTH, ROW_LENGTH, UNSET};
use crate::raw::Lookup;
use crate::text;

pub struct Example {
    /// The point decided.
    pub from: String,
    /// The line in the file at which the example begins.
    pub line: usize,
    name: Vec<u8>,
    names: Vec<u8>,
    text: Vec<u8>,
    kind: u32,
    row: Vec<u32>,
    standing: Vec<u8>,
    pub expected: Option<Field>,
}

/// The examples of a file, or what cannot be read in it.
pub fn read(file: &str) -> Result<Vec<Example>, String> {
    let mut examples = Vec::new();
    for (number, lines) in blocks(file) {
        let mut example = Example::new(number);
        for line in lines {
            let (field, value) = line.split_once(' ').unwrap_or((line, ""));
            example.set(field, value).ok_or(format!("in the example at line {number} this cannot be read: {line}"))?;
        }
        example.expected.ok_or(format!("the example at line {number} does not say what it expects"))?;
        examples.push(example);
    }
    Ok(examples)
}

/// The blocks of lines between empty ones and comments, each with the number of its first line.
pub fn blocks(file: &str) -> Vec<(usize, Vec<&str>)> {
    let mut blocks: Vec<(usize, Vec<&str>)> = Vec::new();
    let mut open = false;
    for (number, line) in (1..).zip(file.lines()) {
        let is_text = !line.is_empty() && !line.starts_with('#');
        match blocks.last_mut() {
            Some((_, lines)) if open && is_text => lines.push(line),
            _ if is_text => blocks.push((number, vec![line])),
            _ => {}
        }
        open = is_text;
    }
    blocks
}

impl Example {
    fn new(line: usize) -> Example {
        let (name, names, text, row, standing) = (Vec::new(), Vec::new(), Vec::new(), Vec::new(), Vec::new());
        Example { from: String::new(), line, name, names, text, kind: 0, row, standing, expected: None }
    }

    pub fn lookup(&self) -> Lookup<'_> {
        Lookup { name: &self.name, names: &self.names, line: &self.text, kind: self.kind, row: &self.row, standing: &self.standing }
    }

    fn set(&mut self, field: &str, value: &str) -> Option<()> {
        match field {
            "from" => self.from = value.to_string(),
            "name" => self.name = text::unescaped(value)?,
            "entry" => self.names.extend(entry(value)?),
            "nameless" => self.names.extend(vec![0; ENTRY_LENGTH * value.parse::<usize>().ok()?]),
            "bytes" => self.names.extend(text::unescaped(value)?),
            "cut" => self.names.truncate(value.parse().ok()?),
            "line" => self.text = text::unescaped(value)?,
            "kind" => self.kind = value.parse().ok()?,
            "row" => self.row = row(value)?,
            "set" => {
                let (at, number) = value.split_once(' ')?;
                *self.row.get_mut(at.parse::<usize>().ok()?)? = number.parse().ok()?;
            }
            "numbers" => self.row.resize(length(value)?, 7),
            "standing" => self.standing = text::unescaped(value)?,
            "expect" => {
                let (part, span) = value.split_once(' ')?;
                let (from, to) = span.split_once('-')?;
                let (from, to) = (from.parse().ok()?, to.parse().ok()?);
                self.expected = Some(match part {
                    "line" => Field::Line(from, to),
                    "standing" => Field::Standing(from, to),
                    _ => return None,
                });
            }
            _ => return None,
        }
        Some(())
    }
}

/// An entry as a call fills it.
fn entry(name: &str) -> Option<Vec<u8>> {
    let mut entry = vec![u8::try_from(name.len()).ok()?];
    entry.extend(name.bytes());
    entry.resize(ENTRY_LENGTH, 0);
    Some(entry)
}

/// A row from `start-end` and `group:start-end` for each group that is set.
fn row(value: &str) -> Option<Vec<u32>> {
    let mut row = vec![UNSET; ROW_LENGTH];
    for part in value.split(' ') {
        let (group, span) = part.split_once(':').unwrap_or(("0", part));
        let (from, to) = span.split_once('-')?;
        let at = 2 * group.parse::<usize>().ok()?;
        *row.get_mut(at)? = from.parse().ok()?;
        *row.get_mut(at + 1)? = to.parse().ok()?;
    }
    Some(row)
}
