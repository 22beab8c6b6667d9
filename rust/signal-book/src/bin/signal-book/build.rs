//! A book from its text.

use crate::names::{plain, Names};
use crate::rows::{kind, leaf, row, Group, Holds, Letter, Row, Slot, LETTERS};
use signal_book::{BookBuilder, Fields, Span, WrongLength, NONE};
use std::collections::HashMap;

/// The book that a text says, or what is wrong with it, with the number of the line.
pub fn build(text: &str) -> Result<Vec<u8>, String> {
    let mut builder = Building::default();
    for (number, line) in text.lines().enumerate() {
        builder.line = number + 1;
        builder.line(line).map_err(|why| format!("line {}: {why}", number + 1))?;
    }
    builder.finish()
}

/// A child that is named by a label, which may stand further on.
struct Reference {
    line: usize,
    record: usize,
    letter: Letter,
    label: String,
}

/// What has been read so far.
#[derive(Default)]
struct Building {
    names: Names,
    wildcards: bool,
    records: Vec<Fields>,
    labels: HashMap<String, usize>,
    references: Vec<Reference>,
    line: usize,
}

impl Building {
    fn line(&mut self, line: &str) -> Result<(), String> {
        let tokens = tokens(line);
        match tokens[..] {
            [] => Ok(()),
            ["name", ..] => self.names.add(&tokens[1..]),
            ["wildcards"] if self.records.is_empty() => {
                self.wildcards = true;
                Ok(())
            }
            ["wildcards", ..] => Err("`wildcards` stands alone on a line, before all records".into()),
            _ => self.record(&tokens),
        }
    }

    /// Reads a record and those inside it. Each is written when it ends, so behind its children.
    fn record(&mut self, mut tokens: &[&str]) -> Result<(), String> {
        let mut open = vec![Reading::head(&mut tokens, None)?];
        while let Some(reading) = open.last_mut().filter(|_| !tokens.is_empty()) {
            let token = next(&mut tokens);
            if token == ")" {
                self.close(&mut open)?;
            } else if let Some(letter) = self.part(reading, token, &mut tokens)? {
                open.push(Reading::head(&mut tokens, Some(letter))?);
            }
        }
        match open.pop() {
            Some(reading) if open.is_empty() => self.write(reading).map(|_| ()),
            _ => Err("a bracket is not closed".into()),
        }
    }

    /// Ends a record in brackets: its number goes into the field of the one around it.
    fn close(&mut self, open: &mut Vec<Reading>) -> Result<(), String> {
        match (open.pop(), open.last_mut()) {
            (Some(ended @ Reading { inside: Some(letter), .. }), Some(around)) => {
                around.set(letter, self.write(ended)? as u64)
            }
            _ => Err("`)` is one too many".into()),
        }
    }

    /// Writes a record that has ended, and gives its number.
    fn write(&mut self, mut reading: Reading) -> Result<usize, String> {
        reading.complete()?;
        let (line, record) = (self.line, self.push(reading.fields)?);
        let references = reading.references.into_iter();
        self.references.extend(references.map(|(letter, label)| Reference { line, record, letter, label }));
        match reading.label {
            Some(label) if self.labels.contains_key(&label) => Err(format!("the label `{label}` stands twice")),
            Some(label) => {
                self.labels.insert(label, record);
                Ok(record)
            }
            None => Ok(record),
        }
    }

    /// Reads what is behind the head of a record: a span, a field by its word or letter, or one without a word. Where a
    /// bracket begins, this gives the field that the record in it is for.
    fn part(&mut self, reading: &mut Reading, token: &str, tokens: &mut &[&str]) -> Result<Option<Letter>, String> {
        if let Some(span) = token.strip_prefix('@') {
            reading.fields.span = span_of(span)?;
            return Ok(None);
        }
        let Some((word, value)) = token.split_once('=') else {
            let slot = reading.next_bare().ok_or_else(|| format!("`{token}` is one too many"))?;
            return self.field(reading, slot, token);
        };
        if let Some(slot) = reading.slot(word) {
            return self.field(reading, slot, if value.is_empty() { next(tokens) } else { value });
        }
        let letter = LETTERS.into_iter().find(|letter| letter.word() == word);
        let letter = letter.ok_or_else(|| format!("`{}` has no field `{word}`", reading.word()))?;
        reading.set(letter, number(value)?)?;
        Ok(None)
    }

    fn field(&mut self, reading: &mut Reading, slot: Slot, token: &str) -> Result<Option<Letter>, String> {
        let value = match slot.holds.child() {
            Some(_) if token == "(" => return Ok(Some(slot.letter)),
            Some(group) if slot.holds.default().is_none() || token != "none" => {
                self.child(reading, slot.letter, group, token)?
            }
            _ => value_of(slot.holds, token, &self.names)?,
        };
        reading.set(slot.letter, value)?;
        Ok(None)
    }

    /// Reads a child that is a label, of which the number comes at the end, or one word.
    fn child(&mut self, reading: &mut Reading, letter: Letter, group: Group, token: &str) -> Result<u64, String> {
        if let Some(label) = token.strip_prefix('^') {
            reading.references.push((letter, label.to_string()));
            return Ok(0);
        }
        let (word, span) = token.split_once('@').unwrap_or((token, "0+0"));
        let mut fields = self.short(group, word).ok_or_else(|| format!("`{word}` is no {}", called(group)))?;
        fields.span = span_of(span)?;
        self.push(fields).map(|number| number as u64)
    }

    /// Puts a record behind all others, and gives its number. A book that has more than there are numbers is told here, every
    /// other one that is too long at the end.
    fn push(&mut self, fields: Fields) -> Result<usize, String> {
        self.records.push(fields);
        match self.records.len() {
            count if count > usize::from(NONE) => Err(WrongLength(count).to_string()),
            count => Ok(count - 1),
        }
    }

    /// The record that one word stands for where a group is wanted.
    fn short(&self, group: Group, word: &str) -> Option<Fields> {
        let fields = |kind, sub, a, v| Fields { kind, sub, a, v, ..Fields::default() };
        let truth = [("false", 0), ("true", 1)].into_iter().find(|(known, _)| *known == word).map(|(_, value)| value);
        let name = self.names.number(word);
        let int = word.parse::<i64>().ok().map(|value| value as u64);
        match group {
            Group::Type => leaf(1, word)
                .map(|sub| fields(1, sub, 0, 0))
                .or_else(|| leaf(3, word).map(|sub| fields(3, sub, 0, 0)))
                .or_else(|| name.map(|name| fields(4, 0, name, 0))),
            Group::Constant => int
                .map(|value| fields(10, 0, 0, value))
                .or_else(|| truth.map(|value| fields(10, 4, 0, value)))
                .or_else(|| name.map(|name| fields(11, 0, name, 0))),
            Group::Constraint => None,
            Group::Operand => int
                .map(|value| fields(16, 0, 0, value))
                .or_else(|| truth.map(|value| fields(16, 3, 0, value)))
                .or_else(|| (word == "value").then(|| fields(16, 4, 0, 0)))
                .or_else(|| name.map(|name| fields(16, 5, name, 0))),
        }
    }

    /// The book, with the labels resolved.
    fn finish(mut self) -> Result<Vec<u8>, String> {
        for Reference { line, record, letter, label } in &self.references {
            let number =
                self.labels.get(label).ok_or_else(|| format!("line {line}: no record has the label `{label}`"))?;
            letter.set(&mut self.records[*record], *number as u64);
        }
        let mut builder = BookBuilder::new();
        builder.wildcards(self.wildcards);
        for fields in self.records {
            builder.record(fields);
        }
        builder.finish().map_err(|wrong| wrong.to_string())
    }
}

/// A record that is being read; if it stands in brackets, with the field of the one around it that it is for.
struct Reading {
    inside: Option<Letter>,
    label: Option<String>,
    row: Option<Row>,
    fields: Fields,
    given: Vec<Letter>,
    references: Vec<(Letter, String)>,
}

impl Reading {
    /// Reads the label and the words that say what the record is.
    fn head(tokens: &mut &[&str], inside: Option<Letter>) -> Result<Reading, String> {
        let label = tokens.first().and_then(|token| token.strip_suffix(':')).map(String::from);
        if label.is_some() {
            next(tokens);
        }
        let word = next(tokens);
        let (kind, sub, row) = if word == "record" {
            (numbered(next(tokens), "kind")?, numbered(next(tokens), "sub")?, None)
        } else {
            let (kind, subs) = kind(word).ok_or_else(|| format!("there is no record `{word}`"))?;
            let sub = sub(tokens, word, subs)?;
            (kind, sub, row(kind, sub))
        };
        let fields = Fields { kind, sub, ..Fields::default() };
        Ok(Reading { inside, label, row, fields, given: Vec::new(), references: Vec::new() })
    }

    fn word(&self) -> &'static str {
        self.row.map_or("record", |row| row.word)
    }

    fn slots(&self) -> &'static [Slot] {
        self.row.map_or(&[], |row| row.slots)
    }

    fn slot(&self, word: &str) -> Option<Slot> {
        self.slots().iter().find(|slot| slot.word == word).copied()
    }

    fn next_bare(&self) -> Option<Slot> {
        self.slots().iter().find(|slot| slot.bare && !self.given.contains(&slot.letter)).copied()
    }

    fn set(&mut self, letter: Letter, value: u64) -> Result<(), String> {
        if self.given.contains(&letter) {
            return Err(format!("a field of `{}` is given twice", self.word()));
        }
        self.given.push(letter);
        match letter.set(&mut self.fields, value) {
            true => Ok(()),
            false => Err(format!("{value} does not fit into 16 bits")),
        }
    }

    /// Fills in what was not written; something may be missing.
    fn complete(&mut self) -> Result<(), String> {
        for slot in self.slots() {
            if self.given.contains(&slot.letter) {
                continue;
            }
            let value = slot.holds.default().ok_or_else(|| format!("`{}` needs its {}", self.word(), slot.word))?;
            slot.letter.set(&mut self.fields, value);
        }
        Ok(())
    }
}

/// The words of a line, with brackets apart, up to a comment.
fn tokens(line: &str) -> Vec<&str> {
    let mut tokens = Vec::new();
    for word in line.split_whitespace() {
        if word.starts_with('#') {
            break;
        }
        let parts = word.split_inclusive(['(', ')']);
        for part in parts {
            let bracket = part.len() - usize::from(part.ends_with(['(', ')']));
            tokens.extend([&part[..bracket], &part[bracket..]].into_iter().filter(|part| !part.is_empty()));
        }
    }
    tokens
}

/// The next token, taken; nothing at the end.
fn next<'t>(tokens: &mut &[&'t str]) -> &'t str {
    match tokens.split_first() {
        Some((first, rest)) => {
            *tokens = rest;
            first
        }
        None => "",
    }
}

/// The sub of a kind, by its word if the kind has several.
fn sub(tokens: &mut &[&str], word: &str, subs: &[&str]) -> Result<u8, String> {
    if subs.is_empty() {
        return Ok(0);
    }
    let given = next(tokens);
    let at = subs.iter().position(|sub| *sub == given);
    at.map(|sub| sub as u8).ok_or_else(|| format!("`{word}` is one of: {}", subs.join(", ")))
}

/// The number of `kind=NUMBER` and `sub=NUMBER`.
fn numbered(token: &str, word: &str) -> Result<u8, String> {
    let value = token.strip_prefix(word).and_then(|rest| rest.strip_prefix('='));
    let value = value.and_then(|value| value.parse().ok());
    value.ok_or_else(|| "a record by its numbers is `record kind=NUMBER sub=NUMBER` and its fields".into())
}

fn called(group: Group) -> &'static str {
    match group {
        Group::Type => "type",
        Group::Constant => "expression of a constant",
        Group::Constraint => "constraint",
        Group::Operand => "operand",
    }
}

fn span_of(text: &str) -> Result<Span, String> {
    let parts = text.split_once('+').map(|(offset, length)| (offset.parse(), length.parse()));
    match parts {
        Some((Ok(offset), Ok(length))) => Ok(Span { offset, length }),
        _ => Err(format!("`@{text}` is no span: @OFFSET+LENGTH")),
    }
}

/// A number, in decimal or behind 0x.
fn number(token: &str) -> Result<u64, String> {
    let value = match token.strip_prefix("0x") {
        Some(digits) => u64::from_str_radix(digits, 16),
        None => token.parse(),
    };
    value.map_err(|_| format!("`{token}` is no number"))
}

/// The value of a field that is no child.
fn value_of(holds: Holds, token: &str, names: &Names) -> Result<u64, String> {
    if token == "none" && holds.default() == Some(NONE.into()) {
        return Ok(NONE.into());
    }
    let wrong = |what: &str| format!("`{token}` is no {what}");
    match holds {
        Holds::Name | Holds::NameOrNone => names.number(token).map(u64::from).ok_or_else(|| wrong("name")),
        Holds::Text | Holds::TextOrNone => plain(token, 'S').map(u64::from).ok_or_else(|| wrong("string, as S5")),
        Holds::Signed => token.parse::<i64>().map(|value| value as u64).map_err(|_| wrong("number of 64 bits")),
        Holds::Float if !token.starts_with("0x") => {
            token.parse().map(f64::to_bits).map_err(|_| wrong("number with a fraction"))
        }
        Holds::Truth if ["false", "true"].contains(&token) => Ok((token == "true").into()),
        _ => number(token),
    }
}
