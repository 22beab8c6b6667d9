//! A book's records as text.

use crate::names::Names;
use crate::rows::{row, Group, Holds, Letter, Row, Slot, LETTERS};
use signal_book::{Fields, Record, Span, BLOCK, PLACES};
use std::collections::BTreeSet;

/// The records of a book whose blocks are right, as the library has found.
pub fn records(book: &[u8]) -> Vec<Fields> {
    let last = book.len() / BLOCK - 1;
    let count = last * PLACES + usize::from(book[last * BLOCK + 2]);
    (0..count).filter_map(|number| Record::of_book(book, number)).map(Record::fields).collect()
}

/// The text of a book whose blocks are right.
pub fn dump(book: &[u8], names: &Names) -> String {
    let records = records(book);
    let plan = Plan::of(&records);
    let mut texts: Vec<String> = Vec::new();
    let mut lines = names.lines(|number| records.iter().any(|record| names_of(record).any(|name| name == number)));
    if book[3] == 1 {
        lines += "wildcards\n";
    }
    let mut head = 0;
    for (number, record) in records.iter().enumerate() {
        let child = |slot: &Slot, child: u16| plan.child(number, &records, &texts, slot, child);
        let text = record_text(record, names, &child);
        if plan.inside[number].is_none() {
            let indent = indent(&mut head, record.kind);
            lines += &format!("{number:4}: {:indent$}{text}\n", "");
        }
        texts.push(text);
    }
    lines
}

/// How far a record stands inside others. Annotations and arguments stand inside the last declaration or item, their head.
fn indent(head: &mut usize, kind: u8) -> usize {
    match kind {
        34 | 36 => return *head + 2,
        35 => return *head + 4,
        30..=33 => *head = 2,
        _ => *head = 0,
    }
    *head
}

/// The children that a record has, by slot, in the order in which they are written: those without a word first, then the
/// others as they stand in the book.
fn children(record: &Fields) -> Vec<(Slot, u16)> {
    let Some(row) = row(record.kind, record.sub) else { return Vec::new() };
    let all = row.slots.iter().filter(|slot| slot.holds.child().is_some() && !is_default(slot, record));
    let mut all: Vec<(Slot, u16)> = all.map(|slot| (*slot, slot.letter.of(record) as u16)).collect();
    all.sort_by_key(|(slot, number)| if slot.bare { (0, 0) } else { (1, *number) });
    all
}

/// The numbers of the names that a record has.
fn names_of(record: &Fields) -> impl Iterator<Item = u16> + '_ {
    let slots = row(record.kind, record.sub).map_or(&[][..], |row| row.slots);
    let names = slots.iter().filter(|slot| matches!(slot.holds, Holds::Name | Holds::NameOrNone));
    names.map(|slot| slot.letter.of(record) as u16)
}

fn is_default(slot: &Slot, record: &Fields) -> bool {
    slot.holds.default() == Some(slot.letter.of(record))
}

/// Inside which other record each is written, if inside one, and which are named by a label.
struct Plan {
    inside: Vec<Option<usize>>,
    labelled: BTreeSet<usize>,
}

impl Plan {
    /// Trees stand inside their parent where this keeps the order of all records: where the children of a record are just
    /// the trees before it that nothing has taken, in the order in which they are written.
    fn of(records: &[Fields]) -> Plan {
        let mut plan = Plan { inside: vec![None; records.len()], labelled: BTreeSet::new() };
        let mut open: Vec<usize> = Vec::new();
        for (number, record) in records.iter().enumerate() {
            let wanted: Vec<usize> = children(record).iter().map(|(_, child)| usize::from(*child)).collect();
            if open.ends_with(&wanted) {
                open.truncate(open.len() - wanted.len());
                wanted.iter().for_each(|child| plan.inside[*child] = Some(number));
            } else {
                open.clear();
                plan.labelled.extend(wanted);
            }
            match record.kind {
                1..=16 => open.push(number),
                _ => open.clear(),
            }
        }
        plan
    }

    /// A child as it is written: inside its parent, by its label, or as nothing, if there is no such record.
    fn child(&self, parent: usize, records: &[Fields], texts: &[String], slot: &Slot, child: u16) -> Option<String> {
        let at = usize::from(child);
        let record = records.get(at)?;
        if self.inside[at] != Some(parent) {
            return Some(format!("^{child}"));
        }
        if self.labelled.contains(&at) {
            return Some(format!("({child}: {})", texts[at]));
        }
        let short = slot.holds.child().and_then(|group| short(record, group, &texts[at]));
        Some(short.unwrap_or_else(|| format!("({})", texts[at])))
    }
}

/// A record of one word where its group is wanted: the word alone, with its span.
fn short(record: &Fields, group: Group, text: &str) -> Option<String> {
    let head = match (group, record.kind, record.sub) {
        (Group::Type, 1, _) => "primitive ",
        (Group::Type, 3, _) => "semantic ",
        (Group::Type, 4, _) => "named ",
        (Group::Constant, 10, 0) => "literal int ",
        (Group::Constant, 10, 4) if record.v < 2 => "literal bool ",
        (Group::Constant, 11, _) => "reference ",
        (Group::Operand, 16, 0) => "operand int ",
        (Group::Operand, 16, 3) if record.v < 2 => "operand bool ",
        (Group::Operand, 16, 4) => "operand ",
        (Group::Operand, 16, 5) => "operand reference ",
        _ => return None,
    };
    let rest = text.strip_prefix(head)?;
    let (word, span) = rest.split_once(' ').unwrap_or((rest, ""));
    (span.is_empty() || span.starts_with('@')).then(|| format!("{word}{span}"))
}

/// A record by itself, with its children by their numbers.
pub fn one(record: &Fields, names: &Names) -> String {
    record_text(record, names, &|_, number| Some(format!("^{number}")))
}

fn record_text(record: &Fields, names: &Names, child: &dyn Fn(&Slot, u16) -> Option<String>) -> String {
    let mut words = match row(record.kind, record.sub) {
        Some(row) => known(record, &row, names, child),
        None => unknown(record),
    };
    if record.span != Span::NONE {
        words.push(format!("@{}", record.span));
    }
    words.join(" ")
}

/// The words of a record that has a row.
fn known(record: &Fields, row: &Row, names: &Names, child: &dyn Fn(&Slot, u16) -> Option<String>) -> Vec<String> {
    let mut words = vec![row.word.to_string()];
    words.extend(row.sub_word.map(String::from));
    let children = children(record);
    let written = |slot: &Slot| slot.holds.child().is_none() && !is_default(slot, record);
    let bare = row.slots.iter().filter(|slot| slot.bare);
    words.extend(bare.map(|slot| field(slot, record, names, child)));
    let trees = children.iter().filter(|(slot, _)| !slot.bare);
    words.extend(trees.map(|(slot, _)| field(slot, record, names, child)));
    let others = row.slots.iter().filter(|slot| !slot.bare && written(slot));
    words.extend(others.map(|slot| field(slot, record, names, child)));
    let unused = |letter: &&Letter| !row.slots.iter().any(|slot| slot.letter == **letter);
    words.extend(LETTERS.iter().filter(unused).filter_map(|letter| raw(*letter, record)));
    words
}

/// The words of a record that has no row: everything by its number.
fn unknown(record: &Fields) -> Vec<String> {
    let mut words = vec!["record".to_string(), format!("kind={}", record.kind), format!("sub={}", record.sub)];
    words.extend(LETTERS.iter().filter_map(|letter| raw(*letter, record)));
    words
}

/// A field that is not used, by its letter, if it is not zero.
fn raw(letter: Letter, record: &Fields) -> Option<String> {
    let value = letter.of(record);
    (value != 0).then(|| format!("{}={value}", letter.word()))
}

/// A field that is used.
fn field(slot: &Slot, record: &Fields, names: &Names, child: &dyn Fn(&Slot, u16) -> Option<String>) -> String {
    let value = slot.letter.of(record);
    let text = match slot.holds {
        Holds::Name | Holds::NameOrNone => names.word(value as u16),
        Holds::Text | Holds::TextOrNone => format!("S{value}"),
        Holds::Child(_) | Holds::ChildOrNone(_) => match child(slot, value as u16) {
            Some(text) => text,
            None => return format!("{}={value}", slot.letter.word()),
        },
        Holds::Number | Holds::NumberOrZero => value.to_string(),
        Holds::Signed => (value as i64).to_string(),
        Holds::Hex => format!("{value:#x}"),
        Holds::Float => float(value),
        Holds::Truth => match value {
            0 => "false".into(),
            1 => "true".into(),
            _ => value.to_string(),
        },
    };
    if slot.bare {
        text
    } else {
        format!("{}={text}", slot.word)
    }
}

/// A float so that it can be read back: what is no number by its bits.
fn float(bits: u64) -> String {
    let value = f64::from_bits(bits);
    if value.is_nan() {
        format!("{bits:#x}")
    } else {
        format!("{value:?}")
    }
}
