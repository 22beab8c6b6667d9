//! The bodies: messages, unions and newtypes, with encodings, constraints and tombstones.

use crate::lowering::Lowering;
use crate::outline::{Declaration, Item};
use crate::record::{Record, NONE};
use crate::Refusal;

/// Subs of an annotation (34).
const VARINT: u8 = 0;
const ZIGZAG: u8 = 1;
const DELTA: u8 = 2;
const LIMIT: u8 = 3;

/// What a 46 says of a field.
#[derive(Clone, Copy, Debug, PartialEq, Eq)]
struct Encoding {
    base: Base,
    delta: bool,
    limit: Option<u64>,
}

/// "sub 0 default, 1 varint, 2 zigzag".
#[derive(Clone, Copy, Debug, PartialEq, Eq)]
enum Base {
    Default = 0,
    Varint = 1,
    Zigzag = 2,
}

/// `compute_field_encoding`: "varint wins over zigzag; delta wraps the base."
fn field_encoding(notes: &[Record]) -> Encoding {
    let base = if has(notes, VARINT) {
        Base::Varint
    } else if has(notes, ZIGZAG) {
        Base::Zigzag
    } else {
        Base::Default
    };
    Encoding { base, delta: has(notes, DELTA), limit: limit(notes) }
}

fn has(notes: &[Record], annotation: u8) -> bool {
    notes.iter().any(|note| note.kind == 34 && note.sub == annotation)
}

/// "Limit is the first keyless Int or Hex in the first limit annotation having one": so the first
/// keyless Int or Hex whose annotation is a limit.
fn limit(notes: &[Record]) -> Option<u64> {
    let mut in_limit = false;
    for note in notes {
        if note.kind == 34 {
            in_limit = note.sub == LIMIT;
        } else if in_limit && note.a == NONE && note.sub <= 1 {
            return Some(note.v);
        }
    }
    None
}

/// "Under a message's delta, fields not yet delta and resolved to primitive 1-12 or sub-byte become
/// delta over: varint for 1-4, zigzag for 5-8, else what they had."
fn under_message_delta(encoding: Encoding, resolved: Record) -> Encoding {
    if encoding.delta {
        return encoding;
    }
    match (resolved.kind, resolved.sub) {
        (1, 1..=4) => Encoding { delta: true, base: Base::Varint, ..encoding },
        (1, 5..=8) => Encoding { delta: true, base: Base::Zigzag, ..encoding },
        (1, 9..=12) | (2, _) => Encoding { delta: true, ..encoding },
        _ => encoding,
    }
}

/// The first string under a key of a tombstone (36), or none.
fn first_string(notes: &[Record], key: u8) -> u16 {
    notes.iter().find(|note| note.sub == key && note.a != NONE).map_or(NONE, |note| note.a)
}

impl Lowering<'_> {
    /// The bodies of 20-22 in book order.
    pub fn lower_bodies(&mut self) -> Result<(), Refusal> {
        for (record, declaration) in self.book.declared(20..=22) {
            self.at = declaration.number;
            match record.kind {
                20 => self.lower_message(record, declaration)?,
                21 => self.lower_union(record, declaration)?,
                _ => self.lower_newtype(record)?,
            }
        }
        Ok(())
    }

    /// "42 [...] precede[s its] items".
    fn lower_message(&mut self, record: Record, declaration: &Declaration) -> Result<(), Refusal> {
        self.write_result(Record { kind: 42, ..record })?;
        let delta = has(&declaration.notes, DELTA);
        self.lower_items(&declaration.items, delta)
    }

    /// A union has no annotations of its own, and a message's delta is not for its fields.
    fn lower_union(&mut self, record: Record, declaration: &Declaration) -> Result<(), Refusal> {
        self.write_result(Record { kind: 43, ..record })?;
        self.lower_items(&declaration.items, false)
    }

    /// "48 newtype with the fields of [...] 22", behind its type.
    fn lower_newtype(&mut self, record: Record) -> Result<(), Refusal> {
        let b = self.resolve_type(record.b)?;
        self.write_result(Record { kind: 48, b, ..record })?;
        Ok(())
    }

    /// Items are written in book order (a decision).
    fn lower_items(&mut self, items: &[Item], message_delta: bool) -> Result<(), Refusal> {
        for item in items {
            self.at = item.number;
            let record = self.book.record(item.number);
            match record.kind {
                31 => self.lower_field(record, &item.notes, message_delta)?,
                32 => self.lower_tombstone(record, &item.notes)?,
                // "44 variant [...] with the fields of [...] 33".
                _ => {
                    self.write_result(Record { kind: 44, ..record })?;
                }
            }
        }
        Ok(())
    }

    /// "an item's type, then its constraint, precede it; 46 follows its 45."
    fn lower_field(&mut self, record: Record, notes: &[Record], message_delta: bool) -> Result<(), Refusal> {
        let b = self.resolve_type(record.b)?;
        let c = if record.c == NONE { NONE } else { self.lower_constraint(record.c)? };
        self.write_result(Record { kind: 45, b, c, ..record })?;
        let mut encoding = field_encoding(notes);
        if message_delta {
            encoding = under_message_delta(encoding, self.results()[usize::from(b)]);
        }
        self.write_encoding(encoding)
    }

    /// "46 its encoding (sub 0 default, 1 varint, 2 zigzag; a 1 delta; b 1 limit in v)".
    fn write_encoding(&mut self, encoding: Encoding) -> Result<(), Refusal> {
        self.write_result(Record {
            kind: 46,
            sub: encoding.base as u8,
            a: u16::from(encoding.delta),
            b: u16::from(encoding.limit.is_some()),
            v: encoding.limit.unwrap_or(0),
            ..Record::default()
        })?;
        Ok(())
    }

    /// `lower_where_expr`: records 13 to 16 again, "children first, left before right". Trees are at
    /// most 64 deep.
    fn lower_constraint(&mut self, number: u16) -> Result<u16, Refusal> {
        let mut record = self.book.record(u32::from(number)).without_span();
        match (record.kind, record.sub) {
            // Not and comparisons have one child.
            (13, 2) | (14, _) => record.a = self.lower_constraint(record.a)?,
            (13, _) | (15, _) => {
                record.a = self.lower_constraint(record.a)?;
                record.b = self.lower_constraint(record.b)?;
            }
            // "Value becomes Int 0."
            (16, 4) => {
                record.sub = 0;
                record.v = 0;
            }
            _ => {}
        }
        self.write_result(record)
    }

    /// "47 tombstone (a reason, b since, rest as 32)"; "reason and since are the first string under
    /// each key; none as reason stands for '(no reason)'."
    fn lower_tombstone(&mut self, record: Record, notes: &[Record]) -> Result<(), Refusal> {
        let c = if record.c == NONE { NONE } else { self.resolve_type(record.c)? };
        let (a, b) = (first_string(notes, 0), first_string(notes, 1));
        self.write_result(Record { kind: 47, a, b, c, ..record })?;
        Ok(())
    }
}
