//! The book once it is read: its records, and which items belong to which declaration.

use crate::record::Record;

pub struct Book {
    records: Vec<Record>,
    /// "in block 0 it is 1 where wildcard imports exist".
    pub wildcards: bool,
    /// The declarations in book order.
    pub declarations: Vec<Declaration>,
}

/// A record 20 to 25 and what belongs to it: "The latest declaration is the one meant."
pub struct Declaration {
    pub number: u32,
    /// Its own parameters (30), annotations and their arguments (34, 35).
    pub notes: Vec<Record>,
    pub items: Vec<Item>,
}

/// A field, tombstone or variant (31 to 33) with what follows it (34 to 36).
pub struct Item {
    pub number: u32,
    pub notes: Vec<Record>,
}

impl Book {
    pub fn new(records: Vec<Record>, wildcards: bool) -> Book {
        let declarations = outline(&records);
        Book { records, wildcards, declarations }
    }

    /// A record of the book; reading made sure that every child number has one.
    pub fn record(&self, number: u32) -> Record {
        self.records[number as usize]
    }

    /// The declarations of some kinds, in book order, each with its record.
    pub fn declared(&self, kinds: std::ops::RangeInclusive<u8>) -> impl Iterator<Item = (Record, &Declaration)> {
        self.declarations
            .iter()
            .map(|declaration| (self.record(declaration.number), declaration))
            .filter(move |(record, _)| kinds.contains(&record.kind))
    }
}

impl Declaration {
    /// The name of its first type parameter (30); an alias that has one is generic, another plain.
    pub fn first_parameter(&self) -> Option<u16> {
        self.notes.iter().find(|note| note.kind == 30).map(|note| note.a)
    }
}

/// Every record from 20 up under the declaration or item that it belongs to. The follow rule
/// holds, so a note stands right behind what it belongs to.
fn outline(records: &[Record]) -> Vec<Declaration> {
    let mut declarations: Vec<Declaration> = Vec::new();
    for (number, record) in (0u32..).zip(records) {
        match (record.kind, declarations.last_mut()) {
            (20..=25, _) => declarations.push(Declaration { number, notes: Vec::new(), items: Vec::new() }),
            (31..=33, Some(declaration)) => declaration.items.push(Item { number, notes: Vec::new() }),
            (30 | 34..=36, Some(declaration)) => match declaration.items.last_mut() {
                Some(item) => item.notes.push(*record),
                None => declaration.notes.push(*record),
            },
            _ => {}
        }
    }
    declarations
}
