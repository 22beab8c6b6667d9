//! The parts of a lowering in their "Order", and the lists that they write to.

use crate::outline::{Book, Declaration};
use crate::record::Record;
use crate::types::Names;
use crate::{Refusal, Trace};

pub struct Lowering<'a> {
    pub book: &'a Book,
    pub names: Names,
    results: List,
    diagnostics: List,
    /// The "declaration or item being lowered".
    pub at: u32,
    /// How many numbers were given when the part of the constants began, while that part runs.
    pub constants_began: Option<u32>,
    pub trace: Trace,
}

/// Records written so far, and the used limit of their slice.
struct List {
    records: Vec<Record>,
    limit: usize,
}

impl List {
    /// The place of the record written; nothing for "one record more than a used limit".
    fn push(&mut self, record: Record) -> Option<u16> {
        if self.records.len() >= self.limit {
            return None;
        }
        self.records.push(record);
        // The limits are 2,048 and 256.
        Some((self.records.len() - 1) as u16)
    }
}

impl<'a> Lowering<'a> {
    pub fn new(book: &'a Book, result_limit: usize, diagnostic_limit: usize) -> Lowering<'a> {
        Lowering {
            book,
            names: Names::default(),
            results: List { records: Vec::new(), limit: result_limit },
            diagnostics: List { records: Vec::new(), limit: diagnostic_limit },
            at: 0,
            constants_began: None,
            trace: Trace::default(),
        }
    }

    /// "20-22 numbered from 0, then generic aliases, then stubs as met; plain aliases; constants,
    /// [...]; bodies. Each part goes in book order." Returns how many constants are stored.
    pub fn run(&mut self) -> Result<u32, Refusal> {
        self.number_declarations();
        self.end_part(0);
        self.number_generic_aliases();
        self.end_part(1);
        self.lower_plain_aliases()?;
        self.end_part(2);
        self.constants_began = Some(self.names.given());
        let stored = self.lower_constants()?;
        self.constants_began = None;
        self.end_part(3);
        self.lower_bodies()?;
        self.end_part(4);
        Ok(stored)
    }

    fn end_part(&mut self, part: usize) {
        self.trace.numbers[part] = self.names.given();
        self.trace.results[part] = self.results.records.len() as u32;
        self.trace.diagnostics[part] = self.diagnostics.records.len() as u32;
    }

    fn number_declarations(&mut self) {
        for (record, _) in self.book.declared(20..=22) {
            self.names.declare(record.a);
        }
        for (record, _) in self.book.declared(25..=25) {
            self.names.mark_ambiguous(record.a);
        }
    }

    fn number_generic_aliases(&mut self) {
        for (record, alias) in self.book.declared(23..=23) {
            if let Some(parameter) = alias.first_parameter() {
                self.names.declare_generic(record.a, parameter, record.b);
            }
        }
    }

    fn lower_plain_aliases(&mut self) -> Result<(), Refusal> {
        for (record, alias) in self.book.declared(23..=23) {
            if alias.first_parameter().is_none() {
                self.lower_plain_alias(record, alias)?;
            }
        }
        Ok(())
    }

    /// "40 plain alias (a, b type)". The alias is there for names from here on, not before.
    fn lower_plain_alias(&mut self, record: Record, alias: &Declaration) -> Result<(), Refusal> {
        self.at = alias.number;
        let first = self.results.records.len() as u16;
        let root = self.resolve_type(record.b)?;
        self.write_result(Record { kind: 40, sub: 0, a: record.a, b: root, c: 0, v: 0, span: record.span })?;
        self.names.add_plain_alias(record.a, first, root);
        Ok(())
    }

    /// Writes a result and returns its number.
    pub fn write_result(&mut self, record: Record) -> Result<u16, Refusal> {
        self.results.push(record).ok_or(self.refused(10))
    }

    /// Writes a diagnostic.
    pub fn write_diagnostic(&mut self, record: Record) -> Result<(), Refusal> {
        self.diagnostics.push(record).map(|_| ()).ok_or(self.refused(10))
    }

    /// Cause 9 or 10, at the "declaration or item being lowered".
    pub fn refused(&self, number: u8) -> Refusal {
        Refusal { number, place: self.at }
    }

    pub fn results(&self) -> &[Record] {
        &self.results.records
    }

    pub fn diagnostics(&self) -> &[Record] {
        &self.diagnostics.records
    }

    pub fn into_trace(self) -> Trace {
        self.trace
    }
}
