//! "Constants": which are reached, in which order they are done, and what they evaluate to.

use std::collections::{BTreeMap, BTreeSet};

use crate::fields;
use crate::lowering::Lowering;
use crate::outline::Book;
use crate::record::Record;
use crate::Refusal;

/// The values of stored constants by name.
type Stored = BTreeMap<u16, i64>;

/// The declared constants of a book, in book order.
struct Constants {
    /// The record number and the record of each 24.
    declared: Vec<(u32, Record)>,
    /// For each: the declared constants that its expression names, one entry for each place.
    named: Vec<Vec<usize>>,
}

impl Constants {
    fn of(book: &Book) -> Constants {
        let declared: Vec<(u32, Record)> =
            book.declared(24..=24).map(|(record, declaration)| (declaration.number, record)).collect();
        // "declared" means anywhere in the book (a decision).
        let index: BTreeMap<u16, usize> = declared.iter().enumerate().map(|(i, (_, record))| (record.a, i)).collect();
        let named = declared
            .iter()
            .map(|(_, record)| {
                let mut names = Vec::new();
                referenced(book, record.c, &mut names);
                names.iter().filter_map(|name| index.get(name).copied()).collect()
            })
            .collect();
        Constants { declared, named }
    }

    /// The reached constants in their order: "always the earliest reached one whose declared references are done".
    ///
    /// "A constant is reached if its expression names no declared constant twice and all those it
    /// names are reached (least such set)": a constant that names none twice joins as soon as all it
    /// names are done, so what joins is that least set.
    fn order(&self) -> Vec<usize> {
        let mut waiting: Vec<usize> = self.named.iter().map(Vec::len).collect();
        let mut named_by: Vec<Vec<usize>> = vec![Vec::new(); self.declared.len()];
        let mut ready = BTreeSet::new();
        for (constant, named) in self.named.iter().enumerate() {
            if names_one_twice(named) {
                continue;
            }
            if named.is_empty() {
                ready.insert(constant);
            }
            for &other in named {
                named_by[other].push(constant);
            }
        }
        let mut order = Vec::new();
        while let Some(earliest) = ready.pop_first() {
            order.push(earliest);
            for &constant in &named_by[earliest] {
                waiting[constant] -= 1;
                if waiting[constant] == 0 {
                    ready.insert(constant);
                }
            }
        }
        order
    }
}

/// Every name that kind 11 names in an expression, one entry for each place.
fn referenced(book: &Book, expression: u16, names: &mut Vec<u16>) {
    let record = book.record(u32::from(expression));
    if record.kind == 11 {
        names.push(record.a);
    }
    for (child, _) in fields::children(&record) {
        referenced(book, child, names);
    }
}

fn names_one_twice(named: &[usize]) -> bool {
    let mut seen = BTreeSet::new();
    named.iter().any(|constant| !seen.insert(constant))
}

/// `eval_const_expr`: the value of an expression over stored values, or none.
fn evaluate(book: &Book, stored: &Stored, expression: u16) -> Option<i64> {
    let record = book.record(u32::from(expression));
    match (record.kind, record.sub) {
        // Int, and "UInt and Hex cast to i64".
        (10, 0 | 1 | 3) => Some(record.v as i64),
        // Float and Bool give none.
        (10, _) => None,
        // A reference; a name that is not stored has no value.
        (11, _) => stored.get(&record.a).copied(),
        _ => {
            let left = evaluate(book, stored, record.a)?;
            let right = evaluate(book, stored, record.b)?;
            operate(record.sub, left, right)
        }
    }
}

/// "comparisons, zero divisors and overflow give none. Division drops the fraction."
fn operate(sub: u8, left: i64, right: i64) -> Option<i64> {
    match sub {
        0 => left.checked_add(right),
        1 => left.checked_sub(right),
        2 => left.checked_mul(right),
        3 => left.checked_div(right),
        _ => None,
    }
}

impl Lowering<'_> {
    /// The part of the constants; returns how many are stored. "Unreached gives silence."
    pub fn lower_constants(&mut self) -> Result<u32, Refusal> {
        let constants = Constants::of(self.book);
        let mut stored = Stored::new();
        for constant in constants.order() {
            let (number, record) = constants.declared[constant];
            // "Stored means reached and evaluated over stored values".
            let value = evaluate(self.book, &stored, record.c);
            self.lower_constant(number, record, value)?;
            if let Some(value) = value {
                stored.insert(record.a, value);
            }
        }
        Ok(stored.len() as u32)
    }

    /// A reached constant: its type, message 5 where it has no value, its 41.
    ///
    /// Reading: the format gives no order between the type's records and message 5. The type goes
    /// first: so its diagnostics stand before message 5, and a type too deep is 9 even where there
    /// is no room for message 5. Between message 5 and the 41 nothing shows: each is 10 at the 24.
    fn lower_constant(&mut self, number: u32, record: Record, value: Option<i64>) -> Result<(), Refusal> {
        self.at = number;
        let b = self.resolve_type(record.b)?;
        if value.is_none() {
            self.message_5(record)?;
        }
        // "41 reached constant (sub 1 stored, a, b type, v value or 0)".
        let sub = if value.is_some() { 1 } else { 0 };
        let v = value.unwrap_or(0) as u64;
        self.write_result(Record { kind: 41, sub, a: record.a, b, c: 0, v, span: record.span })?;
        Ok(())
    }

    /// "reached without a value gives message 5"; it "takes the expression's span", and v is 2
    /// `ConstRefNotFound`. Reading: the name is the constant's own, as K2 names no other.
    fn message_5(&mut self, record: Record) -> Result<(), Refusal> {
        let span = self.book.record(u32::from(record.c)).span;
        self.write_diagnostic(Record { kind: 50, sub: 5, a: record.a, b: 0, c: 0, v: 2, span })
    }
}
