//! Tests, and the small builder of books that they share.

mod causes;
mod lowered;
mod proving_runs;
mod slices_lent;

use crate::record::{Record, Span, NONE};
use crate::{lower_book, Reply, Trace};

/// What stands in lent slices before a lowering.
const LENT: u8 = 0xA5;
pub const U8: u8 = 1;
pub const U16: u8 = 2;

/// A book in the making. The record of number n has the span of `span_of(n)`.
#[derive(Default)]
struct Maker {
    records: Vec<Record>,
    wildcards: bool,
}

fn span_of(number: u16) -> Span {
    Span { offset: 1_000 + u32::from(number), length: 7 + u32::from(number) }
}

/// A record with its span at 0.
fn record(kind: u8, sub: u8, a: u16, b: u16, c: u16, v: u64) -> Record {
    Record { kind, sub, a, b, c, v, span: Span::default() }
}

/// The record with the span that the book's record `number` has.
fn spanned(record: Record, number: u16) -> Record {
    Record { span: span_of(number), ..record }
}

impl Maker {
    fn add(&mut self, kind: u8, sub: u8, a: u16, b: u16, c: u16, v: u64) -> u16 {
        let number = self.records.len() as u16;
        self.records.push(spanned(record(kind, sub, a, b, c, v), number));
        number
    }
    fn primitive(&mut self, sub: u8) -> u16 {
        self.add(1, sub, 0, 0, 0, 0)
    }
    fn named(&mut self, name: u16) -> u16 {
        self.add(4, 0, name, 0, 0, 0)
    }
    fn qualified(&mut self, namespace: u16, name: u16) -> u16 {
        self.add(5, 0, namespace, name, 0, 0)
    }
    fn generic(&mut self, head: u16, argument: u16) -> u16 {
        self.add(6, 0, head, argument, 0, 0)
    }
    fn array(&mut self, child: u16) -> u16 {
        self.add(7, 1, child, 0, 0, 0)
    }
    fn map(&mut self, left: u16, right: u16) -> u16 {
        self.add(8, 0, left, right, 0, 0)
    }
    fn int(&mut self, value: i64) -> u16 {
        self.add(10, 0, 0, 0, 0, value as u64)
    }
    fn reference(&mut self, name: u16) -> u16 {
        self.add(11, 0, name, 0, 0, 0)
    }
    fn operation(&mut self, sub: u8, left: u16, right: u16) -> u16 {
        self.add(12, sub, left, right, 0, 0)
    }
    /// A constant of type u8.
    fn constant(&mut self, name: u16, expression: u16) -> u16 {
        let u8 = self.primitive(U8);
        self.add(24, 0, name, u8, expression, 0)
    }
    fn message(&mut self, name: u16) -> u16 {
        self.add(20, 0, name, 0, 0, 0)
    }
    fn union(&mut self, name: u16) -> u16 {
        self.add(21, 0, name, 0, 0, 0)
    }
    fn newtype(&mut self, name: u16, child: u16) -> u16 {
        self.add(22, 0, name, child, 0, 0)
    }
    fn alias(&mut self, name: u16, child: u16) -> u16 {
        self.add(23, 0, name, child, 0, 0)
    }
    fn parameter(&mut self, name: u16) -> u16 {
        self.add(30, 0, name, 0, 0, 0)
    }
    fn ambiguous(&mut self, name: u16) -> u16 {
        self.add(25, 0, name, 0, 0, 0)
    }
    fn field(&mut self, name: u16, child: u16, ordinal: u64) -> u16 {
        self.add(31, 0, name, child, NONE, ordinal)
    }
    fn variant(&mut self, name: u16, ordinal: u64) -> u16 {
        self.add(33, 0, name, 0, 0, ordinal)
    }
    fn annotation(&mut self, sub: u8) -> u16 {
        self.add(34, sub, 0, 0, 0, 0)
    }
    fn argument(&mut self, sub: u8, key: u16, v: u64) -> u16 {
        self.add(35, sub, key, 0, 0, v)
    }

    /// The book as bytes, with every check right.
    fn bytes(&self) -> Vec<u8> {
        let mut bytes = Vec::new();
        for (number, records) in self.records.chunks(21).enumerate() {
            let mut block = [0u8; 512];
            block[..2].copy_from_slice(&(number as u16).to_le_bytes());
            block[2] = records.len() as u8;
            block[3] = u8::from(self.wildcards && number == 0);
            for (place, record) in records.iter().enumerate() {
                block[4 + 24 * place..28 + 24 * place].copy_from_slice(&record.to_bytes());
            }
            bytes.extend_from_slice(&block);
        }
        seal(&mut bytes);
        bytes
    }

    fn lower(&self) -> Lowered {
        lower(&self.bytes())
    }

    /// The reply with slices of so many bytes.
    fn reply_with(&self, results: usize, diagnostics: usize) -> Reply {
        lower_book(&self.bytes(), &mut vec![LENT; results], &mut vec![LENT; diagnostics]).0
    }
}

/// Writes the check of every block anew, by a sum that folds as it goes.
fn seal(bytes: &mut [u8]) {
    for block in bytes.chunks_exact_mut(512) {
        let mut sum = 0u16;
        for pair in block[..510].chunks_exact(2) {
            let (wrapped, carry) = sum.overflowing_add(u16::from_be_bytes([pair[0], pair[1]]));
            sum = wrapped + u16::from(carry);
        }
        block[510..].copy_from_slice(&(!sum).to_be_bytes());
    }
}

/// What a lowering with slices a little longer than the full limits gave.
struct Lowered {
    reply: Reply,
    results: Vec<Record>,
    diagnostics: Vec<Record>,
    trace: Trace,
}

/// Lowers with slices longer than the limits, and looks at every byte that is not a counted record.
fn lower(book: &[u8]) -> Lowered {
    let (mut results, mut diagnostics) = (vec![LENT; 49_152 + 30], vec![LENT; 6_144 + 30]);
    let (reply, trace) = lower_book(book, &mut results, &mut diagnostics);
    let (result_count, diagnostic_count) = match reply {
        Reply::Accepted { results, diagnostics, .. } => (results as usize, diagnostics as usize),
        Reply::Refused { number, .. } => {
            let cleared = if number >= 9 { (49_152, 6_144) } else { (0, 0) };
            check_refused_slice(&results, cleared.0);
            check_refused_slice(&diagnostics, cleared.1);
            (0, 0)
        }
    };
    if matches!(reply, Reply::Accepted { .. }) {
        assert!(results[24 * result_count..].iter().all(|&byte| byte == LENT));
        assert!(diagnostics[24 * diagnostic_count..].iter().all(|&byte| byte == LENT));
    }
    Lowered { reply, results: take(&results, result_count), diagnostics: take(&diagnostics, diagnostic_count), trace }
}

fn check_refused_slice(slice: &[u8], cleared: usize) {
    assert!(slice[..cleared].iter().all(|&byte| byte == 0));
    assert!(slice[cleared..].iter().all(|&byte| byte == LENT));
}

fn take(slice: &[u8], count: usize) -> Vec<Record> {
    let whole = slice.chunks_exact(24).take(count);
    whole.map(|bytes| Record::from_bytes(bytes.try_into().unwrap())).collect()
}

fn accepted(results: u32, diagnostics: u32, constants: u32) -> Reply {
    Reply::Accepted { results, diagnostics, constants }
}

fn refused(number: u8, place: u32) -> Reply {
    Reply::Refused { number, place }
}

/// A result 4 with a type number.
fn number(of: u32) -> Record {
    record(4, 0, 0, 0, 0, u64::from(of))
}

fn poison() -> Record {
    number(u32::MAX)
}

/// A diagnostic with the span of the book's record `at`.
fn diagnostic(message: u8, a: u16, b: u16, v: u64, at: u16) -> Record {
    spanned(record(50, message, a, b, 0, v), at)
}
