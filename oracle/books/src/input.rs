//! A book with two lent lengths as one string of bytes, which a fuzzer may change as it likes: every string is some
//! book.

use crate::layout::{seal, Book, Record, BLOCK, MOST_BLOCKS, RECORD};
use crate::random::FULL;

/// A form and two lengths stand before the rest.
const HEAD: usize = 5;
/// The bits of the form: how the rest is taken, and what else holds.
const SEALED: u8 = 1;
const RECORDS: u8 = 2;
const WILDCARDS: u8 = 4;
const WHOLE: u8 = 8;

/// What a string of bytes stands for.
#[derive(Clone, Debug, PartialEq, Eq)]
pub struct Input {
    pub rest: Rest,
    /// None for slices of the full limits.
    pub lent: Option<(u16, u16)>,
}

/// The book of an input.
#[derive(Clone, Debug, PartialEq, Eq)]
pub enum Rest {
    /// The bytes as they are.
    Bytes(Vec<u8>),
    /// The same, where each whole block gets its right check.
    Sealed(Vec<u8>),
    /// The records, with blocks around them.
    Records(Book),
}

impl Input {
    pub fn read(bytes: &[u8]) -> Input {
        let (head, rest) = bytes.split_at(bytes.len().min(HEAD));
        let at = |i: usize| head.get(i).copied().unwrap_or(0);
        let two = |i: usize| u16::from_le_bytes([at(i), at(i + 1)]);
        let form = at(0);
        let rest = if form & RECORDS != 0 {
            let records = rest.chunks_exact(RECORD).map(Record::read).collect();
            Rest::Records(Book { wildcards: form & WILDCARDS != 0, records })
        } else if form & SEALED != 0 {
            Rest::Sealed(rest.to_vec())
        } else {
            Rest::Bytes(rest.to_vec())
        };
        Input { rest, lent: (form & WHOLE == 0).then_some((two(1), two(3))) }
    }

    /// A string that stands for this input.
    pub fn write(&self) -> Vec<u8> {
        let (form, rest) = match &self.rest {
            Rest::Bytes(bytes) => (0, bytes.clone()),
            Rest::Sealed(bytes) => (SEALED, bytes.clone()),
            Rest::Records(book) => {
                let form = RECORDS | if book.wildcards { WILDCARDS } else { 0 };
                (form, book.records.iter().flat_map(Record::bytes).collect())
            }
        };
        let (results, diagnostics) = self.lent.unwrap_or((0, 0));
        let whole = if self.lent.is_none() { WHOLE } else { 0 };
        let head = [results.to_le_bytes(), diagnostics.to_le_bytes()].concat();
        [&[form | whole], &head[..], &rest].concat()
    }

    /// The input of a book with two lent lengths, as records where it has right blocks.
    pub fn of(bytes: &[u8], lent: (usize, usize)) -> Input {
        let rest = match Book::read(bytes).filter(|b| b.bytes() == bytes) {
            Some(book) => Rest::Records(book),
            None => Rest::Bytes(bytes.to_vec()),
        };
        let two = |n: usize| n.min(usize::from(u16::MAX)) as u16;
        Input { rest, lent: (lent != FULL).then_some((two(lent.0), two(lent.1))) }
    }

    /// The bytes of the book.
    pub fn book(&self) -> Vec<u8> {
        match &self.rest {
            Rest::Bytes(bytes) => bytes.clone(),
            Rest::Records(book) => book.bytes(),
            Rest::Sealed(bytes) => {
                let mut sealed = bytes.clone();
                (0..(bytes.len() / BLOCK).min(MOST_BLOCKS)).for_each(|block| seal(&mut sealed, block));
                sealed
            }
        }
    }

    /// The lengths of the lent slices.
    pub fn lent(&self) -> (usize, usize) {
        self.lent.map_or(FULL, |(results, diagnostics)| (results.into(), diagnostics.into()))
    }
}
