//! The list of answers (`docs/ANSWERS.md`), the sample books, and records in plain fields. What is in this file reads and
//! writes bytes by itself: the code of the crate is what the tests are about.

#![allow(dead_code)]

pub mod made;
pub mod tables;

use std::fs;
use std::path::PathBuf;

/// The path of something in the repository.
pub fn path(name: &str) -> PathBuf {
    PathBuf::from(env!("CARGO_MANIFEST_DIR")).join("../..").join(name)
}

/// The bytes of a file in the repository.
pub fn file(name: &str) -> Vec<u8> {
    fs::read(path(name)).unwrap_or_else(|error| panic!("{name}: {error}"))
}

/// A slice as it is lent: byte i is factor × i + plus, in its low 8 bits. So 256 bytes are repeated.
pub fn lent(len: usize, factor: usize, plus: usize) -> Vec<u8> {
    let mut bytes = (0..256).map(|i| (factor * i + plus) as u8).collect::<Vec<_>>().repeat(len / 256 + 1);
    bytes.truncate(len);
    bytes
}

/// A book of the list, and what lowering it must answer.
pub struct Answer {
    pub name: String,
    pub book: Vec<u8>,
    pub results_len: usize,
    pub diagnostics_len: usize,
    /// The words of `signal_book_lower`: 0 and the three counts; or the cause, the place, 0 and 0.
    pub reply: [u32; 4],
    /// Both slices as they must be at exit, each as a whole.
    pub results: Vec<u8>,
    pub diagnostics: Vec<u8>,
}

impl Answer {
    pub fn accepted(&self) -> bool {
        self.reply[0] == 0
    }

    /// Both slices as they are lent.
    pub fn lent(&self) -> (Vec<u8>, Vec<u8>) {
        (lent(self.results_len, 5, 17), lent(self.diagnostics_len, 3, 29))
    }

    /// The bytes of the records that are counted in both slices, if the book is accepted.
    pub fn written(&self) -> (&[u8], &[u8]) {
        (&self.results[..24 * self.reply[1] as usize], &self.diagnostics[..24 * self.reply[2] as usize])
    }
}

/// Every answer of the list, or of another one that `$SIGNAL_BOOK_ANSWERS` names.
pub fn answers() -> Vec<Answer> {
    let other = std::env::var_os("SIGNAL_BOOK_ANSWERS").map(PathBuf::from);
    let path = other.unwrap_or_else(|| path("crates/replay/stdin"));
    let list = fs::read(&path).unwrap_or_else(|error| panic!("{}: {error}", path.display()));
    let mut rest = &list[..];
    assert_eq!(take(&mut rest, 8), b"answers\n");
    let [count, zero] = words(&mut rest);
    assert_eq!(zero, 0);
    let answers = (0..count).map(|_| answer(&mut rest)).collect();
    assert!(rest.is_empty(), "nothing stands behind the last answer");
    answers
}

/// The answer of a name.
pub fn answer_of(name: &str) -> Answer {
    answers().into_iter().find(|answer| answer.name == name).unwrap_or_else(|| panic!("no answer {name}"))
}

/// The next answer.
fn answer(rest: &mut &[u8]) -> Answer {
    let name = take(rest, 24).split(|&byte| byte == 0).next().unwrap_or_default();
    let name = String::from_utf8(name.to_vec()).unwrap();
    let [book, results_len, diagnostics_len] = words(rest).map(|len| len as usize);
    let [cause, place, results, diagnostics, stored] = words(rest);
    let fronts = words(rest).map(|len| len as usize);
    let book = take(rest, book).to_vec();
    let [results_front, diagnostics_front] = fronts.map(|len| match cause {
        0 => take(rest, len).to_vec(),
        _ => vec![0; len],
    });
    Answer {
        name,
        book,
        results_len,
        diagnostics_len,
        reply: if cause == 0 { [0, results, diagnostics, stored] } else { [cause, place, 0, 0] },
        results: with_front(lent(results_len, 5, 17), &results_front),
        diagnostics: with_front(lent(diagnostics_len, 3, 29), &diagnostics_front),
    }
}

/// A slice with other bytes at its front.
fn with_front(mut slice: Vec<u8>, front: &[u8]) -> Vec<u8> {
    slice[..front.len()].copy_from_slice(front);
    slice
}

/// The next bytes.
fn take<'a>(rest: &mut &'a [u8], len: usize) -> &'a [u8] {
    let (front, behind) = rest.split_at(len);
    *rest = behind;
    front
}

/// The next numbers of four bytes.
fn words<const N: usize>(rest: &mut &[u8]) -> [u32; N] {
    std::array::from_fn(|_| number(take(rest, 4)) as u32)
}

/// A number, least significant byte first.
fn number(bytes: &[u8]) -> u64 {
    bytes.iter().rev().fold(0, |number, &byte| number << 8 | u64::from(byte))
}

/// A record in plain fields.
#[derive(Clone, Copy, PartialEq, Eq, Debug)]
pub struct Plain {
    pub kind: u8,
    pub sub: u8,
    pub a: u16,
    pub b: u16,
    pub c: u16,
    pub v: u64,
    /// Offset and length.
    pub span: (u32, u32),
}

impl Plain {
    /// A record with span 0.
    pub fn new(kind: u8, sub: u8, [a, b, c]: [u16; 3], v: u64) -> Plain {
        Plain { kind, sub, a, b, c, v, span: (0, 0) }
    }

    /// The record of 24 bytes.
    pub fn read(bytes: &[u8]) -> Plain {
        let field = |from: usize| number(&bytes[from..from + 2]) as u16;
        let long = |from: usize| number(&bytes[from..from + 4]) as u32;
        let (a, b, c, v) = (field(2), field(4), field(6), number(&bytes[8..16]));
        Plain { kind: bytes[0], sub: bytes[1], a, b, c, v, span: (long(16), long(20)) }
    }

    /// Its 24 bytes.
    pub fn bytes(self) -> Vec<u8> {
        let mut bytes = vec![self.kind, self.sub];
        [self.a, self.b, self.c].iter().for_each(|field| bytes.extend(field.to_le_bytes()));
        bytes.extend(self.v.to_le_bytes());
        [self.span.0, self.span.1].iter().for_each(|field| bytes.extend(field.to_le_bytes()));
        bytes
    }
}

/// The records that stand one right behind the other.
pub fn records(bytes: &[u8]) -> Vec<Plain> {
    bytes.chunks(24).map(Plain::read).collect()
}

/// Records, one right behind the other.
pub fn bytes(records: &[Plain]) -> Vec<u8> {
    records.iter().flat_map(|record| record.bytes()).collect()
}

/// The records of a book whose blocks are right.
pub fn book_records(book: &[u8]) -> Vec<Plain> {
    book.chunks(512).flat_map(|block| records(&block[4..4 + 24 * usize::from(block[2])])).collect()
}
