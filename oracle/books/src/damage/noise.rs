//! Books changed without a known outcome: blocks are right, records are what they have become.

use super::scene::{wreck, Scene};
use super::Case;
use crate::layout::{seal, Book, Record, BLOCK, MOST_RECORDS};
use crate::rng::Rng;
use crate::shape::KINDS;

pub fn flipped_and_sealed(rng: &mut Rng) -> Case {
    let mut bytes = Scene::new(rng).book.bytes();
    let at = rng.between(0, bytes.len() - 1);
    bytes[at] ^= 1 << rng.below(8);
    seal(&mut bytes, at / BLOCK);
    Case::new(bytes, None)
}

/// A bit flipped in the part of a record that is no span.
pub fn record_flipped(rng: &mut Rng) -> Case {
    let mut book = Scene::new(rng).book;
    let at = rng.between(0, book.records.len() - 1);
    let mut bytes = book.records[at].bytes();
    bytes[rng.between(0, 15)] ^= 1 << rng.below(8);
    book.records[at] = Record::read(&bytes);
    Case::new(book.bytes(), None)
}

/// Records of known kinds with small fields.
pub fn random_records(rng: &mut Rng) -> Case {
    let count = rng.between(1, 40);
    let records = (0..count).map(|at| random_record(rng, at)).collect();
    Case::new(Book { wildcards: rng.chance(2), records }.bytes(), None)
}

/// A record that may well be sound: its children are mostly earlier.
fn random_record(rng: &mut Rng, at: usize) -> Record {
    let &(kind, subs) = if rng.chance(2) { rng.pick(&KINDS[..4]) } else { rng.pick(&KINDS) };
    let small = |rng: &mut Rng| {
        if rng.chance(2) {
            0
        } else {
            rng.below(at as u64 + 2) as u16
        }
    };
    Record {
        kind,
        sub: rng.below(u64::from(subs)) as u8,
        a: small(rng),
        b: small(rng),
        c: if rng.chance(3) { 65_535 } else { 0 },
        v: if rng.chance(4) { rng.below(3) } else { 0 },
        offset: rng.next() as u32,
        len: rng.next() as u32,
    }
}

/// One to three records wrecked anywhere.
pub fn wrecked(rng: &mut Rng) -> Case {
    let mut book = Scene::new(rng).book;
    for _ in 0..1 + rng.below(3) {
        let at = rng.between(0, book.records.len() - 1);
        wreck(rng, &mut book.records[at]);
    }
    Case::new(book.bytes(), None)
}

/// Records taken out, put twice, or put elsewhere.
pub fn rearranged(rng: &mut Rng) -> Case {
    let mut book = Scene::new(rng).book;
    for _ in 0..1 + rng.below(2) {
        let at = rng.between(0, book.records.len() - 1);
        let to = rng.between(0, book.records.len() - 1);
        match rng.below(4) {
            0 if book.records.len() > 1 => {
                book.records.remove(at);
            }
            1 if book.records.len() < MOST_RECORDS => {
                let record = book.records[at];
                book.records.insert(to, record);
            }
            2 => book.records[to] = book.records[at],
            _ => book.records.swap(at, to),
        }
    }
    Case::new(book.bytes(), None)
}

/// Fields changed to small numbers that are mostly in range.
pub fn nudged(rng: &mut Rng) -> Case {
    let mut book = Scene::new(rng).book;
    for _ in 0..1 + rng.below(3) {
        let at = rng.between(0, book.records.len() - 1);
        let small = rng.below(at as u64 + 2) as u16;
        let record = &mut book.records[at];
        match rng.below(5) {
            0 => record.a = small,
            1 => record.b = small,
            2 => record.c = small,
            3 => record.sub = rng.below(4) as u8,
            _ => record.v = rng.below(3),
        }
    }
    Case::new(book.bytes(), None)
}
