//! Books that are refused, each as late as its cause allows: otherwise ordinary ones.

use super::draft::{Draft, PLACES, U8};
use super::{hostile, ordinary};
use books::{seal, Record};

/// A block has so many bytes.
const BLOCK: usize = 512;

/// Names that no station has.
const T: u16 = 3_900;
const ENDLESS: u16 = 3_901;
const LAST: u16 = 3_950;

fn stations(blocks: usize) -> Vec<u8> {
    ordinary::book(blocks).map(|d| d.numbered().bytes()).unwrap_or_default()
}

/// The last byte is missing.
pub fn length(blocks: usize) -> Option<Vec<u8>> {
    let mut bytes = stations(blocks);
    bytes.pop();
    Some(bytes)
}

/// The check of the last block has a wrong bit.
pub fn check(blocks: usize) -> Option<Vec<u8>> {
    let mut bytes = stations(blocks);
    bytes[BLOCK * blocks - 1] ^= 1;
    Some(bytes)
}

/// A byte of the last block that must be zero is not.
pub fn block(blocks: usize) -> Option<Vec<u8>> {
    let mut bytes = stations(blocks);
    bytes[BLOCK * blocks - 3] = 1;
    seal(&mut bytes, blocks - 1);
    Some(bytes)
}

/// An ordinary book with another record in the last place.
fn with_last(blocks: usize, kind: u8, [a, b]: [u16; 2]) -> Option<Vec<u8>> {
    let mut d = ordinary::book(blocks)?;
    *d.book.records.last_mut()? = Record { kind, a, b, ..Record::default() };
    Some(d.numbered().bytes())
}

/// There is no kind 17.
pub fn shape(blocks: usize) -> Option<Vec<u8>> {
    with_last(blocks, 17, [0, 0])
}

/// The argument of a generic is the record itself.
pub fn child(blocks: usize) -> Option<Vec<u8>> {
    with_last(blocks, 6, [0, (PLACES * blocks - 1) as u16])
}

/// An argument of a tombstone behind no tombstone.
pub fn follow(blocks: usize) -> Option<Vec<u8>> {
    with_last(blocks, 36, [0, 0])
}

/// The message of the first station once more.
pub fn name(blocks: usize) -> Option<Vec<u8>> {
    with_last(blocks, 20, [2, 0])
}

/// The last type has depth 65. It takes as many records.
pub fn depth(blocks: usize) -> Option<Vec<u8>> {
    let records = PLACES * blocks;
    let mut d = Draft::default();
    ordinary::stations(&mut d, records.checked_sub(65)?);
    let leaf = d.primitive(U8);
    (0..64).fold(leaf, |child, _| d.array(child));
    Some(d.numbered().bytes())
}

/// The last newtype is over a generic alias of itself.
pub fn too_deep(blocks: usize) -> Option<Vec<u8>> {
    let records = PLACES * blocks;
    let mut d = Draft::default();
    ordinary::stations(&mut d, records - 7);
    let argument = d.named(T);
    let target = d.generic(ENDLESS, argument);
    d.generic_alias(ENDLESS, target, T);
    let t = d.generic_u8(ENDLESS);
    d.newtype(LAST, t);
    Some(d.numbered().bytes())
}

/// The last newtype writes more than there is room for.
pub fn full(blocks: usize) -> Option<Vec<u8>> {
    let mut d = Draft::default();
    ordinary::stations(&mut d, PLACES * blocks - 17);
    hostile::smallest_fan(&mut d);
    let leaf = d.primitive(U8);
    let t = hostile::fanned(&mut d, 10, leaf);
    d.newtype(LAST, t);
    Some(d.numbered().bytes())
}
