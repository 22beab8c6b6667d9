//! Reading a book: causes 1 to 8, in the order "1; blocks upward, 2 before 3; records upward,
//! 4 to 8 within each".

use std::collections::BTreeSet;

use crate::fields::{self, Group, Shape};
use crate::follow::Follow;
use crate::outline::Book;
use crate::record::{Record, RECORD};
use crate::Refusal;

/// "blocks of 512 bytes".
const BLOCK: usize = 512;
/// "1 to 64 blocks".
const MOST_BLOCKS: usize = 64;
/// "21 records of 24 bytes from byte 4".
const RECORDS_IN_BLOCK: usize = 21;
const FIRST_RECORD: usize = 4;
/// "tree deeper than 64".
const DEEPEST_TREE: u8 = 64;

/// The book, or its first cause of 1 to 8.
pub fn read(bytes: &[u8]) -> Result<Book, Refusal> {
    // "length 0, above 32,768 or no multiple of 512".
    if bytes.is_empty() || bytes.len() > MOST_BLOCKS * BLOCK || !bytes.len().is_multiple_of(BLOCK) {
        return Err(Refusal { number: 1, place: 0 });
    }
    let last = bytes.len() / BLOCK - 1;
    for (number, block) in bytes.chunks_exact(BLOCK).enumerate() {
        let refused = |cause| Refusal { number: cause, place: number as u32 };
        if !check_holds(block) {
            return Err(refused(2));
        }
        if !block_rules_hold(block, number, last) {
            return Err(refused(3));
        }
    }
    let records = read_records(bytes);
    check_records(&records)?;
    Ok(Book::new(records, bytes[3] == 1))
}

/// "The check reads 256 big-endian 16-bit words: add the first 255, fold carries into 16 bits until
/// none is left, invert all bits; the last word equals this", compared bit by bit (a decision).
fn check_holds(block: &[u8]) -> bool {
    let word = |pair: &[u8]| u32::from(pair[0]) << 8 | u32::from(pair[1]);
    let mut sum: u32 = block[..BLOCK - 2].chunks_exact(2).map(word).sum();
    while sum > 0xFFFF {
        sum = (sum & 0xFFFF) + (sum >> 16);
    }
    word(&block[BLOCK - 2..]) == !sum & 0xFFFF
}

/// The other rules of a block: its number, its record count, byte 3, and what has to be zero.
fn block_rules_hold(block: &[u8], number: usize, last: usize) -> bool {
    let count = usize::from(block[2]);
    let fewest = if number == last { 1 } else { RECORDS_IN_BLOCK };
    let highest_byte_3 = if number == 0 { 1 } else { 0 };
    usize::from(block[0]) + 256 * usize::from(block[1]) == number
        && (fewest..=RECORDS_IN_BLOCK).contains(&count)
        && block[3] <= highest_byte_3
        // "Unused record places are zero", and "508-509 zero" right behind them.
        && block[FIRST_RECORD + RECORD * count..BLOCK - 2].iter().all(|&byte| byte == 0)
}

/// All records: "Record number = 21 × block + place."
fn read_records(bytes: &[u8]) -> Vec<Record> {
    let mut records = Vec::with_capacity(bytes.len() / BLOCK * RECORDS_IN_BLOCK);
    for block in bytes.chunks_exact(BLOCK) {
        for place in 0..usize::from(block[2]) {
            let mut record = [0; RECORD];
            let start = FIRST_RECORD + RECORD * place;
            record.copy_from_slice(&block[start..start + RECORD]);
            records.push(Record::from_bytes(&record));
        }
    }
    records
}

fn check_records(records: &[Record]) -> Result<(), Refusal> {
    let mut state = State::default();
    for (number, record) in records.iter().enumerate() {
        state.check(record).map_err(|cause| Refusal { number: cause, place: number as u32 })?;
    }
    Ok(())
}

/// What the records before the one at hand leave behind.
#[derive(Default)]
struct State {
    earlier: Vec<Earlier>,
    follow: Follow,
    /// "20-23 share one set, 24 and 25 have one each."
    types: BTreeSet<u16>,
    constants: BTreeSet<u16>,
    ambiguous: BTreeSet<u16>,
}

/// An earlier record, as a child.
struct Earlier {
    group: Option<Group>,
    used: bool,
    depth: u8,
}

impl State {
    /// "4 to 8 within each": the first cause that the record falls under.
    fn check(&mut self, record: &Record) -> Result<(), u8> {
        let shape = fields::shape(record.kind, record.sub).filter(|shape| shape.holds(record)).ok_or(4)?;
        self.take_children(&shape, record)?;
        if !self.follow.admits(record) {
            return Err(6);
        }
        if !self.declares_anew(record) {
            return Err(7);
        }
        let depth = self.depth(&shape, record);
        if depth > DEEPEST_TREE {
            return Err(8);
        }
        self.earlier.push(Earlier { group: Group::of(record.kind), used: false, depth });
        Ok(())
    }

    /// Cause 5: "child not earlier, of the wrong group, or used before, also by the same record".
    fn take_children(&mut self, shape: &Shape, record: &Record) -> Result<(), u8> {
        for (child, group) in shape.children(record) {
            let child = self.earlier.get_mut(usize::from(child)).ok_or(5)?;
            if child.group != Some(group) || child.used {
                return Err(5);
            }
            child.used = true;
        }
        Ok(())
    }

    /// Cause 7: "name declared again".
    fn declares_anew(&mut self, record: &Record) -> bool {
        match record.kind {
            20..=23 => self.types.insert(record.a),
            24 => self.constants.insert(record.a),
            25 => self.ambiguous.insert(record.a),
            _ => true,
        }
    }

    /// "A leaf has depth 1, kinds 20 up add none". Children are at most 64 deep here.
    fn depth(&self, shape: &Shape, record: &Record) -> u8 {
        let below = shape.children(record).map(|(child, _)| self.earlier[usize::from(child)].depth).max();
        let own = if record.kind < 20 { 1 } else { 0 };
        below.unwrap_or(0) + own
    }
}
