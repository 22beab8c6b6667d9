//! Causes 1 to 3: length, checks, block rules. A block fault may have others behind it: in the same block a rule
//! behind a check, in later blocks anything, and record faults anywhere.

use super::scene::wreck;
use super::Case;
use crate::layout::{check, seal, written_check, Book, Record, BLOCK, MOST_BLOCKS, PLACES, RECORD};
use crate::random::{sized, FIRST_EDGE, THEMES};
use crate::rng::Rng;

/// A book of that many blocks at least, its last block mostly not full.
fn book(rng: &mut Rng, blocks: usize) -> Book {
    let theme = rng.pick(&THEMES[..FIRST_EDGE]);
    let room = rng.between(1, 60);
    let mut book = sized(rng, theme, room);
    let least = (blocks - 1) * PLACES + rng.between(1, PLACES);
    while book.records.len() < least {
        book.records.push(Record { kind: 1, offset: rng.next() as u32, ..Record::default() });
    }
    book
}

/// The bytes of a book of one to five blocks, or in one of six cases of up to 64, and one of its blocks, often the
/// last.
fn some(rng: &mut Rng) -> (Vec<u8>, usize) {
    let blocks = if rng.chance(6) { rng.between(6, MOST_BLOCKS) } else { *rng.pick(&[1, 1, 2, 3, 5]) };
    let bytes = book(rng, blocks).bytes();
    let last = bytes.len() / BLOCK - 1;
    let block = if rng.chance(3) { last } else { rng.between(0, last) };
    (bytes, block)
}

/// The bytes of a book whose last block has unused places, and that block.
fn with_room(rng: &mut Rng) -> (Vec<u8>, usize) {
    loop {
        let (bytes, _) = some(rng);
        let last = bytes.len() / BLOCK - 1;
        if usize::from(bytes[BLOCK * last + 2]) < PLACES {
            return (bytes, last);
        }
    }
}

/// Adds faults that come later than that block.
fn later(rng: &mut Rng, bytes: &mut [u8], block: usize) {
    let blocks = bytes.len() / BLOCK;
    for _ in 0..1 + rng.below(3) {
        if block + 1 < blocks && rng.chance(2) {
            let at = rng.between(block + 1, blocks - 1);
            bytes[at * BLOCK + rng.between(0, BLOCK - 1)] ^= 1 << rng.below(8);
            if rng.chance(2) {
                seal(bytes, at);
            }
        } else {
            let at = rng.between(0, blocks - 1);
            wreck_one(rng, bytes, at, block);
        }
    }
}

/// Breaks a record of a block and keeps the check as right or as wrong as it was.
fn wreck_one(rng: &mut Rng, bytes: &mut [u8], at: usize, broken: usize) {
    if at == broken {
        return;
    }
    let right = holds(bytes, at);
    let place = at * BLOCK + 4 + RECORD * rng.between(0, usize::from(bytes[at * BLOCK + 2]).clamp(1, PLACES) - 1);
    let mut record = Record::read(&bytes[place..]);
    wreck(rng, &mut record);
    bytes[place..place + RECORD].copy_from_slice(&record.bytes());
    if right {
        seal(bytes, at);
    }
}

/// Whether the check of a block is right.
fn holds(bytes: &[u8], block: usize) -> bool {
    let block = &bytes[block * BLOCK..(block + 1) * BLOCK];
    check(block) == written_check(block)
}

/// The case of a fault in a block, in a third of all cases with later ones behind it.
fn case(rng: &mut Rng, mut bytes: Vec<u8>, cause: u8, block: usize) -> Case {
    if rng.chance(3) {
        later(rng, &mut bytes, block);
    }
    Case::new(bytes, Some((cause, block as u32)))
}

pub fn length_zero(_: &mut Rng) -> Case {
    Case::new(Vec::new(), Some((1, 0)))
}

/// Too long: sound but for its length, or one byte, or any bytes.
pub fn too_long(rng: &mut Rng) -> Case {
    let bytes = match rng.below(4) {
        0 => book(rng, MOST_BLOCKS + 1).bytes(),
        1 => {
            let blocks = MOST_BLOCKS + rng.between(1, 4);
            book(rng, blocks).bytes()
        }
        2 => {
            let mut bytes = book(rng, MOST_BLOCKS).bytes();
            let longer = *rng.pick(&[1, 1, 511, 512, 24]);
            bytes.resize(MOST_BLOCKS * BLOCK + longer, 0);
            bytes
        }
        _ => {
            let longer = rng.between(1, 1_500);
            random_bytes(rng, MOST_BLOCKS * BLOCK + longer)
        }
    };
    Case::new(bytes, Some((1, 0)))
}

pub fn ragged(rng: &mut Rng) -> Case {
    let (mut bytes, block) = some(rng);
    if rng.chance(3) {
        bytes[block * BLOCK + 510] ^= 1;
    }
    let count = bytes.len();
    let change = match rng.below(3) {
        0 => 1,
        _ => rng.between(1, BLOCK - 1),
    };
    if rng.chance(2) {
        bytes.truncate(count - change);
    } else {
        bytes.resize(count + change, 0);
    }
    // A book of one block that lost all but nothing is still no multiple of 512.
    Case::new(bytes, Some((1, 0)))
}

/// So many random bytes.
pub fn random_bytes(rng: &mut Rng, count: usize) -> Vec<u8> {
    (0..count).map(|_| rng.next() as u8).collect()
}

/// Writes a check.
fn write_check(bytes: &mut [u8], block: usize, check: u16) {
    let at = block * BLOCK + 510;
    bytes[at..at + 2].copy_from_slice(&check.to_be_bytes());
}

/// A wrong check: any, not inverted, bytes in the other order, one off, or zero.
pub fn wrong_check(rng: &mut Rng) -> Case {
    let (mut bytes, block) = some(rng);
    let right = check(&bytes[block * BLOCK..(block + 1) * BLOCK]);
    let wrong = match rng.below(6) {
        0 => rng.next() as u16,
        1 => !right,
        2 => right.swap_bytes(),
        3 => right.wrapping_add(1),
        4 => 0,
        _ => right.wrapping_sub(1),
    };
    let wrong = if wrong == right { !right } else { wrong };
    write_check(&mut bytes, block, wrong);
    case(rng, bytes, 2, block)
}

/// FFFF where the check is 0000: the sum of all words is all ones, and still it is not equal.
pub fn check_all_ones(rng: &mut Rng) -> Case {
    let (mut bytes, block) = some(rng);
    let at = block * BLOCK;
    // The high half of the first record's span length takes what the sum lacks.
    bytes[at + 26..at + 28].fill(0);
    let lacking = check(&bytes[at..at + BLOCK]);
    bytes[at + 26..at + 28].copy_from_slice(&lacking.to_be_bytes());
    write_check(&mut bytes, block, 0xFFFF);
    case(rng, bytes, 2, block)
}

/// 0000 where the check is FFFF: a block of zeros.
pub fn check_all_zeros(rng: &mut Rng) -> Case {
    let (mut bytes, block) = some(rng);
    bytes[block * BLOCK..(block + 1) * BLOCK].fill(0);
    case(rng, bytes, 2, block)
}

pub fn bit_flipped(rng: &mut Rng) -> Case {
    let (mut bytes, _) = some(rng);
    let at = rng.between(0, bytes.len() - 1);
    bytes[at] ^= 1 << rng.below(8);
    case(rng, bytes, 2, at / BLOCK)
}

/// A record changed without its check.
pub fn record_changed(rng: &mut Rng) -> Case {
    let (mut bytes, block) = some(rng);
    let at = block * BLOCK + 4;
    let mut record = Record::read(&bytes[at..]);
    while holds(&bytes, block) {
        wreck(rng, &mut record);
        record.v ^= rng.next();
        bytes[at..at + RECORD].copy_from_slice(&record.bytes());
    }
    case(rng, bytes, 2, block)
}

/// Any bytes at all. What comes first is known where the first check is wrong.
pub fn any_bytes(rng: &mut Rng) -> Case {
    let blocks = *rng.pick(&[1, 1, 2, 3, 64]);
    let bytes = random_bytes(rng, blocks * BLOCK);
    let expected = if holds(&bytes, 0) { None } else { Some((2, 0)) };
    Case::new(bytes, expected)
}

/// A case of a block rule: the byte at that place of the block is changed, and the block sealed.
fn rule(rng: &mut Rng, mut bytes: Vec<u8>, block: usize, at: usize, byte: u8) -> Case {
    bytes[block * BLOCK + at] = byte;
    seal(&mut bytes, block);
    case(rng, bytes, 3, block)
}

pub fn block_number(rng: &mut Rng) -> Case {
    let (bytes, block) = some(rng);
    let (at, right) = if rng.chance(2) { (0, block as u8) } else { (1, 0) };
    let wrong = match rng.below(3) {
        0 => right.wrapping_sub(1),
        1 => right ^ 1 << rng.below(8),
        _ => right + 1,
    };
    rule(rng, bytes, block, at, wrong)
}

/// Two blocks in the wrong order, each with its right check.
pub fn blocks_swapped(rng: &mut Rng) -> Case {
    let mut bytes = book(rng, 4).bytes();
    let (first, second) = *rng.pick(&[(0, 1), (1, 2), (0, 2)]);
    let (left, right) = bytes.split_at_mut(second * BLOCK);
    left[first * BLOCK..(first + 1) * BLOCK].swap_with_slice(&mut right[..BLOCK]);
    case(rng, bytes, 3, first)
}

pub fn no_records(rng: &mut Rng) -> Case {
    let (mut bytes, block) = some(rng);
    if rng.chance(2) {
        bytes[block * BLOCK + 4..(block + 1) * BLOCK].fill(0);
    }
    rule(rng, bytes, block, 2, 0)
}

pub fn too_few_records(rng: &mut Rng) -> Case {
    let bytes = book(rng, 3).bytes();
    let block = rng.between(0, bytes.len() / BLOCK - 2);
    let count = *rng.pick(&[20, 20, 1, 10]);
    short_block(rng, bytes, block, count)
}

/// A count below 21 before the last block, with the places behind it zero or not.
fn short_block(rng: &mut Rng, mut bytes: Vec<u8>, block: usize, count: u8) -> Case {
    if rng.chance(2) {
        let unused = block * BLOCK + 4 + RECORD * usize::from(count);
        bytes[unused..block * BLOCK + 508].fill(0);
    }
    rule(rng, bytes, block, 2, count)
}

pub fn too_many_records(rng: &mut Rng) -> Case {
    let (bytes, block) = some(rng);
    let count = *rng.pick(&[22, 22, 23, 42, 128, 255]);
    rule(rng, bytes, block, 2, count)
}

/// A count one too low in the last block: a record stands in an unused place.
pub fn record_not_counted(rng: &mut Rng) -> Case {
    loop {
        let (bytes, _) = some(rng);
        let block = bytes.len() / BLOCK - 1;
        let count = bytes[block * BLOCK + 2];
        if count > 1 {
            return rule(rng, bytes, block, 2, count - 1);
        }
    }
}

pub fn first_byte_three(rng: &mut Rng) -> Case {
    let (bytes, _) = some(rng);
    let byte = *rng.pick(&[2, 2, 3, 128, 129, 255]);
    rule(rng, bytes, 0, 3, byte)
}

pub fn later_byte_three(rng: &mut Rng) -> Case {
    let bytes = book(rng, 3).bytes();
    let block = rng.between(1, bytes.len() / BLOCK - 1);
    let byte = *rng.pick(&[1, 1, 2, 255]);
    rule(rng, bytes, block, 3, byte)
}

pub fn bytes_before_the_check(rng: &mut Rng) -> Case {
    let (bytes, block) = some(rng);
    let at = rng.between(508, 509);
    let byte = 1 << rng.below(8);
    rule(rng, bytes, block, at, byte)
}

/// A byte of an unused place that is not zero, also of its span.
pub fn unused_place(rng: &mut Rng) -> Case {
    let (bytes, block) = with_room(rng);
    let first = 4 + RECORD * usize::from(bytes[block * BLOCK + 2]);
    let at = match rng.below(4) {
        0 => first,
        1 => 507,
        _ => rng.between(first, 507),
    };
    let byte = 1 << rng.below(8);
    rule(rng, bytes, block, at, byte)
}

/// A block of zeros with its right check.
pub fn empty_block(rng: &mut Rng) -> Case {
    let (mut bytes, block) = some(rng);
    bytes[block * BLOCK..(block + 1) * BLOCK].fill(0);
    seal(&mut bytes, block);
    case(rng, bytes, 3, block)
}

/// A wrong check and a broken rule in one block.
pub fn check_and_rule(rng: &mut Rng) -> Case {
    let (mut bytes, block) = some(rng);
    let at = *rng.pick(&[0, 1, 2, 3, 508, 509]);
    bytes[block * BLOCK + at] ^= 0x82;
    if holds(&bytes, block) {
        bytes[block * BLOCK + 511] ^= 1;
    }
    case(rng, bytes, 2, block)
}

/// A broken rule, and a wrong check in a later block.
pub fn rule_before_check(rng: &mut Rng) -> Case {
    let mut bytes = book(rng, 3).bytes();
    let blocks = bytes.len() / BLOCK;
    let block = rng.between(0, blocks - 2);
    let behind = rng.between(block + 1, blocks - 1);
    bytes[behind * BLOCK + rng.between(510, 511)] ^= 1 << rng.below(8);
    let at = *rng.pick(&[0, 1, 2, 3, 508, 509]);
    bytes[block * BLOCK + at] ^= 0x82;
    seal(&mut bytes, block);
    Case::new(bytes, Some((3, block as u32)))
}

/// Records broken in front of a block fault.
pub fn records_before_block(rng: &mut Rng) -> Case {
    let mut bytes = book(rng, 3).bytes();
    let block = rng.between(1, bytes.len() / BLOCK - 1);
    for at in 0..block {
        wreck_one(rng, &mut bytes, at, block);
    }
    if rng.chance(2) {
        bytes[block * BLOCK + rng.between(0, 511)] ^= 1 << rng.below(8);
        return Case::new(bytes, Some((2, block as u32)));
    }
    bytes[block * BLOCK + 508] = 1;
    seal(&mut bytes, block);
    Case::new(bytes, Some((3, block as u32)))
}
