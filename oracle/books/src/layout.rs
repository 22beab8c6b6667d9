//! The layout of a book: records, blocks, checks.

/// Bytes of one block.
pub const BLOCK: usize = 512;
/// Record places of one block.
pub const PLACES: usize = 21;
/// Bytes of one record.
pub const RECORD: usize = 24;
/// The most blocks a book may have.
pub const MOST_BLOCKS: usize = 64;
/// The most records a book may have.
pub const MOST_RECORDS: usize = MOST_BLOCKS * PLACES;
/// The number that means none where "or none" is said.
pub const NONE: u16 = 65_535;

/// One record of 24 bytes. Its span is `offset` and `len`.
#[derive(Clone, Copy, Debug, Default, PartialEq, Eq)]
pub struct Record {
    pub kind: u8,
    pub sub: u8,
    pub a: u16,
    pub b: u16,
    pub c: u16,
    pub v: u64,
    pub offset: u32,
    pub len: u32,
}

impl Record {
    /// The 24 bytes of the record.
    pub(crate) fn bytes(&self) -> [u8; RECORD] {
        let mut out = [0; RECORD];
        out[0] = self.kind;
        out[1] = self.sub;
        out[2..4].copy_from_slice(&self.a.to_le_bytes());
        out[4..6].copy_from_slice(&self.b.to_le_bytes());
        out[6..8].copy_from_slice(&self.c.to_le_bytes());
        out[8..16].copy_from_slice(&self.v.to_le_bytes());
        out[16..20].copy_from_slice(&self.offset.to_le_bytes());
        out[20..24].copy_from_slice(&self.len.to_le_bytes());
        out
    }

    /// The record that stands in the first 24 bytes. Panics on fewer.
    pub fn read(bytes: &[u8]) -> Record {
        let two = |at: usize| u16::from_le_bytes([bytes[at], bytes[at + 1]]);
        let four = |at: usize| u32::from(two(at)) | u32::from(two(at + 2)) << 16;
        Record {
            kind: bytes[0],
            sub: bytes[1],
            a: two(2),
            b: two(4),
            c: two(6),
            v: u64::from(four(8)) | u64::from(four(12)) << 32,
            offset: four(16),
            len: four(20),
        }
    }
}

/// A book as a list of records.
#[derive(Clone, Debug, Default, PartialEq, Eq)]
pub struct Book {
    pub wildcards: bool,
    pub records: Vec<Record>,
}

impl Book {
    /// Whole blocks with right headers and checks, also for more than 64 blocks' worth of records.
    pub fn bytes(&self) -> Vec<u8> {
        let blocks = self.records.len().div_ceil(PLACES);
        let mut out = vec![0; blocks * BLOCK];
        for (number, records) in self.records.chunks(PLACES).enumerate() {
            let block = &mut out[number * BLOCK..(number + 1) * BLOCK];
            block[0..2].copy_from_slice(&(number as u16).to_le_bytes());
            block[2] = records.len() as u8;
            block[3] = u8::from(number == 0 && self.wildcards);
            for (place, record) in records.iter().enumerate() {
                let at = 4 + place * RECORD;
                block[at..at + RECORD].copy_from_slice(&record.bytes());
            }
            seal(block, 0);
        }
        out
    }

    /// The book in these bytes, where the rules of length and of blocks hold. Checks are not looked at.
    pub fn read(bytes: &[u8]) -> Option<Book> {
        if bytes.is_empty() || !bytes.len().is_multiple_of(BLOCK) || bytes.len() > MOST_BLOCKS * BLOCK {
            return None;
        }
        let blocks = bytes.len() / BLOCK;
        let mut book = Book::default();
        for (number, block) in bytes.chunks(BLOCK).enumerate() {
            let count = usize::from(block[2]);
            let last = number + 1 == blocks;
            let counted = count == PLACES || (last && (1..PLACES).contains(&count));
            let marked = block[3] == 0 || (number == 0 && block[3] == 1);
            let numbered = usize::from(block[0]) + 256 * usize::from(block[1]) == number;
            if !counted || !marked || !numbered || block[508] != 0 || block[509] != 0 {
                return None;
            }
            let end = 4 + count * RECORD;
            if block[end..508].iter().any(|&byte| byte != 0) {
                return None;
            }
            book.wildcards |= block[3] == 1;
            book.records.extend(block[4..end].chunks(RECORD).map(Record::read));
        }
        Some(book)
    }
}

/// The right check of a block of 512 bytes.
pub fn check(block: &[u8]) -> u16 {
    let mut sum: u32 = block[..510].chunks(2).map(|pair| u32::from(pair[0]) << 8 | u32::from(pair[1])).sum();
    while sum > 0xFFFF {
        sum = (sum & 0xFFFF) + (sum >> 16);
    }
    !(sum as u16)
}

/// The check that stands in a block of 512 bytes.
pub fn written_check(block: &[u8]) -> u16 {
    u16::from_be_bytes([block[510], block[511]])
}

/// Writes the right check into that block.
pub fn seal(bytes: &mut [u8], block: usize) {
    let block = &mut bytes[block * BLOCK..(block + 1) * BLOCK];
    let right = check(block);
    block[510..512].copy_from_slice(&right.to_be_bytes());
}
