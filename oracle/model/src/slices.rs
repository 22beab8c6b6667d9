//! The two lent slices: used limits, and what is left in them.

use crate::record::{Record, RECORD};

/// "result 49,152 bytes and 2,048 records".
pub const RESULT_LIMIT: usize = 2_048;
/// "diagnostics 6,144 bytes and 256 records".
pub const DIAGNOSTIC_LIMIT: usize = 256;

/// In records: the full limit, "or as many whole records as a shorter slice holds".
pub fn used_limit(slice: &[u8], full: usize) -> usize {
    full.min(slice.len() / RECORD)
}

/// Records from the start of the slice on; no byte past them changes. There are never more of
/// them than the used limit.
pub fn write(slice: &mut [u8], records: &[Record]) {
    for (place, record) in slice.chunks_exact_mut(RECORD).zip(records) {
        place.copy_from_slice(&record.to_bytes());
    }
}

/// "zero up to its limit in bytes", which is 24 times its whole records (a decision).
pub fn clear(slice: &mut [u8], limit: usize) {
    slice[..limit * RECORD].fill(0);
}
