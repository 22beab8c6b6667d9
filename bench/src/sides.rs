//! The three sides: the library, the Rust, and one bare pass of the check. Each makes its call through one function,
//! which a clock or a counter stands around.

use signal_book::{DIAGNOSTICS_LIMIT, RESULTS_LIMIT};
use std::hint::black_box;
use vexil::timed::{Context, Prepared};

/// The library, with slices of the full limits, which are not cleared between calls.
pub struct Ours {
    results: Vec<u8>,
    diagnostics: Vec<u8>,
}

impl Ours {
    pub fn new() -> Ours {
        Ours { results: vec![0xA5; RESULTS_LIMIT], diagnostics: vec![0xA5; DIAGNOSTICS_LIMIT] }
    }

    /// Reads, checks and lowers a book: the four words of the reply.
    pub fn call(&mut self, book: &[u8]) -> [u64; 4] {
        signal_book::sys::lower_words(black_box(book), &mut self.results, &mut self.diagnostics)
    }
}

impl Default for Ours {
    fn default() -> Ours {
        Ours::new()
    }
}

/// One pass of the check of RFC 1071 over the blocks of a book: whether all hold.
pub fn check(book: &[u8]) -> bool {
    book.chunks_exact(512).all(|block| {
        let (words, last) = block.split_at(510);
        let word = |pair: &[u8]| u16::from_be_bytes([pair[0], pair[1]]);
        let mut sum: u32 = words.chunks_exact(2).map(|pair| u32::from(word(pair))).sum();
        while sum > 0xFFFF {
            sum = (sum & 0xFFFF) + (sum >> 16);
        }
        !(sum as u16) == word(last)
    })
}

/// What a counter counts of the library: valgrind knows it by this name.
#[no_mangle]
#[inline(never)]
pub extern "C" fn counted_ours(ours: &mut Ours, book: &&[u8]) {
    black_box(ours.call(book));
}

/// What a counter counts of the Rust.
#[no_mangle]
#[inline(never)]
#[allow(improper_ctypes_definitions)]
pub extern "C" fn counted_rust(prepared: &Prepared, context: &mut Context) {
    prepared.lower(black_box(context));
}

/// What a counter counts of the check.
#[no_mangle]
#[inline(never)]
pub extern "C" fn counted_check(book: &&[u8]) {
    black_box(check(black_box(book)));
}
