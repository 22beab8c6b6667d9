//! The function that the archive exports, as it is, and its reply as it is. [`lower`](crate::lower) says the same in types.

extern "C" {
    /// Lowers a book; `include/signal_book.h` says what each argument is.
    ///
    /// # Safety
    ///
    /// Each pointer is valid for so many bytes as the length behind it says (one with length 0 may be null), and `reply` for
    /// four words. The book is not changed meanwhile, and what is written, the two slices and the reply, overlaps with nothing.
    pub fn signal_book_lower(
        book: *const u8,
        book_len: usize,
        results: *mut u8,
        results_len: usize,
        diagnostics: *mut u8,
        diagnostics_len: usize,
        reply: *mut [u64; 4],
    );
}

/// Lowers a book, and gives the four words of the reply: 0 and the counts of results, diagnostics and stored constants; or
/// the number of the cause, the place, and two zeros.
pub fn lower_words(book: &[u8], results: &mut [u8], diagnostics: &mut [u8]) -> [u64; 4] {
    // Every word is written; one that was not would show.
    let mut reply = [u64::MAX; 4];
    // SAFETY: the function reads the bytes of the book, writes bytes of the two slices and the four words, and touches no
    // others; the borrows keep all four apart. It keeps no pointer.
    unsafe {
        signal_book_lower(
            book.as_ptr(),
            book.len(),
            results.as_mut_ptr(),
            results.len(),
            diagnostics.as_mut_ptr(),
            diagnostics.len(),
            &mut reply,
        )
    };
    reply
}
