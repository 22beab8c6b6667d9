//! The proved crates `lower` and `book`, linked as static libraries: the function that each exports, as it answers. A Rattle
//! slice is handed over as a pointer and a length.

pub use signal_book::sys::lower_words as lower;

#[cfg(feature = "reading")]
extern "C" {
    /// `book_refusal` of crates/book.
    fn book_refusal(book: *const u8, len: usize) -> u32;
}

/// The cause, 1 to 8, and the place by which reading refuses a book, or none.
#[cfg(feature = "reading")]
pub fn refusal(book: &[u8]) -> Option<(u8, u32)> {
    // SAFETY: the function reads the `len` bytes behind the pointer and no others, writes none, and keeps nothing.
    let word = unsafe { book_refusal(book.as_ptr(), book.len()) };
    (word != 0).then_some(((word >> 16) as u8, word & 0xFFFF))
}

#[cfg(test)]
mod tests {
    /// The check of a block of zeros is all ones.
    fn sealed() -> [u8; 512] {
        let mut block = [0; 512];
        block[510..].fill(0xFF);
        block
    }

    #[test]
    fn books_are_refused() {
        let refused = |book: &[u8]| {
            let mut slices = ([7; 48], [9; 24]);
            let reply = super::lower(book, &mut slices.0, &mut slices.1);
            assert_eq!(slices, ([7; 48], [9; 24]));
            reply
        };
        assert_eq!(refused(&[]), [1, 0, 0, 0]);
        assert_eq!(refused(&[0; 511]), [1, 0, 0, 0]);
        assert_eq!(refused(&[0; 65 * 512]), [1, 0, 0, 0]);
        assert_eq!(refused(&[0; 512]), [2, 0, 0, 0]);
        assert_eq!(refused(&sealed()), [3, 0, 0, 0]);
    }

    #[cfg(feature = "reading")]
    #[test]
    fn books_are_read() {
        use super::refusal;
        assert_eq!(refusal(&[]), Some((1, 0)));
        assert_eq!(refusal(&[0; 511]), Some((1, 0)));
        assert_eq!(refusal(&[0; 65 * 512]), Some((1, 0)));
        assert_eq!(refusal(&[0; 512]), Some((2, 0)));
        assert_eq!(refusal(&sealed()), Some((3, 0)));
    }
}
