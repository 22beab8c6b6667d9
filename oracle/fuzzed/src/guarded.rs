//! Memory with an unreadable page behind it.

use std::ffi::c_void;

/// As many bytes as a book or a slice may have here.
pub const MOST: usize = 1 << 17;
const PAGE: usize = 4096;

extern "C" {
    fn mmap(at: *mut c_void, len: usize, protection: i32, flags: i32, file: i32, offset: i64) -> *mut c_void;
    fn mprotect(at: *mut c_void, len: usize, protection: i32) -> i32;
}

const READ_AND_WRITE: i32 = 3;
const NONE: i32 = 0;
const PRIVATE_AND_ANONYMOUS: i32 = 0x22;

pub struct Guarded(*mut u8);

impl Guarded {
    /// Memory that is never given back.
    pub fn new() -> Guarded {
        // SAFETY: a mapping of its own, of which the last page is closed.
        unsafe {
            let all =
                mmap(std::ptr::null_mut(), MOST + PAGE, READ_AND_WRITE, PRIVATE_AND_ANONYMOUS, -1, 0).cast::<u8>();
            assert!(all as isize != -1 && mprotect(all.add(MOST).cast(), PAGE, NONE) == 0, "no memory");
            Guarded(all)
        }
    }

    /// The last bytes before the unreadable page, with that content.
    pub fn filled(&mut self, content: &[u8]) -> &mut [u8] {
        assert!(content.len() <= MOST);
        // SAFETY: the bytes lie inside the mapping, which is this value's own.
        let place = unsafe { std::slice::from_raw_parts_mut(self.0.add(MOST - content.len()), content.len()) };
        place.copy_from_slice(content);
        place
    }
}
