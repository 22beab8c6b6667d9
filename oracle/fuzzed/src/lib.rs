//! What libFuzzer calls: one input through the proved library and the model, and changes of an input. The script
//! `fuzz` builds it over a library that has counters.

mod guarded;

use books::{Input, Rest, Rng};
use guarded::Guarded;
use std::cell::RefCell;

extern "C" {
    /// libFuzzer's own changes.
    fn LLVMFuzzerMutate(data: *mut u8, size: usize, most: usize) -> usize;
}

thread_local! {
    /// Where the book and both slices lie: an unreadable page stands behind each.
    static LENT: RefCell<[Guarded; 3]> = RefCell::new([0; 3].map(|_| Guarded::new()));
}

/// The byte of a lent slice before a run.
fn pattern(i: usize) -> u8 {
    (5 * i + 17) as u8
}

/// The library and the model give the same reply and leave the same bytes; or the process ends, and the fuzzer keeps
/// the input.
fn agree(input: &Input, lent: &mut [Guarded; 3]) {
    let (bytes, lengths) = (input.book(), input.lent());
    let mut results: Vec<u8> = (0..lengths.0).map(pattern).collect();
    let mut diagnostics: Vec<u8> = (0..lengths.1).map(pattern).collect();
    let [book, r, d] = lent;
    let (book, r, d) = (book.filled(&bytes), r.filled(&results), d.filled(&diagnostics));
    let reply = proved::lower(book, r, d);
    let (expected, _) = model::lower_book(&bytes, &mut results, &mut diagnostics);
    let same = reply == expected.words() && r == results && d == diagnostics && book == bytes;
    if !same {
        eprintln!("the proved library replies {reply:?}, the model {expected:?}; or a byte differs");
        std::process::abort();
    }
}

/// One input.
///
/// # Safety
/// libFuzzer hands over `size` bytes.
#[no_mangle]
pub unsafe extern "C" fn LLVMFuzzerTestOneInput(data: *const u8, size: usize) -> i32 {
    let bytes = if size == 0 { &[] } else { std::slice::from_raw_parts(data, size) };
    let input = Input::read(bytes);
    if input.book().len() <= guarded::MOST {
        LENT.with_borrow_mut(|lent| agree(&input, lent));
    }
    0
}

/// A change of an input: of its records, of its lengths or its form, or one of libFuzzer's own.
///
/// # Safety
/// libFuzzer hands over `size` bytes, with room for `most`.
#[no_mangle]
pub unsafe extern "C" fn LLVMFuzzerCustomMutator(data: *mut u8, size: usize, most: usize, seed: u32) -> usize {
    let mut rng = Rng::new(seed.into());
    let mut input = Input::read(std::slice::from_raw_parts(data, size));
    if size == 0 || rng.chance(5) {
        return LLVMFuzzerMutate(data, size, most);
    }
    changed(&mut input, &mut rng);
    let bytes = input.write();
    let bytes = &bytes[..bytes.len().min(most)];
    std::slice::from_raw_parts_mut(data, bytes.len()).copy_from_slice(bytes);
    bytes.len()
}

fn changed(input: &mut Input, rng: &mut Rng) {
    match &mut input.rest {
        _ if rng.chance(8) => {
            input.lent = (!rng.chance(3)).then(|| books::lengths(rng)).map(|(r, d)| (r as u16, d as u16))
        }
        Rest::Records(_) if rng.chance(50) => input.rest = Rest::Sealed(input.book()),
        Rest::Records(book) => books::mutate(book, rng),
        Rest::Bytes(bytes) if rng.chance(4) => input.rest = Rest::Sealed(std::mem::take(bytes)),
        Rest::Bytes(bytes) | Rest::Sealed(bytes) => flipped(bytes, rng),
    }
}

/// Some bits of a block's head and tail, or anywhere.
fn flipped(bytes: &mut [u8], rng: &mut Rng) {
    if bytes.is_empty() {
        return;
    }
    let blocks = (bytes.len() as u64).div_ceil(512);
    let place = *rng.pick(&[0, 1, 2, 3, 508, 509, 510, 511]);
    let at = 512 * rng.below(blocks) as usize + if rng.chance(2) { place } else { rng.below(512) as usize };
    if let Some(byte) = bytes.get_mut(at) {
        *byte ^= 1 << rng.below(8);
    }
}
