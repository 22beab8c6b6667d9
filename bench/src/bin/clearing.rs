//! How much of a call is clearing of tables: every call of memset in this program goes to a function of ours first, which
//! notes its length. Prints, for ordinary books of 1, 8 and 64 blocks, how many bytes one call of the library clears so,
//! how long clearing as many takes by itself, and what share of the call that is. Tables that the compiler clears in
//! place, without memset, are not counted.

use book_bench::books::{samples, Sample, ORDINARY};
use book_bench::sides::Ours;
use std::ffi::{c_int, c_void};
use std::hint::black_box;
use std::sync::atomic::{AtomicUsize, Ordering::Relaxed};
use std::time::Instant;

/// Each time is the median of so many runs.
const RUNS: usize = 10_001;

/// The lengths noted since `CALLS` was set to 0, up to so many.
static LENGTHS: [AtomicUsize; 8_192] = [const { AtomicUsize::new(0) }; 8_192];
static CALLS: AtomicUsize = AtomicUsize::new(0);

extern "C" {
    fn __real_memset(to: *mut c_void, byte: c_int, len: usize) -> *mut c_void;
}

/// What the linker puts in the place of memset.
///
/// # Safety
///
/// As for memset.
#[no_mangle]
pub unsafe extern "C" fn __wrap_memset(to: *mut c_void, byte: c_int, len: usize) -> *mut c_void {
    if let Some(noted) = LENGTHS.get(CALLS.fetch_add(1, Relaxed)) {
        noted.store(len, Relaxed);
    }
    // SAFETY: the caller's.
    unsafe { __real_memset(to, byte, len) }
}

/// The lengths that one call of the library clears.
fn cleared(ours: &mut Ours, book: &[u8]) -> Vec<usize> {
    CALLS.store(0, Relaxed);
    black_box(ours.call(book));
    let calls = CALLS.load(Relaxed);
    assert!(calls <= LENGTHS.len(), "more calls than are noted");
    LENGTHS[..calls].iter().map(|len| len.load(Relaxed)).collect()
}

/// Clears so many bytes in a row of tables.
fn clear(lengths: &[usize], tables: &mut [u8]) {
    let mut rest = black_box(tables);
    for len in lengths {
        let (table, behind) = rest.split_at_mut(*len);
        // SAFETY: the table has so many bytes.
        unsafe { __real_memset(table.as_mut_ptr().cast(), 0, table.len()) };
        rest = behind;
    }
}

/// The median time of some work, in nanoseconds.
fn median(mut work: impl FnMut()) -> f64 {
    let time = |_| {
        let start = Instant::now();
        work();
        start.elapsed().as_nanos() as u64
    };
    let mut times: Vec<u64> = (0..RUNS).map(time).collect();
    times.sort_unstable();
    times[RUNS / 2] as f64
}

fn print(sample: &Sample) {
    let mut ours = Ours::new();
    let lengths = cleared(&mut ours, &sample.bytes);
    let bytes: usize = lengths.iter().sum();
    let mut tables = vec![1; bytes];
    let whole = median(|| {
        black_box(ours.call(&sample.bytes));
    });
    let clearing = median(|| clear(&lengths, &mut tables));
    let share = 100.0 * clearing / whole;
    let (blocks, calls) = (sample.blocks, lengths.len());
    println!("{blocks:>8}{bytes:>10}{calls:>8}{clearing:>12.0}{whole:>12.0}{share:>7.1}%");
}

fn main() {
    let [blocks, bytes, calls, clearing, whole] = ["blocks", "bytes", "calls", "clearing ns", "whole ns"];
    println!(
        "{ORDINARY}: what memset clears in one call\n{blocks:>8}{bytes:>10}{calls:>8}{clearing:>12}{whole:>12}   share"
    );
    samples(&[1, 8, 64]).iter().filter(|sample| sample.kind == ORDINARY).for_each(print);
}
