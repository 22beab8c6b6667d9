//! How much stack lowering takes: a book is lowered on a thread of its own, whose stack was filled with a pattern; what
//! a thread takes that does nothing is taken off.

use crate::books::Sample;
use crate::sides::Ours;
use std::alloc::{alloc, dealloc, Layout};
use std::ffi::{c_int, c_void};
use std::ptr;

/// Bytes of the thread's stack.
const STACK: usize = 1 << 20;
const PATTERN: u8 = 0xA5;

/// `pthread_attr_t` of x86-64 Linux.
#[repr(C, align(8))]
struct Attributes([u8; 56]);

type Work = extern "C" fn(*mut c_void) -> *mut c_void;

extern "C" {
    fn pthread_attr_init(attributes: *mut Attributes) -> c_int;
    fn pthread_attr_setstack(attributes: *mut Attributes, stack: *mut c_void, size: usize) -> c_int;
    fn pthread_attr_destroy(attributes: *mut Attributes) -> c_int;
    fn pthread_create(thread: *mut usize, attributes: *const Attributes, work: Work, given: *mut c_void) -> c_int;
    fn pthread_join(thread: usize, answer: *mut *mut c_void) -> c_int;
}

/// What the lowering of a book takes at most.
pub struct Peak<'a> {
    pub sample: &'a Sample,
    pub bytes: usize,
}

/// What the thread is handed.
struct Job<'a> {
    ours: Ours,
    book: &'a [u8],
    reply: [u64; 4],
}

extern "C" fn nothing(given: *mut c_void) -> *mut c_void {
    given
}

extern "C" fn lower(given: *mut c_void) -> *mut c_void {
    // SAFETY: `used` hands a job over that nobody else touches until the thread has ended.
    let job = unsafe { &mut *given.cast::<Job>() };
    job.reply = job.ours.call(job.book);
    given
}

/// Runs work on a thread with this stack, and waits for its end.
fn run(stack: *mut u8, work: Work, job: &mut Job) {
    let (mut attributes, mut thread) = (Attributes([0; 56]), 0);
    // SAFETY: the attributes are made before they are used; the stack has so many bytes, rightly aligned, and outlives
    // the thread, as does the job.
    let failed = unsafe {
        pthread_attr_init(&mut attributes) != 0
            || pthread_attr_setstack(&mut attributes, stack.cast(), STACK) != 0
            || pthread_create(&mut thread, &attributes, work, ptr::from_mut(job).cast()) != 0
            || pthread_join(thread, ptr::null_mut()) != 0
            || pthread_attr_destroy(&mut attributes) != 0
    };
    assert!(!failed, "a thread with a stack of its own");
}

/// The bytes of its stack that a thread has written to, from the deepest one on.
fn used(work: Work, job: &mut Job) -> usize {
    let layout = Layout::from_size_align(STACK, 4096).expect("a layout");
    // SAFETY: the memory has so many bytes; the thread has ended before they are read, and they are before given back.
    unsafe {
        let stack = alloc(layout);
        assert!(!stack.is_null(), "memory for a stack");
        ptr::write_bytes(stack, PATTERN, STACK);
        run(stack, work, job);
        let untouched = (0..STACK).take_while(|at| stack.add(*at).read() == PATTERN).count();
        dealloc(stack, layout);
        STACK - untouched
    }
}

fn peak(sample: &Sample) -> Peak<'_> {
    let mut job = Job { ours: Ours::new(), book: &sample.bytes, reply: [0; 4] };
    let none = used(nothing, &mut job);
    let bytes = used(lower, &mut job) - none;
    assert_eq!(job.reply, sample.reply);
    Peak { sample, bytes }
}

/// What each book takes.
pub fn peaks(samples: &[Sample]) -> Vec<Peak<'_>> {
    samples.iter().map(peak).collect()
}

/// A line for each kind at its most blocks, and the most of all.
pub fn print(peaks: &[Peak]) {
    println!("\nbytes of stack");
    for kind in peaks.chunk_by(|a, b| a.sample.kind == b.sample.kind) {
        let last = &kind[kind.len() - 1];
        println!("{:34}{:>4} blocks{:>9}", last.sample.kind, last.sample.blocks, last.bytes);
    }
    let most = peaks.iter().max_by_key(|peak| peak.bytes).expect("a book");
    println!("most of all: {} ({}, {} blocks)", most.bytes, most.sample.kind, most.sample.blocks);
}
