//! How long the proved library reads books of 1, 8 and 64 blocks, of several kinds.

use crate::named::Draft;
use books::{seal, Book};
use std::hint::black_box;
use std::time::Instant;

const BLOCKS: [usize; 3] = [1, 8, 64];

/// Each time is the median of so many runs.
const RUNS: usize = 2_001;

/// Adds declarations, each handed its number, until no more fit into the blocks; the places left are filled with types
/// that nothing uses.
fn filled(blocks: usize, add: impl Fn(&mut Draft, u16)) -> Book {
    let mut d = Draft::default();
    for n in 0.. {
        let mut more = d.clone();
        add(&mut more, n);
        if more.book.records.len() > 21 * blocks {
            break;
        }
        d = more;
    }
    while d.book.records.len() < 21 * blocks {
        d.u8();
    }
    d.book
}

/// A sensor: a message with a value, which is limited, and a clock.
fn station(d: &mut Draft, n: u16) {
    d.message(n);
    let value = d.primitive(2);
    let low = d.operand(0);
    let high = d.operand(9_000);
    let range = d.put(15, 0, [low, high, 0], 0);
    d.field(0, value, range);
    d.annotation(0);
    let clock = d.primitive(3);
    d.field(1, clock, 65_535);
}

/// A constant that refers to the one before.
fn constants(d: &mut Draft, n: u16) {
    let before = d.reference(n.saturating_sub(1));
    let one = d.int(1);
    let sum = d.operation(0, before, one);
    d.constant(n, sum);
}

/// A type as deep as one block lets it be.
fn deep(d: &mut Draft, n: u16) {
    let t = d.arrays_u8(20);
    d.newtype(n, t);
}

/// A message with tombstones and their arguments, whose rows come last in the table of kinds.
fn tombstones(d: &mut Draft, n: u16) {
    d.message(n);
    let t = d.u8();
    d.tombstone(0, t, 0);
    (0..9).for_each(|_| {
        d.put(36, 2, [65_535, 0, 0], 0);
    });
}

/// Books of so many blocks, each with a name and what reading has to give.
fn books(blocks: usize) -> Vec<(&'static str, Vec<u8>, Option<(u8, u32)>)> {
    let last = blocks - 1;
    let accepted = |make: fn(&mut Draft, u16)| filled(blocks, make).bytes();
    let mut check = accepted(station);
    check[512 * last + 511] ^= 1;
    let mut child = accepted(station);
    let at = 512 * last + 4 + 24 * 20;
    child[at..at + 24].fill(0);
    child[at] = 7;
    child[at + 2..at + 4].fill(0xFF);
    seal(&mut child, last);
    vec![
        ("sensors", accepted(station), None),
        ("constants, each over the last", accepted(constants), None),
        ("types of 20 levels", accepted(deep), None),
        ("tombstones with arguments", accepted(tombstones), None),
        ("refused by 2 in the last block", check, Some((2, last as u32))),
        ("refused by 5 at the last record", child, Some((5, 21 * last as u32 + 20))),
    ]
}

/// The median time of a reading, in nanoseconds. What is read has to be right.
fn median(book: &[u8], expected: Option<(u8, u32)>) -> u64 {
    let mut times: Vec<u64> = (0..RUNS)
        .map(|_| {
            let start = Instant::now();
            let read = proved::refusal(black_box(book));
            let time = start.elapsed().as_nanos() as u64;
            assert_eq!(read, expected);
            time
        })
        .collect();
    times.sort();
    times[RUNS / 2]
}

/// A line for each kind of book: the time of a reading, and for each block of the book.
pub fn print() {
    println!("nanoseconds for a book, and for each of its blocks (median of {RUNS})");
    print!("{:32}", "");
    BLOCKS.iter().for_each(|n| print!("{:>20}", format!("{n} blocks")));
    println!();
    let all = BLOCKS.map(books);
    for kind in 0..all[0].len() {
        print!("{:32}", all[0][kind].0);
        for (blocks, of) in BLOCKS.iter().zip(&all) {
            let (_, book, expected) = &of[kind];
            let time = median(book, *expected);
            print!("{time:>12} {:>7}", time / *blocks as u64);
        }
        println!();
    }
}
