//! The books that are measured: kinds of them, each for 1, 2, 4, .. 64 blocks. None is random.

mod aliases;
mod constants;
mod draft;
mod hostile;
mod names;
mod ordinary;
mod refused;

use draft::Draft;
use signal_book::{DIAGNOSTICS_LIMIT, RESULTS_LIMIT};

/// The sizes, in blocks.
pub const SIZES: [usize; 7] = [1, 2, 4, 8, 16, 32, 64];

/// The kind that every other one is held to.
pub const ORDINARY: &str = "ordinary stations";

/// The same books with names from 2,000 on, as one has whose words are a few out of many.
pub const SPREAD: &str = "ordinary, names spread";

/// How a kind is made, for so many blocks. None where so few have no such book.
enum Make {
    Accepted(fn(usize) -> Option<Draft>),
    /// With the number of the cause, and whether its place is a block, a record or 0.
    Refused(u64, Place, fn(usize) -> Option<Vec<u8>>),
}

/// Where a late refusal is.
#[derive(Clone, Copy)]
enum Place {
    Zero,
    LastBlock,
    LastRecord,
}

use Make::{Accepted, Refused};
use Place::{LastBlock, LastRecord, Zero};

const KINDS: [(&str, Make); 27] = [
    (ORDINARY, Accepted(ordinary::book)),
    (SPREAD, Accepted(ordinary::book)),
    ("constants, best order", Accepted(constants::forwards)),
    ("constants, worst order", Accepted(constants::backwards)),
    ("constants, first names all", Accepted(constants::sum_first)),
    ("generics, 64 deep", Accepted(aliases::deep)),
    ("generics over arrays", Accepted(aliases::deep_arrays)),
    ("alias chain of arrays", Accepted(aliases::arrays)),
    ("alias chain", Accepted(aliases::chain)),
    ("wildcard stubs", Accepted(names::stubs)),
    ("pairs", Accepted(names::pairs)),
    ("pairs met again", Accepted(names::pairs_again)),
    ("hostile: sum over worst order", Accepted(constants::sum_first_backwards)),
    ("hostile: steps of generics", Accepted(hostile::generics)),
    ("hostile: last pair again", Accepted(hostile::pairs)),
    ("hostile: copies of aliases", Accepted(hostile::copies)),
    ("hostile: ambiguous names", Accepted(hostile::ambiguous)),
    ("refused by 1", Refused(1, Zero, refused::length)),
    ("refused by 2, last block", Refused(2, LastBlock, refused::check)),
    ("refused by 3, last block", Refused(3, LastBlock, refused::block)),
    ("refused by 4, last record", Refused(4, LastRecord, refused::shape)),
    ("refused by 5, last record", Refused(5, LastRecord, refused::child)),
    ("refused by 6, last record", Refused(6, LastRecord, refused::follow)),
    ("refused by 7, last record", Refused(7, LastRecord, refused::name)),
    ("refused by 8, last record", Refused(8, LastRecord, refused::depth)),
    ("refused by 9, last record", Refused(9, LastRecord, refused::too_deep)),
    ("refused by 10, last record", Refused(10, LastRecord, refused::full)),
];

/// A book that is measured.
pub struct Sample {
    pub kind: &'static str,
    pub blocks: usize,
    pub records: usize,
    pub bytes: Vec<u8>,
    /// The four words of the reply.
    pub reply: [u64; 4],
}

impl Sample {
    pub fn accepted(&self) -> bool {
        self.reply[0] == 0
    }

    /// The reply as the check program says it.
    pub fn says(&self) -> String {
        match self.reply {
            [0, results, diagnostics, constants] => format!("accepted {results} {diagnostics} {constants}"),
            [cause, place, ..] => format!("refused {cause} {place}"),
        }
    }
}

/// The words of the reply, and both slices, as the model has them for full slices.
fn lowered(book: &[u8]) -> ([u64; 4], Vec<u8>, Vec<u8>) {
    let (mut results, mut diagnostics) = (vec![0xA5; RESULTS_LIMIT], vec![0xA5; DIAGNOSTICS_LIMIT]);
    let (reply, _) = model::lower_book(book, &mut results, &mut diagnostics);
    (reply.words(), results, diagnostics)
}

/// The names of the kinds, in their order.
pub fn kinds() -> impl Iterator<Item = &'static str> {
    KINDS.iter().map(|(name, _)| *name)
}

/// The books of these sizes, kind by kind, after each was tried.
pub fn samples(sizes: &[usize]) -> Vec<Sample> {
    KINDS.iter().flat_map(|kind| sizes.iter().filter_map(|blocks| sample(kind, *blocks))).collect()
}

/// A book of a kind, if there is one of so many blocks.
fn sample((kind, make): &'static (&'static str, Make), blocks: usize) -> Option<Sample> {
    let last = draft::PLACES * blocks - 1;
    let (bytes, expected) = match make {
        Accepted(make) if *kind == SPREAD => (make(blocks)?.numbered_from(2_000).bytes(), None),
        Accepted(make) => (make(blocks)?.numbered().bytes(), None),
        Refused(cause, place, make) => {
            let place = match place {
                Zero => 0,
                LastBlock => blocks - 1,
                LastRecord => last,
            };
            (make(blocks)?, Some([*cause, place as u64, 0, 0]))
        }
    };
    assert_eq!(bytes.len().div_ceil(512), blocks, "{kind}: blocks");
    let reply = tried(kind, &bytes);
    match expected {
        None => assert_eq!(reply[0], 0, "{kind}, {blocks} blocks: {reply:?}"),
        Some(expected) => assert_eq!(reply, expected, "{kind}, {blocks} blocks"),
    }
    let records = bytes.chunks(512).map(|block| usize::from(block[2])).sum();
    Some(Sample { kind, blocks, records, bytes, reply })
}

/// The reply to a book. The library and the model agree on it and on every byte of both slices, and the Rust, on a book
/// that is accepted, on the number of diagnostics and of stored constants.
fn tried(kind: &str, book: &[u8]) -> [u64; 4] {
    let (mut results, mut diagnostics) = (vec![0xA5; RESULTS_LIMIT], vec![0xA5; DIAGNOSTICS_LIMIT]);
    let reply = signal_book::sys::lower_words(book, &mut results, &mut diagnostics);
    assert!(lowered(book) == (reply, results, diagnostics), "{kind}: the library and the model differ");
    if reply[0] == 0 {
        let prepared = vexil::timed::Prepared::new(book);
        let mut context = prepared.context();
        prepared.lower(&mut context);
        let [_, told, stored] = context.counts().map(|n| n as u64);
        assert_eq!([told, stored], [reply[2], reply[3]], "{kind}: the library and the Rust differ");
    }
    reply
}
