//! A run: books are made, judged and counted.

use crate::counts::Counts;
use crate::judge::{self, judge, Outcome};
use crate::{named, results};
use books::{Book, Rng};
use model::Reply;
use std::ops::Range;

/// A book on which something disagrees.
pub struct Disagreement {
    pub bytes: Vec<u8>,
    pub lent: (usize, usize),
    pub expected: Option<(u8, u32)>,
    pub what: String,
    pub why: String,
}

/// What was seen.
#[derive(Default)]
pub struct Tally {
    pub counts: Counts,
    pub named: u64,
    pub generated: u64,
    pub accepted: u64,
    pub compared: u64,
    pub disagreements: u64,
    pub smallest: Option<Disagreement>,
}

impl Tally {
    fn merge(&mut self, other: Tally) {
        self.counts.merge(other.counts);
        self.named += other.named;
        self.generated += other.generated;
        self.accepted += other.accepted;
        self.compared += other.compared;
        self.disagreements += other.disagreements - other.smallest.is_some() as u64;
        other.smallest.into_iter().for_each(|d| self.disagrees(d));
    }

    fn disagrees(&mut self, d: Disagreement) {
        self.disagreements += 1;
        if self.smallest.as_ref().is_none_or(|s| d.bytes.len() < s.bytes.len()) {
            self.smallest = Some(d);
        }
    }

    fn saw(&mut self, outcome: &Outcome) {
        match outcome.reply {
            Reply::Accepted { .. } => self.counts.add("cause, 0 accepted", 0, 0),
            Reply::Refused { number, .. } => self.counts.add("cause, 0 accepted", 0, number as u32),
        }
    }

    /// Counts the records of an accepted book.
    fn accepts(&mut self, book: &Book, full: &judge::Run) {
        let Reply::Accepted { results, diagnostics, .. } = full.reply else {
            return;
        };
        self.accepted += 1;
        self.counts.book(book);
        self.counts.records("result", &results::records(&full.results, results));
        let mut told: Vec<u8> = results::records(&full.diagnostics, diagnostics).iter().map(|r| r.sub).collect();
        told.sort();
        told.dedup();
        told.iter().for_each(|m| self.counts.add("message", 0, *m as u32));
    }
}

/// A generator for book number n of a kind: each book can be made again by itself.
fn generator(seed: u64, kind: u64, n: u64) -> Rng {
    Rng::new(seed.wrapping_mul(0x9e37_79b9_7f4a_7c15) ^ (kind << 56) ^ n)
}

/// Lengths around those that a book fills: a byte or a record too short, just enough, a byte or nearly a record more.
fn around(bytes: &[u8], rng: &mut Rng) -> (usize, usize) {
    let (results, diagnostics) = match judge::full(bytes).map(|run| run.reply) {
        Ok(Reply::Accepted { results, diagnostics, .. }) => (results as usize, diagnostics as usize),
        _ => (judge::MOST_RESULTS, judge::MOST_DIAGNOSTICS),
    };
    let mut near = |records: usize| 24 * records - 24 + *rng.pick(&[0, 1, 23, 24, 24, 24, 25, 47]);
    (near(results.max(1)), near(diagnostics.max(1)))
}

/// Readable book number n, and the lengths that it is lent.
pub fn readable_book(seed: u64, n: u64) -> (Book, (usize, usize)) {
    let mut rng = generator(seed, 1, n);
    let book = books::readable(&mut rng);
    let lent = if rng.chance(2) { around(&book.bytes(), &mut rng) } else { books::lengths(&mut rng) };
    (book, lent)
}

/// One readable book in so many is lowered with its slices cut behind each of its records.
const CUT: u64 = 64;

/// Judges readable book number n.
fn readable(seed: u64, n: u64, tally: &mut Tally) {
    let (book, lent) = readable_book(seed, n);
    let bytes = book.bytes();
    tally.generated += 1;
    let judged = judge(&bytes, lent.0, lent.1, None).and_then(|outcome| {
        if n.is_multiple_of(CUT) {
            judge::cuts(&bytes, &outcome)?;
        }
        Ok(outcome)
    });
    match judged {
        Ok(outcome) => {
            tally.saw(&outcome);
            tally.compared += outcome.compared as u64;
            outcome.full.iter().for_each(|full| tally.accepts(&book, full));
        }
        Err(why) => tally.disagrees(Disagreement { bytes, lent, expected: None, what: "a readable book".into(), why }),
    }
}

/// Damaged book number n.
fn damaged(seed: u64, n: u64, tally: &mut Tally) {
    let d = books::damaged(&mut generator(seed, 2, n));
    let lent = (d.results, d.diagnostics);
    match judge(&d.bytes, lent.0, lent.1, d.expected) {
        Ok(outcome) => tally.saw(&outcome),
        Err(why) => {
            let what = d.what.to_string();
            tally.disagrees(Disagreement { bytes: d.bytes, lent, expected: d.expected, what, why });
        }
    }
}

/// The books with names, each held to the reply that is known by hand.
fn named_books(tally: &mut Tally) {
    for n in named::all() {
        let judged = judge(&n.bytes, n.lent.0, n.lent.1, None).and_then(|o| match n.expected {
            Some(e) if e != o.reply => Err(format!("{e:?} by hand, but the model says {:?}", o.reply)),
            _ => Ok(()),
        });
        tally.named += 1;
        if let Err(why) = judged {
            println!("{}: {why}", n.name);
            tally.disagrees(Disagreement { bytes: n.bytes, lent: n.lent, expected: None, what: n.name, why });
        }
    }
}

/// Shares some numbers out to two threads, each with a stack that holds the deepest trees: what comes of the even ones,
/// and of the odd.
pub fn share<T: Default + Send>(numbers: Range<u64>, of: impl Fn(u64, &mut T) + Sync) -> [T; 2] {
    let (of, numbers) = (&of, &numbers);
    let half = move |odd: u64| {
        let mut sum = T::default();
        numbers.clone().filter(|n| n % 2 == odd).for_each(|n| of(n, &mut sum));
        sum
    };
    std::thread::scope(|s| {
        let start = |odd| std::thread::Builder::new().stack_size(256 << 20).spawn_scoped(s, move || half(odd));
        let started = [0, 1].map(|odd| start(odd).expect("a thread"));
        started.map(|t| t.join().expect("a thread that ends"))
    })
}

/// How many readable books are made before it is asked whether that is enough.
pub const ROUND: u64 = 500;

/// Books with names, unless they are left out, and the books of each seed. The same seeds and numbers give the same
/// tally.
pub fn run(named: bool, books: u64, damages: u64, seeds: Range<u64>) -> Tally {
    let mut all = Tally::default();
    if named {
        named_books(&mut all);
    }
    seeds.for_each(|seed| all.merge(of_seed(books, damages, seed)));
    all
}

/// Readable books until enough accepted ones have been compared with the Rust, and damaged ones.
fn of_seed(books: u64, damages: u64, seed: u64) -> Tally {
    let mut all = Tally::default();
    while all.compared + all.disagreements < books {
        let from = all.generated;
        share(from..from + ROUND, |n, tally| readable(seed, n, tally)).into_iter().for_each(|t| all.merge(t));
    }
    share(0..damages, |n, tally| damaged(seed, n, tally)).into_iter().for_each(|t| all.merge(t));
    all
}
