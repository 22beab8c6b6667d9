//! In how many books each kind, sub, message and cause came.

use books::{Book, Record};
use std::collections::{BTreeMap, BTreeSet};

#[derive(Default)]
pub struct Counts {
    /// What, as a word and two numbers, and in how many books.
    pub seen: BTreeMap<(&'static str, u32, u32), u64>,
}

impl Counts {
    pub fn add(&mut self, what: &'static str, a: u32, b: u32) {
        *self.seen.entry((what, a, b)).or_insert(0) += 1;
    }

    /// Counts each kind and sub of some records once.
    pub fn records(&mut self, what: &'static str, records: &[Record]) {
        let all: BTreeSet<(u32, u32)> = records.iter().map(|r| (r.kind as u32, r.sub as u32)).collect();
        all.into_iter().for_each(|(kind, sub)| self.add(what, kind, sub));
    }

    pub fn book(&mut self, book: &Book) {
        self.records("kind", &book.records);
        self.add("wildcards", 0, book.wildcards as u32);
        let blocks = book.records.len().div_ceil(21) as u32;
        self.add("blocks, from 16 on by 16", 0, if blocks < 16 { blocks } else { blocks / 16 * 16 });
    }

    pub fn merge(&mut self, other: Counts) {
        for (what, n) in other.seen {
            *self.seen.entry(what).or_insert(0) += n;
        }
    }

    /// A line for each word, and for each first number where there are several, with the counts by second number.
    pub fn print(&self) {
        let mut lines: BTreeMap<(&str, u32), Vec<String>> = BTreeMap::new();
        for ((what, a, b), n) in &self.seen {
            lines.entry((what, *a)).or_default().push(format!("{b}: {n}"));
        }
        for ((what, a), all) in lines {
            let several = if a == 0 { String::new() } else { format!(" {a}") };
            println!("{what}{several}   {}", all.join("  "));
        }
    }

    /// What of kinds, subs, messages and causes came in fewer than `least` books.
    pub fn rare(&self, least: u64) -> Vec<String> {
        let got = |what: &'static str, a: u32, b: u32| self.seen.get(&(what, a, b)).copied().unwrap_or(0);
        let mut rare = Vec::new();
        let mut look = |what: &'static str, a: u32, b: u32| {
            if got(what, a, b) < least {
                rare.push(format!("{what} {a} {b}: {}", got(what, a, b)));
            }
        };
        for (kind, last) in KINDS {
            (0..=last).for_each(|sub| look("kind", kind, sub));
        }
        for (kind, last) in RESULTS {
            (0..=last).for_each(|sub| look("result", kind, sub));
        }
        (0..=5).for_each(|m| look("message", 0, m));
        (1..=10).for_each(|c| look("cause, 0 accepted", 0, c));
        rare
    }
}

/// Each kind of a book's records with its last sub.
const KINDS: [(u32, u32); 29] = [
    (1, 13),
    (2, 1),
    (3, 5),
    (4, 0),
    (5, 0),
    (6, 0),
    (7, 9),
    (8, 1),
    (9, 0),
    (10, 4),
    (11, 0),
    (12, 9),
    (13, 2),
    (14, 5),
    (15, 1),
    (16, 5),
    (20, 0),
    (21, 0),
    (22, 0),
    (23, 0),
    (24, 0),
    (25, 0),
    (30, 0),
    (31, 0),
    (32, 1),
    (33, 0),
    (34, 4),
    (35, 2),
    (36, 2),
];

/// Each kind of result records that a book's records do not have, with its last sub.
const RESULTS: [(u32, u32); 9] = [(40, 0), (41, 1), (42, 0), (43, 0), (44, 0), (45, 0), (46, 2), (47, 1), (48, 0)];
