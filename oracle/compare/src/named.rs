//! Books with names: the known answers, and each edge with what must come of it. What is expected here is by hand, from
//! the format.

mod bodies;
mod children;
mod constants;
mod cuts;
mod draft;
mod faults;
mod limits;
mod resolving;
mod types;

pub use draft::Draft;
pub use resolving::chain;

use model::Reply;

/// Lengths of both slices at the full limits.
pub const FULL: (usize, usize) = (49_152, 6_144);

/// A book with the lengths it is lowered with, and the reply where it is known by hand.
pub struct Named {
    pub name: String,
    pub bytes: Vec<u8>,
    pub lent: (usize, usize),
    pub expected: Option<Reply>,
}

/// The books so far.
#[derive(Default)]
struct Books {
    all: Vec<Named>,
}

impl Books {
    fn add(&mut self, name: impl Into<String>, d: &Draft, expected: Option<Reply>) {
        self.lend(name, d, FULL, expected);
    }

    fn lend(&mut self, name: impl Into<String>, d: &Draft, lent: (usize, usize), expected: Option<Reply>) {
        self.bytes(name, d.book.bytes(), lent, expected);
    }

    fn bytes(&mut self, name: impl Into<String>, bytes: Vec<u8>, lent: (usize, usize), expected: Option<Reply>) {
        self.all.push(Named { name: name.into(), bytes, lent, expected });
    }

    /// A book that is refused at the record whose number `make` gives.
    fn refuse(&mut self, name: impl Into<String>, cause: u8, make: impl FnOnce(&mut Draft) -> u16) {
        let mut d = Draft::default();
        let at = make(&mut d);
        self.add(name, &d, refused(cause, at));
    }
}

fn accepted(results: u32, diagnostics: u32, constants: u32) -> Option<Reply> {
    Some(Reply::Accepted { results, diagnostics, constants })
}

fn refused(number: u8, place: u16) -> Option<Reply> {
    Some(Reply::Refused { number, place: place as u32 })
}

/// All books, in the order of the list.
pub fn all() -> Vec<Named> {
    let mut to = Books::default();
    constants::proving_runs(&mut to);
    bodies::proving_runs(&mut to);
    types::proving_runs(&mut to);
    types::wild_runs(&mut to);
    constants::arithmetic(&mut to);
    constants::orders(&mut to);
    constants::types(&mut to);
    types::slips(&mut to);
    bodies::slips(&mut to);
    limits::depths(&mut to);
    resolving::resolving(&mut to);
    limits::sizes(&mut to);
    limits::slices(&mut to);
    limits::limits(&mut to);
    cuts::cuts(&mut to);
    types::names(&mut to);
    types::generics(&mut to);
    bodies::bodies(&mut to);
    bodies::encodings(&mut to);
    bodies::limit_arguments(&mut to);
    bodies::tombstones(&mut to);
    faults::edges(&mut to);
    children::children(&mut to);
    faults::follow_rule(&mut to);
    faults::names_again(&mut to);
    faults::blocks(&mut to);
    faults::late(&mut to);
    to.all
}
