//! One book with two lent lengths: the proved library's answer is held to the model's, and that to the rows, to what is
//! known by construction, to the laws of lent slices and, where the book is accepted, to the Rust.

use crate::{agree, library, results, rows};
use books::{Book, Record};
use model::{Reply, Trace};
use std::panic::{catch_unwind, AssertUnwindSafe};
use vexil::facts::Lowered;

/// The used limits, in records.
pub const MOST_RESULTS: usize = 2_048;
pub const MOST_DIAGNOSTICS: usize = 256;

/// A lent slice of results before a run: a pattern, so that a byte that is left alone shows.
pub fn lent_results(len: usize) -> Vec<u8> {
    (0..len).map(|i| (5 * i + 17) as u8).collect()
}

/// The same for diagnostics.
pub fn lent_diagnostics(len: usize) -> Vec<u8> {
    (0..len).map(|i| (3 * i + 29) as u8).collect()
}

/// A run of the model, and of the proved library where it is linked.
pub struct Run {
    pub reply: Reply,
    pub trace: Trace,
    pub results: Vec<u8>,
    pub diagnostics: Vec<u8>,
}

pub fn run(book: &[u8], results: usize, diagnostics: usize) -> Result<Run, String> {
    let mut r = lent_results(results);
    let mut d = lent_diagnostics(diagnostics);
    let answer = catch_unwind(AssertUnwindSafe(|| model::lower_book(book, &mut r, &mut d)));
    let (reply, trace) = answer.map_err(|_| "the model panics".to_string())?;
    library::lowered(book, Run { reply, trace, results: r, diagnostics: d })
}

/// The run with slices of the full limits.
pub fn full(book: &[u8]) -> Result<Run, String> {
    run(book, 24 * MOST_RESULTS, 24 * MOST_DIAGNOSTICS)
}

/// How a book came out.
pub struct Outcome {
    pub reply: Reply,
    /// The run with full slices, for a book that is not refused by 1 to 8.
    pub full: Option<Run>,
    /// What the Rust makes of a book that is accepted with full slices, with its constants one at a time.
    pub rust: Option<Lowered>,
    /// Whether it was compared with the Rust's own order of constants too.
    pub compared: bool,
}

pub fn judge(book: &[u8], results: usize, diagnostics: usize, expected: Option<(u8, u32)>) -> Result<Outcome, String> {
    let lent = run(book, results, diagnostics)?;
    let reply = lent.reply;
    if let Some((number, place)) = expected {
        same("by construction", reply, Reply::Refused { number, place })?;
    }
    if let Some((number, place)) = rows::first(book) {
        same("by the rows", reply, Reply::Refused { number, place })?;
        left(&lent, 0, 0)?;
        return Ok(Outcome { reply, full: None, rust: None, compared: false });
    }
    if let Reply::Refused { number: 1..=8, .. } = reply {
        return Err(format!("{reply:?}, but no row holds"));
    }
    counted(book, &lent)?;
    let full = full(book)?;
    counted(book, &full)?;
    let rust = in_order(book, &full)?;
    slices(book, &lent, &full, rust.as_ref())?;
    let compared = rust.is_some() && agree::compared(book[3] == 1, &full.trace);
    if compared {
        together(book, &full)?;
    }
    Ok(Outcome { reply, full: Some(full), rust, compared })
}

/// The book with slices for every number of records up to all that it writes, one slice full and the other cut. What a
/// cut slice has behind its last whole record goes through 0 to 23 bytes.
pub fn cuts(book: &[u8], outcome: &Outcome) -> Result<(), String> {
    let Some(full @ Run { reply: Reply::Accepted { results, diagnostics, .. }, .. }) = &outcome.full else {
        return Ok(());
    };
    let short = |records: u32| (24 * records + records % 24) as usize;
    let results = (0..=*results).map(|n| (short(n), 24 * MOST_DIAGNOSTICS));
    let diagnostics = (0..=*diagnostics).map(|n| (24 * MOST_RESULTS, short(n)));
    for (r, d) in results.chain(diagnostics) {
        let lent = run(book, r, d)?;
        counted(book, &lent)?;
        slices(book, &lent, full, outcome.rust.as_ref())?;
    }
    Ok(())
}

fn same(what: &str, ours: Reply, expected: Reply) -> Result<(), String> {
    if ours == expected {
        return Ok(());
    }
    Err(format!("{what}: {expected:?}, but the model says {ours:?}"))
}

/// The three counts, or 9 or 10 with its place, as they are counted apart from the model.
fn counted(book: &[u8], run: &Run) -> Result<(), String> {
    let book = Book::read(book).ok_or("a book that is not read back")?;
    let reply = match books::counted(book.wildcards, &book.records, (run.results.len(), run.diagnostics.len())) {
        Ok((results, diagnostics, constants)) => {
            let [results, diagnostics, constants] = [results, diagnostics, constants].map(|n| n as u32);
            Reply::Accepted { results, diagnostics, constants }
        }
        Err((number, place)) => Reply::Refused { number, place },
    };
    same("by counting", run.reply, reply)
}

/// What the Rust makes of an accepted book with its constants one at a time in the format's order; everything agrees.
fn in_order(bytes: &[u8], full: &Run) -> Result<Option<Lowered>, String> {
    let Reply::Accepted { results, diagnostics, constants } = full.reply else {
        return Ok(None);
    };
    let book = Book::read(bytes).ok_or("a book that is not read back")?;
    let order: Vec<u16> = agree::order(&book).iter().map(|r| r.a).collect();
    let rust = unless_it_panics(|| vexil::lower_book_in_order(bytes, &order))?;
    if constants as usize != rust.constants.len() {
        return Err(format!("{constants} stored constants, in the Rust {}", rust.constants.len()));
    }
    let written = results::records(&full.results, results);
    let told = results::records(&full.diagnostics, diagnostics);
    agree::agree_in_order(&book, &written, &told, &full.trace, &rust)?;
    Ok(Some(rust))
}

/// The same with all constants handed over together; agrees up to the order.
fn together(bytes: &[u8], full: &Run) -> Result<(), String> {
    let Reply::Accepted { results, diagnostics, .. } = full.reply else {
        return Ok(());
    };
    let book = Book::read(bytes).ok_or("a book that is not read back")?;
    let rust = unless_it_panics(|| vexil::lower_book(bytes))?;
    let written = results::records(&full.results, results);
    let told = results::records(&full.diagnostics, diagnostics);
    agree::agree(&book, &written, &told, &full.trace, rust)
}

fn unless_it_panics(lower: impl FnOnce() -> Lowered) -> Result<Lowered, String> {
    catch_unwind(AssertUnwindSafe(lower)).map_err(|_| "the harness panics".to_string())
}

/// Both slices behind `r` and `d` bytes are as lent.
fn left(lent: &Run, r: usize, d: usize) -> Result<(), String> {
    let results = lent.results[r..] == lent_results(lent.results.len())[r..];
    let diagnostics = lent.diagnostics[d..] == lent_diagnostics(lent.diagnostics.len())[d..];
    if results && diagnostics {
        return Ok(());
    }
    Err(format!("bytes behind {r} of results or {d} of diagnostics have changed"))
}

/// How many records may be written: "or as many whole records as a shorter slice holds".
fn room(slice: &[u8], most: usize) -> usize {
    most.min(slice.len() / 24)
}

/// The run with the lent slices beside the run with full ones.
fn slices(book: &[u8], lent: &Run, full: &Run, rust: Option<&Lowered>) -> Result<(), String> {
    let (r, d) = (room(&lent.results, MOST_RESULTS), room(&lent.diagnostics, MOST_DIAGNOSTICS));
    match (lent.reply, full.reply) {
        (Reply::Accepted { results, diagnostics, .. }, _) => {
            same("with full slices", lent.reply, full.reply)?;
            let (results, diagnostics) = (24 * results as usize, 24 * diagnostics as usize);
            if results > 24 * r || diagnostics > 24 * d {
                return Err("more records than the slices hold".to_string());
            }
            let written = lent.results[..results] == full.results[..results];
            if !written || lent.diagnostics[..diagnostics] != full.diagnostics[..diagnostics] {
                return Err("other records than with full slices".to_string());
            }
            left(lent, results, diagnostics)
        }
        (Reply::Refused { number, place }, reply) => {
            if !lent.results[..24 * r].iter().chain(&lent.diagnostics[..24 * d]).all(|b| *b == 0) {
                return Err(format!("refused by {number}, and a slice is not zero up to its limit"));
            }
            left(lent, 24 * r, 24 * d)?;
            short(book, (number, place), (r, d), full, reply, rust)
        }
    }
}

/// A refusal by 9 or 10 with limits `r` and `d`, beside the run with full slices.
fn short(
    book: &[u8],
    (number, place): (u8, u32),
    (r, d): (usize, usize),
    full: &Run,
    reply: Reply,
    rust: Option<&Lowered>,
) -> Result<(), String> {
    let refused = Reply::Refused { number, place };
    let whole = r == MOST_RESULTS && d == MOST_DIAGNOSTICS;
    match reply {
        Reply::Refused { .. } if whole || number == 9 => same("with full slices", refused, reply),
        Reply::Refused { .. } => Ok(()),
        Reply::Accepted { results, diagnostics, .. } => {
            if number != 10 || (results as usize <= r && diagnostics as usize <= d) {
                return Err(format!("{refused:?}, but with full slices {reply:?}"));
            }
            let written = results::records(&full.results, results);
            let records = Book::read(book).ok_or("a book that is not read back")?.records;
            let result = written.get(r).map(|_| owner(&written, r, &records));
            let diagnostic = (d < diagnostics as usize).then(|| teller(&records, d, full, rust));
            match (result, diagnostic) {
                (Some(None), _) | (_, Some(None)) => Ok(()),
                _ => ten(&records, place, result.flatten(), diagnostic.flatten()),
            }
        }
    }
}

/// 10 stands at the item whose result found no room, or in the declaration whose diagnostic did, whichever is met
/// first.
fn ten(records: &[Record], place: u32, result: Option<u32>, diagnostic: Option<u32>) -> Result<(), String> {
    let here = declaration(records, place);
    let by_result = result == Some(place);
    let by_diagnostic = diagnostic == Some(here);
    let first = match (result, diagnostic) {
        (Some(r), Some(at)) => turn(records, declaration(records, r)).cmp(&turn(records, at)),
        _ => std::cmp::Ordering::Equal,
    };
    let fits = match first {
        std::cmp::Ordering::Less => by_result,
        std::cmp::Ordering::Greater => by_diagnostic,
        std::cmp::Ordering::Equal => by_result || by_diagnostic,
    };
    if fits {
        return Ok(());
    }
    Err(format!("10 at {place}, but the result without room is of {result:?}, the diagnostic of {diagnostic:?}"))
}

/// The declaration that a record stands under.
fn declaration(records: &[Record], place: u32) -> u32 {
    let kinds = records.iter().take(place as usize + 1);
    kinds.into_iter().rposition(|r| (20..30).contains(&r.kind)).unwrap_or(0) as u32
}

/// When a declaration has its turn: plain aliases, constants in their order, bodies.
fn turn(records: &[Record], at: u32) -> (u8, u32) {
    match records[at as usize].kind {
        23 => (0, at),
        24 => (1, constants_of(records).iter().position(|c| *c == at).unwrap_or(0) as u32),
        _ => (2, at),
    }
}

/// The record numbers of the reached constants, in the format's order.
fn constants_of(records: &[Record]) -> Vec<u32> {
    let book = Book { wildcards: false, records: records.to_vec() };
    let place = |c: &Record| records.iter().position(|r| r.kind == 24 && r.a == c.a).map(|i| i as u32);
    agree::order(&book).iter().filter_map(place).collect()
}

/// The record of the book that result n belongs to, by its span; none if another record of that kind has the same one.
fn owner(written: &[Record], n: usize, records: &[Record]) -> Option<u32> {
    let m = match written[n].kind {
        46 => n - 1,
        _ => (n..written.len()).find(|m| matches!(written[*m].kind, 40..=45 | 47 | 48))?,
    };
    let kind = [23, 24, 20, 21, 33, 31, 0, 32, 22][written[m].kind as usize - 40];
    let span = (written[m].offset, written[m].len);
    let of = |r: &Record| r.kind == kind && (r.offset, r.len) == span;
    let mut found = records.iter().enumerate().filter(|(_, r)| of(r)).map(|(i, _)| i as u32);
    let first = found.next();
    match found.next() {
        None => first,
        Some(_) => None,
    }
}

/// The declaration that gives diagnostic d, as the Rust tells it.
fn teller(records: &[Record], d: usize, full: &Run, rust: Option<&Lowered>) -> Option<u32> {
    let rust = rust?;
    let places = |kinds: &[u8]| {
        let chosen = (0..records.len()).filter(|i| kinds.contains(&records[*i].kind) && !is_generic(records, *i));
        chosen.map(|i| i as u32).collect::<Vec<u32>>()
    };
    let [_, _, aliases, constants, all] = full.trace.diagnostics.map(|n| n as usize);
    let (mut left, counts, places) = match d {
        d if d < aliases => (d, &rust.told[0], places(&[23])),
        d if d < constants => (d - aliases, &rust.told[1], constants_of(records)),
        d if d < all => (d - constants, &rust.told[2], places(&[20, 21, 22])),
        _ => return None,
    };
    for (count, place) in counts.iter().zip(places) {
        if left < *count {
            return Some(place);
        }
        left -= count;
    }
    None
}

/// Whether a record is an alias with a type parameter.
fn is_generic(records: &[Record], at: usize) -> bool {
    records[at].kind == 23 && records[at + 1..].iter().find(|r| r.kind >= 20).is_some_and(|r| r.kind == 30)
}
