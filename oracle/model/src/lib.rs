//! A reference model of reading and lowering a signal book, written from the format and the
//! decisions on its open points, and from nothing else.
//!
//! Words in quotation marks are rules of the format in brief (docs/FORMAT.md has them in full). A
//! comment that starts with "Reading:" marks a place where the format is silent or can be read in
//! two ways.

mod bodies;
mod constants;
mod fields;
mod follow;
mod lowering;
mod outline;
mod read;
mod record;
mod slices;
#[cfg(test)]
mod tests;
mod types;

use lowering::Lowering;

/// What a lowering answers: the three counts, or the number and the place of the first cause met.
#[derive(Clone, Copy, Debug, PartialEq, Eq)]
pub enum Reply {
    Accepted { results: u32, diagnostics: u32, constants: u32 },
    Refused { number: u8, place: u32 },
}

impl Reply {
    /// The four words in which Rust and C get a reply: 0 and the three counts, or the number, the place and two zeros.
    pub fn words(self) -> [u64; 4] {
        match self {
            Reply::Accepted { results, diagnostics, constants } => {
                [0, results.into(), diagnostics.into(), constants.into()]
            }
            Reply::Refused { number, place } => [number.into(), place.into(), 0, 0],
        }
    }
}

/// What the lowering did that the slices do not show; all empty or zero where the book is refused by 1 to 8.
///
/// Reading: where it is refused by 9 or 10, the entries of finished parts stand, those of the
/// part that stopped and of later parts are 0, and the two lists hold what was met until then.
#[derive(Clone, Debug, Default, PartialEq, Eq)]
pub struct Trace {
    /// How many type numbers are given after each part: declarations 20-22, generic aliases, plain aliases, constants,
    /// bodies.
    pub numbers: [u32; 5],
    /// Results and diagnostics written after each of those parts (index 0 and 1 are 0).
    pub results: [u32; 5],
    pub diagnostics: [u32; 5],
    /// While constants' types are resolved: (record number of the 24, name) for each bare name (kind 4) that came as
    /// far as the step "known number" or "fresh stub" and had no number when the part of the constants began.
    pub bare: Vec<(u32, u16)>,
    /// While constants' types are resolved: (record number of the 24, name) for each name asked for as the namespace of
    /// a qualified name (when the pair was not known) or as the head of a generic, that had no number when the part of
    /// the constants began.
    pub asked: Vec<(u32, u16)>,
}

/// A cause of "When a book is turned back": its number and the returned place.
#[derive(Clone, Copy, Debug, PartialEq, Eq)]
struct Refusal {
    number: u8,
    place: u32,
}

impl From<Refusal> for Reply {
    fn from(refusal: Refusal) -> Reply {
        Reply::Refused { number: refusal.number, place: refusal.place }
    }
}

/// For every book and every two slices: the reply, with both slices left as the format says.
pub fn lower_book(book: &[u8], results: &mut [u8], diagnostics: &mut [u8]) -> (Reply, Trace) {
    // Causes 1 to 8: "Left as it was: all".
    let book = match read::read(book) {
        Ok(book) => book,
        Err(refusal) => return (refusal.into(), Trace::default()),
    };
    let result_limit = slices::used_limit(results, slices::RESULT_LIMIT);
    let diagnostic_limit = slices::used_limit(diagnostics, slices::DIAGNOSTIC_LIMIT);
    let mut lowering = Lowering::new(&book, result_limit, diagnostic_limit);
    let reply = match lowering.run() {
        Ok(stored) => {
            // "Acceptance returns the counts of results, diagnostics and stored constants, and
            // leaves bytes past the last record unchanged."
            slices::write(results, lowering.results());
            slices::write(diagnostics, lowering.diagnostics());
            Reply::Accepted {
                results: lowering.results().len() as u32,
                diagnostics: lowering.diagnostics().len() as u32,
                constants: stored,
            }
        }
        Err(refusal) => {
            // "On 9 and 10 each slice is zero up to its limit in bytes."
            slices::clear(results, result_limit);
            slices::clear(diagnostics, diagnostic_limit);
            refusal.into()
        }
    };
    (reply, lowering.into_trace())
}
