//! Lowers signal books by a library that is proved, for every book, to answer what its definitions say.
//!
//! A *signal book* is a set of schema declarations as binary records (`docs/FORMAT.md` of the repository). A service's
//! parser hands its declarations to a [`BookBuilder`]; [`lower`] refuses the book by number and place, or writes results
//! and diagnostics into two slices that it is lent; [`Results`] and [`Diagnostics`] are views of these, without a copy.
//!
//! ```
//! use signal_book::{lower, BookBuilder, Name, PrimitiveType, DIAGNOSTICS_LIMIT, RESULTS_LIMIT};
//!
//! // const N1 : u8 = 6;
//! let mut book = BookBuilder::new();
//! let six = book.int(6, (17, 1));
//! let ty = book.primitive(PrimitiveType::U8, (11, 2));
//! book.constant(Name::new(1).unwrap(), ty, six, (0, 19));
//! let book = book.finish()?;
//!
//! let (mut results, mut diagnostics) = (vec![0; RESULTS_LIMIT], vec![0; DIAGNOSTICS_LIMIT]);
//! match lower(&book, &mut results, &mut diagnostics) {
//!     Ok(lowered) => {
//!         for constant in lowered.results().constants() {
//!             println!("{} is {:?}", constant.name(), constant.value());
//!             # assert_eq!(constant.value(), Some(6));
//!         }
//!         for diagnostic in lowered.diagnostics().iter() {
//!             println!("{diagnostic}, at {}", diagnostic.span());
//!         }
//!     }
//!     Err(refused) => println!("{refused}"),
//! }
//! # Ok::<(), Box<dyn std::error::Error>>(())
//! ```
//!
//! The call itself, [`sys::signal_book_lower`], is proved. This crate, which hands the slices over and reads what stands in
//! them, is tested, over every answer of the repository's list and against wrong ones.

#![warn(missing_docs)]

mod builder;
mod diagnostics;
mod record;
mod refused;
mod results;
pub mod sys;
mod words;
mod write;

pub use builder::{
    Argument, BookBuilder, ConstraintPart, ExprPart, Of, Operand, OperandPart, TombstoneKey, TypePart, WrongLength,
};
pub use diagnostics::{Diagnostic, Diagnostics, ErrorClass, Told};
pub use record::{Fields, Name, Record, Span, Text, BLOCK, BLOCKS, NONE, PLACES, RECORD};
pub use refused::{Cause, Place, Refused};
pub use results::{
    Alias, Constant, Constraint, ConstraintOperand, Declaration, Field, FieldConstraint, FieldEncoding, Item, Message,
    Newtype, ResolvedType, Results, Tombstone, Type, TypeId, Union, UnionItem, Variant, POISON_TYPE_ID,
};
pub use words::{Annotation, BinOpKind, CmpOp, Encoding, PrimitiveType, SemanticType};
pub use write::{InWords, Numbers, Words};

/// The longest book, in bytes.
pub const BOOK_LIMIT: usize = BLOCKS * BLOCK;
/// As many bytes of results as any book can fill.
pub const RESULTS_LIMIT: usize = results::MOST_RESULTS * RECORD;
/// As many bytes of diagnostics as any book can fill.
pub const DIAGNOSTICS_LIMIT: usize = diagnostics::MOST_DIAGNOSTICS * RECORD;

/// What an accepted book was lowered to, in the slices that were lent.
#[derive(Clone, Copy, Debug)]
pub struct Accepted<'a> {
    results: Results<'a>,
    diagnostics: Diagnostics<'a>,
    stored: usize,
}

impl<'a> Accepted<'a> {
    /// The results.
    pub fn results(self) -> Results<'a> {
        self.results
    }

    /// The diagnostics.
    pub fn diagnostics(self) -> Diagnostics<'a> {
        self.diagnostics
    }

    /// How many constants are stored.
    pub fn stored(self) -> usize {
        self.stored
    }
}

/// Lowers a book, whatever its bytes are, into two slices of any lengths. Slices of [`RESULTS_LIMIT`] and
/// [`DIAGNOSTICS_LIMIT`] bytes are enough for every book; with shorter ones it may be refused by cause 10.
///
/// It takes some 158,000 bytes of stack and no other memory, keeps nothing, and may be called from several threads at once.
pub fn lower<'a>(book: &[u8], results: &'a mut [u8], diagnostics: &'a mut [u8]) -> Result<Accepted<'a>, Refused> {
    let reply = sys::lower_words(book, results, diagnostics);
    // Every count and place of a reply is below 2,049.
    let [cause, first, second, third] = reply.map(|word| word as usize);
    match Cause::from_number(reply[0]) {
        Some(cause) => Err(Refused::new(cause, first as u16)),
        None => {
            assert_eq!(cause, 0, "the library answers 0, or a cause from 1 to 10");
            Ok(Accepted {
                results: Results::written(results, first),
                diagnostics: Diagnostics::written(diagnostics, second),
                stored: third,
            })
        }
    }
}
