//! What could not be resolved in an accepted book: views of the diagnostic records where they lie.

use crate::record::{Name, Record, Span, RECORD};
use crate::write::Numbers;
use std::fmt;

/// How many diagnostics there are at most.
pub const MOST_DIAGNOSTICS: usize = 256;

/// The diagnostics of an accepted book, in the order in which they were met.
///
/// ```
/// use signal_book::{lower, BookBuilder, Name, Told, DIAGNOSTICS_LIMIT, RESULTS_LIMIT};
///
/// let [cabin, door] = [1, 2].map(|number| Name::new(number).unwrap());
/// let mut book = BookBuilder::new();
/// let ty = book.named(door, (16, 4));
/// book.newtype(cabin, ty, (0, 20));
///
/// let (mut results, mut diagnostics) = (vec![0; RESULTS_LIMIT], vec![0; DIAGNOSTICS_LIMIT]);
/// let lowered = lower(&book.finish()?, &mut results, &mut diagnostics)?;
/// let diagnostic = lowered.diagnostics().iter().next().unwrap();
/// assert_eq!(diagnostic.told(), Told::Unknown(door));
/// assert_eq!(format!("{diagnostic:?}"), "UnresolvedType at 16+4: the type N2 is not known");
/// # Ok::<(), Box<dyn std::error::Error>>(())
/// ```
#[derive(Clone, Copy)]
pub struct Diagnostics<'a> {
    bytes: &'a [u8],
}

impl<'a> Diagnostics<'a> {
    /// Those that [`lower`](crate::lower) counts: the promise of the library says that they have the form that
    /// [`new`](Diagnostics::new) looks for.
    pub(crate) fn written(slice: &'a [u8], count: usize) -> Diagnostics<'a> {
        let bytes = &slice[..count * RECORD];
        debug_assert!(Diagnostics::new(bytes).is_some());
        Diagnostics { bytes }
    }

    /// Diagnostics that were kept: the bytes of the records counted, and no others. None, if they are not of the form that
    /// diagnostics have.
    pub fn new(bytes: &'a [u8]) -> Option<Diagnostics<'a>> {
        let diagnostics = Diagnostics { bytes };
        let whole = bytes.chunks_exact(RECORD).remainder().is_empty() && diagnostics.len() <= MOST_DIAGNOSTICS;
        let names = |record: Record| [record.a(), record.b()].into_iter().all(|name| Name::new(name).is_some());
        let form = |record: Record| record.kind() == 50 && record.sub() <= 5 && names(record) && record.v() <= 2;
        (whole && diagnostics.records().all(form)).then_some(diagnostics)
    }

    /// The bytes, to keep them.
    pub fn bytes(self) -> &'a [u8] {
        self.bytes
    }

    /// How many there are.
    pub fn len(self) -> usize {
        self.bytes.len() / RECORD
    }

    /// Whether there is none.
    pub fn is_empty(self) -> bool {
        self.bytes.is_empty()
    }

    /// All records, as they are.
    pub fn records(self) -> impl Iterator<Item = Record<'a>> {
        (0..self.len()).filter_map(move |number| Record::of_slice(self.bytes, number))
    }

    /// Each diagnostic.
    pub fn iter(self) -> impl Iterator<Item = Diagnostic<'a>> {
        self.records().map(Diagnostic)
    }
}

impl fmt::Debug for Diagnostics<'_> {
    fn fmt(&self, f: &mut fmt::Formatter) -> fmt::Result {
        f.debug_list().entries(self.iter()).finish()
    }
}

/// A diagnostic.
#[derive(Clone, Copy)]
pub struct Diagnostic<'a>(Record<'a>);

/// What a diagnostic tells: the six messages.
#[derive(Clone, Copy, PartialEq, Eq, Hash, Debug)]
pub enum Told {
    /// Message 0: a bare name is ambiguous between wildcard imports.
    Ambiguous(Name),
    /// Message 1: a bare name, or inside the target of a generic alias a head, is unknown.
    Unknown(Name),
    /// Message 2: a qualified name is unknown.
    #[allow(missing_docs)]
    UnknownPair { namespace: Name, name: Name },
    /// Message 3: a head is no generic alias.
    NotGeneric(Name),
    /// Message 4: the head of a generic is unknown.
    UnknownHead(Name),
    /// Message 5: a constant is reached and has no value.
    NoValue(Name),
}

/// The class of a diagnostic, by the name of the original.
#[derive(Clone, Copy, PartialEq, Eq, Hash, Debug)]
#[allow(missing_docs)]
pub enum ErrorClass {
    UnresolvedType,
    AliasTargetNotFound,
    ConstRefNotFound,
}

impl<'a> Diagnostic<'a> {
    /// What it tells.
    pub fn told(self) -> Told {
        let name = Name(self.0.a());
        match self.0.sub() {
            0 => Told::Ambiguous(name),
            1 => Told::Unknown(name),
            2 => Told::UnknownPair { namespace: name, name: Name(self.0.b()) },
            3 => Told::NotGeneric(name),
            4 => Told::UnknownHead(name),
            _ => Told::NoValue(name),
        }
    }

    /// The number of the message, 0 to 5.
    pub fn message(self) -> u8 {
        self.0.sub()
    }

    /// Its class.
    pub fn class(self) -> ErrorClass {
        match self.0.v() {
            0 => ErrorClass::UnresolvedType,
            1 => ErrorClass::AliasTargetNotFound,
            _ => ErrorClass::ConstRefNotFound,
        }
    }

    /// Where what it tells of stands in the text that was parsed.
    pub fn span(self) -> Span {
        self.0.span()
    }
}

impl fmt::Display for Diagnostic<'_> {
    fn fmt(&self, f: &mut fmt::Formatter) -> fmt::Result {
        self.in_words(&Numbers).fmt(f)
    }
}

impl fmt::Debug for Diagnostic<'_> {
    fn fmt(&self, f: &mut fmt::Formatter) -> fmt::Result {
        write!(f, "{:?} at {}: {self}", self.class(), self.span())
    }
}
