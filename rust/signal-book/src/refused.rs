//! Why and where a book is turned back.

use std::error::Error;
use std::fmt;

/// The ten causes by which a book is turned back; as a number each is the one in `docs/FORMAT.md`.
#[derive(Clone, Copy, PartialEq, Eq, Hash, Debug)]
#[repr(u8)]
pub enum Cause {
    /// The length is 0, above 32,768, or no multiple of 512.
    BookLength = 1,
    /// The check of a block is wrong: the bytes are not those that were written.
    Check = 2,
    /// Another rule of a block is broken: its number, its count of records, or bytes that must be zero.
    Block = 3,
    /// A record of an unknown kind, or with a sub or a field outside its values.
    Shape = 4,
    /// A child that does not stand before its record, is of another group, or is used before.
    Child = 5,
    /// A record that may not stand where it does.
    Follow = 6,
    /// A name that is declared again.
    Name = 7,
    /// A tree that is deeper than 64 records.
    Depth = 8,
    /// A type that takes more than 64 steps to resolve.
    TooDeep = 9,
    /// One record more than a lent slice holds, or than 2,048 results or 256 diagnostics.
    Full = 10,
}

impl Cause {
    /// All ten, by number.
    pub const ALL: [Cause; 10] = [
        Cause::BookLength,
        Cause::Check,
        Cause::Block,
        Cause::Shape,
        Cause::Child,
        Cause::Follow,
        Cause::Name,
        Cause::Depth,
        Cause::TooDeep,
        Cause::Full,
    ];

    /// Its number, 1 to 10.
    pub fn number(self) -> u8 {
        self as u8
    }

    /// The cause of a number.
    pub fn from_number(number: u64) -> Option<Cause> {
        Cause::ALL.into_iter().find(|cause| u64::from(cause.number()) == number)
    }

    /// It in plain words.
    pub fn words(self) -> &'static str {
        match self {
            Cause::BookLength => "the length is 0, above 32768 bytes, or no multiple of 512",
            Cause::Check => "the check of the block is wrong, so its bytes are not those that were written",
            Cause::Block => {
                "the block has a wrong number, count of records or wildcard byte, or bytes that must be zero and are not"
            }
            Cause::Shape => "the record has an unknown kind, or a sub or a field outside its values",
            Cause::Child => "a child of the record does not stand before it, is of another group, or is used before",
            Cause::Follow => "the record may not stand behind the one before it, or in this declaration",
            Cause::Name => "the name is declared already",
            Cause::Depth => "the tree is deeper than 64 records",
            Cause::TooDeep => "a type takes more than 64 steps to resolve",
            Cause::Full => "there is no room for one more result or diagnostic",
        }
    }
}

/// What the place of a refusal is.
#[derive(Clone, Copy, PartialEq, Eq, Hash, Debug)]
pub enum Place {
    /// The book as a whole.
    Book,
    /// A block, counted from 0.
    Block(u16),
    /// A record, counted from 0 over all blocks; at causes 9 and 10 the declaration or item that was being lowered.
    Record(u16),
}

impl fmt::Display for Place {
    fn fmt(&self, f: &mut fmt::Formatter) -> fmt::Result {
        match self {
            Place::Book => f.write_str("the book"),
            Place::Block(number) => write!(f, "block {number}"),
            Place::Record(number) => write!(f, "record {number}"),
        }
    }
}

/// A book that is turned back. At causes 1 to 8 both lent slices are as they were; at 9 and 10 they are zero as far as they
/// would have been used.
///
/// ```
/// let refused = signal_book::lower(&[0; 100], &mut [], &mut []).unwrap_err();
/// assert_eq!((refused.number(), refused.place()), (1, 0));
/// assert_eq!(
///     refused.to_string(),
///     "refused by cause 1: the length is 0, above 32768 bytes, or no multiple of 512"
/// );
/// ```
#[derive(Clone, Copy, PartialEq, Eq, Hash, Debug)]
pub struct Refused {
    cause: Cause,
    place: u16,
}

impl Refused {
    pub(crate) fn new(cause: Cause, place: u16) -> Refused {
        Refused { cause, place }
    }

    /// Why.
    pub fn cause(self) -> Cause {
        self.cause
    }

    /// The number of the cause, 1 to 10.
    pub fn number(self) -> u8 {
        self.cause.number()
    }

    /// The number of the block or record, or 0.
    pub fn place(self) -> u16 {
        self.place
    }

    /// Where, with what the place is.
    pub fn at(self) -> Place {
        match self.cause {
            Cause::BookLength => Place::Book,
            Cause::Check | Cause::Block => Place::Block(self.place),
            _ => Place::Record(self.place),
        }
    }
}

impl fmt::Display for Refused {
    fn fmt(&self, f: &mut fmt::Formatter) -> fmt::Result {
        write!(f, "refused by cause {}", self.number())?;
        match self.at() {
            Place::Book => {}
            place => write!(f, " at {place}")?,
        }
        write!(f, ": {}", self.cause.words())
    }
}

impl Error for Refused {}
