//! The record of 24 bytes that books, results and diagnostics are made of, and what its fields hold.

use std::fmt;

/// The length of a record in bytes.
pub const RECORD: usize = 24;
/// The length of a block in bytes.
pub const BLOCK: usize = 512;
/// How many records a block has room for.
pub const PLACES: usize = 21;
/// How many blocks a book has at most.
pub const BLOCKS: usize = 64;
/// What stands for "none" in a field of 16 bits.
pub const NONE: u16 = 65_535;

/// A name. The service's parser keeps the words; a book has their numbers, 0 to 4,095. It is written `N17`.
#[derive(Clone, Copy, PartialEq, Eq, PartialOrd, Ord, Hash)]
pub struct Name(pub(crate) u16);

impl Name {
    /// The name of a number, if it is below 4,096.
    pub const fn new(number: u16) -> Option<Name> {
        if number < 4096 {
            Some(Name(number))
        } else {
            None
        }
    }

    /// Its number.
    pub const fn number(self) -> u16 {
        self.0
    }
}

impl fmt::Display for Name {
    fn fmt(&self, f: &mut fmt::Formatter) -> fmt::Result {
        write!(f, "N{}", self.0)
    }
}

/// A string, as its number, 0 to 65,534. It is written `S5`.
#[derive(Clone, Copy, PartialEq, Eq, PartialOrd, Ord, Hash)]
pub struct Text(pub(crate) u16);

impl Text {
    /// The string of a number, if it is not 65,535.
    pub const fn new(number: u16) -> Option<Text> {
        if number < NONE {
            Some(Text(number))
        } else {
            None
        }
    }

    /// Its number.
    pub const fn number(self) -> u16 {
        self.0
    }
}

impl fmt::Display for Text {
    fn fmt(&self, f: &mut fmt::Formatter) -> fmt::Result {
        write!(f, "S{}", self.0)
    }
}

/// Where something stands in the text that was parsed: an offset and a length. Lowering carries spans and never looks at
/// them. A span is written `100+1`.
#[derive(Clone, Copy, PartialEq, Eq, Hash, Default)]
pub struct Span {
    /// Where it begins.
    pub offset: u32,
    /// How long it is.
    pub length: u32,
}

impl Span {
    /// The span 0+0.
    pub const NONE: Span = Span { offset: 0, length: 0 };
}

impl From<(u32, u32)> for Span {
    fn from((offset, length): (u32, u32)) -> Span {
        Span { offset, length }
    }
}

impl fmt::Display for Span {
    fn fmt(&self, f: &mut fmt::Formatter) -> fmt::Result {
        write!(f, "{}+{}", self.offset, self.length)
    }
}

/// For these the word is what a person wants to see.
macro_rules! debug_as_display {
    ($($name:ty),*) => {$(
        impl fmt::Debug for $name {
            fn fmt(&self, f: &mut fmt::Formatter) -> fmt::Result {
                fmt::Display::fmt(self, f)
            }
        }
    )*};
}
pub(crate) use debug_as_display;

debug_as_display!(Name, Text, Span);

/// The fields of a record, by value.
#[derive(Clone, Copy, PartialEq, Eq, Debug, Default)]
pub struct Fields {
    /// What the record is.
    pub kind: u8,
    /// Which of its kind.
    pub sub: u8,
    /// The field *a* of `docs/FORMAT.md`; so *b*, *c* and *v*.
    pub a: u16,
    #[allow(missing_docs)]
    pub b: u16,
    #[allow(missing_docs)]
    pub c: u16,
    #[allow(missing_docs)]
    pub v: u64,
    /// Where it stands in the text that was parsed.
    pub span: Span,
}

impl Fields {
    /// The record as it is written.
    pub fn bytes(&self) -> [u8; RECORD] {
        let mut bytes = [0; RECORD];
        bytes[0] = self.kind;
        bytes[1] = self.sub;
        bytes[2..4].copy_from_slice(&self.a.to_le_bytes());
        bytes[4..6].copy_from_slice(&self.b.to_le_bytes());
        bytes[6..8].copy_from_slice(&self.c.to_le_bytes());
        bytes[8..16].copy_from_slice(&self.v.to_le_bytes());
        bytes[16..20].copy_from_slice(&self.span.offset.to_le_bytes());
        bytes[20..24].copy_from_slice(&self.span.length.to_le_bytes());
        bytes
    }
}

/// A record where it lies, in a book or in a lent slice. Nothing is copied before it is asked for.
#[derive(Clone, Copy, PartialEq, Eq)]
pub struct Record<'a>(&'a [u8; RECORD]);

impl<'a> Record<'a> {
    /// Record `number` of a slice of records, one right behind the other.
    pub(crate) fn of_slice(slice: &'a [u8], number: usize) -> Option<Record<'a>> {
        let start = number.checked_mul(RECORD)?;
        slice.get(start..)?.get(..RECORD)?.try_into().ok().map(Record)
    }

    /// The 24 bytes at a record number of a book, if the book is so long; which bytes of a book are records only its blocks
    /// can tell, and whether they are right only [`lower`](crate::lower).
    pub fn of_book(book: &'a [u8], number: usize) -> Option<Record<'a>> {
        let start = number / PLACES * BLOCK + 4 + number % PLACES * RECORD;
        book.get(start..)?.get(..RECORD)?.try_into().ok().map(Record)
    }

    fn bytes<const N: usize>(self, from: usize) -> [u8; N] {
        std::array::from_fn(|i| self.0[from + i])
    }

    /// What the record is.
    pub fn kind(self) -> u8 {
        self.0[0]
    }

    /// Which of its kind.
    pub fn sub(self) -> u8 {
        self.0[1]
    }

    /// The field *a*.
    pub fn a(self) -> u16 {
        u16::from_le_bytes(self.bytes(2))
    }

    /// The field *b*.
    pub fn b(self) -> u16 {
        u16::from_le_bytes(self.bytes(4))
    }

    /// The field *c*.
    pub fn c(self) -> u16 {
        u16::from_le_bytes(self.bytes(6))
    }

    /// The field *v*.
    pub fn v(self) -> u64 {
        u64::from_le_bytes(self.bytes(8))
    }

    /// Where it stands in the text that was parsed.
    pub fn span(self) -> Span {
        Span { offset: u32::from_le_bytes(self.bytes(16)), length: u32::from_le_bytes(self.bytes(20)) }
    }

    /// All fields, by value.
    pub fn fields(self) -> Fields {
        Fields {
            kind: self.kind(),
            sub: self.sub(),
            a: self.a(),
            b: self.b(),
            c: self.c(),
            v: self.v(),
            span: self.span(),
        }
    }
}

impl fmt::Debug for Record<'_> {
    fn fmt(&self, f: &mut fmt::Formatter) -> fmt::Result {
        write!(f, "kind {} sub {}", self.kind(), self.sub())?;
        write!(f, " a {} b {} c {} v {} span {}", self.a(), self.b(), self.c(), self.v(), self.span())
    }
}
