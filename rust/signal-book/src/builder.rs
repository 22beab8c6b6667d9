//! Writing books.

use crate::record::{Fields, Name, Span, Text, BLOCK, BLOCKS, NONE, PLACES, RECORD};
use crate::words::{Annotation, BinOpKind, CmpOp, PrimitiveType, SemanticType};
use std::error::Error;
use std::fmt;

/// Parts of a tree: each is handed out by the builder when its record is written, and taken by the record that has it as a
/// child. So a child stands before its parent, is of the right group and is used once.
macro_rules! parts {
    ($($(#[$about:meta])* $name:ident)*) => {$(
        $(#[$about])*
        #[derive(Debug)]
        #[must_use = "a part that nothing takes stays in the book and means nothing"]
        pub struct $name(u16);
    )*};
}

parts! {
    /// A type that is written.
    TypePart
    /// An expression of a constant that is written.
    ExprPart
    /// A constraint that is written.
    ConstraintPart
    /// An operand of a constraint that is written.
    OperandPart
}

/// An operand of a constraint.
#[derive(Clone, Copy, PartialEq, Debug)]
#[allow(missing_docs)]
pub enum Operand {
    Int(i64),
    Float(f64),
    String(Text),
    Bool(bool),
    /// The value itself. Lowering makes it the integer 0, as the original does.
    Value,
    ConstRef(Name),
}

/// What a constraint looks at.
#[derive(Clone, Copy, PartialEq, Eq, Debug)]
#[allow(missing_docs)]
pub enum Of {
    Value,
    Length,
}

/// The value of an annotation's argument.
#[derive(Clone, Copy, PartialEq, Eq, Debug)]
pub enum Argument {
    /// A decimal number.
    Int(u64),
    /// A hexadecimal number.
    Hex(u64),
    /// Anything else.
    Other,
}

/// The key of a tombstone's argument.
#[derive(Clone, Copy, PartialEq, Eq, Debug)]
#[allow(missing_docs)]
pub enum TombstoneKey {
    Reason,
    Since,
    Other,
}

/// Writes the records of a book, its blocks and their checks, so that a parser can hand its declarations over.
///
/// What a book must not have at causes 1 to 5 cannot be written here, but by [`record`](BookBuilder::record) and by mixing
/// the parts of two builders. Where records stand, names that are declared again and deep trees, causes 6 to 8, are left to
/// [`lower`](crate::lower), which says where.
///
/// ```
/// use signal_book::{lower, BookBuilder, Name, PrimitiveType, Span, RESULTS_LIMIT};
///
/// let [rope, tension] = [10, 11].map(|number| Name::new(number).unwrap());
/// let mut book = BookBuilder::new();
/// book.message(rope, Span::NONE);
/// let ty = book.primitive(PrimitiveType::U16, (18, 3));
/// book.field(tension, ty, None, 0, (10, 11));
/// let book = book.finish()?;
///
/// let mut results = vec![0; RESULTS_LIMIT];
/// let lowered = lower(&book, &mut results, &mut [])?;
/// let field = lowered.results().messages().next().unwrap().fields().next().unwrap();
/// assert_eq!(field.ty().to_string(), "u16");
/// # Ok::<(), Box<dyn std::error::Error>>(())
/// ```
///
/// A part that is used twice, which cause 5 would refuse, does not compile:
///
/// ```compile_fail,E0382
/// # use signal_book::{BookBuilder, Name, PrimitiveType, Span};
/// # let [door, cabin] = [1, 2].map(|number| Name::new(number).unwrap());
/// # let mut book = BookBuilder::new();
/// let ty = book.primitive(PrimitiveType::U8, Span::NONE);
/// book.newtype(door, ty, Span::NONE);
/// book.newtype(cabin, ty, Span::NONE);
/// ```
#[derive(Clone, Debug, Default)]
pub struct BookBuilder {
    records: Vec<Fields>,
    wildcards: bool,
}

impl BookBuilder {
    /// A book without records.
    pub fn new() -> BookBuilder {
        BookBuilder::default()
    }

    /// Says whether there are wildcard imports, so that an unknown name may come from one. None, if not said.
    pub fn wildcards(&mut self, are_there: bool) {
        self.wildcards = are_there;
    }

    /// How many records are written so far.
    pub fn len(&self) -> usize {
        self.records.len()
    }

    /// Whether none is.
    pub fn is_empty(&self) -> bool {
        self.records.is_empty()
    }

    /// Writes a record as it is, and gives its number. Nothing is judged here.
    pub fn record(&mut self, fields: Fields) -> u16 {
        self.records.push(fields);
        // A book that has so many records that this is no number of one is refused at the end.
        u16::try_from(self.records.len() - 1).unwrap_or(NONE)
    }

    /// The book, if it has a record and at most 1,344.
    pub fn finish(&self) -> Result<Vec<u8>, WrongLength> {
        if self.records.is_empty() || self.records.len() > BLOCKS * PLACES {
            return Err(WrongLength(self.records.len()));
        }
        let blocks = self.records.chunks(PLACES).enumerate();
        Ok(blocks.flat_map(|(number, records)| block(number, records, self.wildcards && number == 0)).collect())
    }

    fn write(&mut self, kind: u8, sub: u8, [a, b, c]: [u16; 3], v: u64, span: impl Into<Span>) -> u16 {
        self.record(Fields { kind, sub, a, b, c, v, span: span.into() })
    }
}

/// The types that are made of one other and nothing else.
macro_rules! of_one {
    ($($(#[$about:meta])* $name:ident $sub:literal)*) => {$(
        $(#[$about])*
        pub fn $name(&mut self, inner: TypePart, span: impl Into<Span>) -> TypePart {
            TypePart(self.write(7, $sub, [inner.0, 0, 0], 0, span))
        }
    )*};
}

/// Types.
impl BookBuilder {
    of_one! {
        /// A value or none.
        optional 0
        /// An array.
        array 1
        /// A set.
        set 3
        /// A vector of two.
        vec2 4
        /// A vector of three.
        vec3 5
        /// A vector of four.
        vec4 6
        /// A quaternion.
        quat 7
        /// A matrix of three by three.
        mat3 8
        /// A matrix of four by four.
        mat4 9
    }

    /// A primitive type.
    pub fn primitive(&mut self, ty: PrimitiveType, span: impl Into<Span>) -> TypePart {
        TypePart(self.write(1, ty.sub(), [0; 3], 0, span))
    }

    /// An integer of so many bits.
    pub fn sub_byte(&mut self, signed: bool, bits: u8, span: impl Into<Span>) -> TypePart {
        TypePart(self.write(2, signed.into(), [bits.into(), 0, 0], 0, span))
    }

    /// A semantic type.
    pub fn semantic(&mut self, ty: SemanticType, span: impl Into<Span>) -> TypePart {
        TypePart(self.write(3, ty.sub(), [0; 3], 0, span))
    }

    /// A type by its name.
    pub fn named(&mut self, name: Name, span: impl Into<Span>) -> TypePart {
        TypePart(self.write(4, 0, [name.0, 0, 0], 0, span))
    }

    /// A type of a namespace.
    pub fn qualified(&mut self, namespace: Name, name: Name, span: impl Into<Span>) -> TypePart {
        TypePart(self.write(5, 0, [namespace.0, name.0, 0], 0, span))
    }

    /// A generic alias with its argument.
    pub fn generic(&mut self, head: Name, argument: TypePart, span: impl Into<Span>) -> TypePart {
        TypePart(self.write(6, 0, [head.0, argument.0, 0], 0, span))
    }

    /// An array of a size that is known.
    pub fn fixed_array(&mut self, inner: TypePart, size: u64, span: impl Into<Span>) -> TypePart {
        TypePart(self.write(7, 2, [inner.0, 0, 0], size, span))
    }

    /// A map.
    pub fn map(&mut self, key: TypePart, value: TypePart, span: impl Into<Span>) -> TypePart {
        TypePart(self.write(8, 0, [key.0, value.0, 0], 0, span))
    }

    /// A result.
    pub fn result(&mut self, ok: TypePart, err: TypePart, span: impl Into<Span>) -> TypePart {
        TypePart(self.write(8, 1, [ok.0, err.0, 0], 0, span))
    }

    /// Inline bits, by the number that the parser gives their list.
    pub fn bits_inline(&mut self, list: u16, span: impl Into<Span>) -> TypePart {
        TypePart(self.write(9, 0, [list, 0, 0], 0, span))
    }
}

/// Expressions of constants.
impl BookBuilder {
    /// An integer.
    pub fn int(&mut self, value: i64, span: impl Into<Span>) -> ExprPart {
        ExprPart(self.write(10, 0, [0; 3], value as u64, span))
    }

    /// An unsigned integer.
    pub fn uint(&mut self, value: u64, span: impl Into<Span>) -> ExprPart {
        ExprPart(self.write(10, 1, [0; 3], value, span))
    }

    /// A number with a fraction.
    pub fn float(&mut self, value: f64, span: impl Into<Span>) -> ExprPart {
        ExprPart(self.write(10, 2, [0; 3], value.to_bits(), span))
    }

    /// A hexadecimal number.
    pub fn hex(&mut self, value: u64, span: impl Into<Span>) -> ExprPart {
        ExprPart(self.write(10, 3, [0; 3], value, span))
    }

    /// A truth value.
    pub fn bool(&mut self, value: bool, span: impl Into<Span>) -> ExprPart {
        ExprPart(self.write(10, 4, [0; 3], value.into(), span))
    }

    /// Another constant.
    pub fn const_ref(&mut self, name: Name, span: impl Into<Span>) -> ExprPart {
        ExprPart(self.write(11, 0, [name.0, 0, 0], 0, span))
    }

    /// Two expressions with an operator between them.
    pub fn bin_op(&mut self, op: BinOpKind, left: ExprPart, right: ExprPart, span: impl Into<Span>) -> ExprPart {
        ExprPart(self.write(12, op.sub(), [left.0, right.0, 0], 0, span))
    }
}

/// Constraints.
impl BookBuilder {
    /// Both hold.
    pub fn and(&mut self, left: ConstraintPart, right: ConstraintPart, span: impl Into<Span>) -> ConstraintPart {
        ConstraintPart(self.write(13, 0, [left.0, right.0, 0], 0, span))
    }

    /// One of them holds.
    pub fn or(&mut self, left: ConstraintPart, right: ConstraintPart, span: impl Into<Span>) -> ConstraintPart {
        ConstraintPart(self.write(13, 1, [left.0, right.0, 0], 0, span))
    }

    /// It does not hold.
    pub fn not(&mut self, inner: ConstraintPart, span: impl Into<Span>) -> ConstraintPart {
        ConstraintPart(self.write(13, 2, [inner.0, 0, 0], 0, span))
    }

    /// The value, or its length, compared with an operand.
    pub fn cmp(&mut self, of: Of, op: CmpOp, operand: OperandPart, span: impl Into<Span>) -> ConstraintPart {
        ConstraintPart(self.write(14, op.sub(), [operand.0, 0, (of == Of::Length).into()], 0, span))
    }

    /// The value, or its length, in a range.
    pub fn range(
        &mut self,
        of: Of,
        low: OperandPart,
        high: OperandPart,
        exclusive_high: bool,
        span: impl Into<Span>,
    ) -> ConstraintPart {
        let fields = [low.0, high.0, (of == Of::Length).into()];
        ConstraintPart(self.write(15, exclusive_high.into(), fields, 0, span))
    }

    /// What a constraint compares with.
    pub fn operand(&mut self, operand: Operand, span: impl Into<Span>) -> OperandPart {
        let (sub, a, v) = match operand {
            Operand::Int(value) => (0, 0, value as u64),
            Operand::Float(value) => (1, 0, value.to_bits()),
            Operand::String(text) => (2, text.0, 0),
            Operand::Bool(value) => (3, 0, value.into()),
            Operand::Value => (4, 0, 0),
            Operand::ConstRef(name) => (5, name.0, 0),
        };
        OperandPart(self.write(16, sub, [a, 0, 0], v, span))
    }
}

/// Declarations, and what stands in them.
impl BookBuilder {
    /// A message; its annotations, fields and tombstones follow.
    pub fn message(&mut self, name: Name, span: impl Into<Span>) {
        self.write(20, 0, [name.0, 0, 0], 0, span);
    }

    /// A union; its variants and tombstones follow.
    pub fn union(&mut self, name: Name, span: impl Into<Span>) {
        self.write(21, 0, [name.0, 0, 0], 0, span);
    }

    /// A newtype.
    pub fn newtype(&mut self, name: Name, ty: TypePart, span: impl Into<Span>) {
        self.write(22, 0, [name.0, ty.0, 0], 0, span);
    }

    /// An alias; if type parameters follow, a generic one.
    pub fn alias(&mut self, name: Name, target: TypePart, span: impl Into<Span>) {
        self.write(23, 0, [name.0, target.0, 0], 0, span);
    }

    /// A constant.
    pub fn constant(&mut self, name: Name, ty: TypePart, value: ExprPart, span: impl Into<Span>) {
        self.write(24, 0, [name.0, ty.0, value.0], 0, span);
    }

    /// A name that stands in more than one wildcard import.
    pub fn ambiguous(&mut self, name: Name, span: impl Into<Span>) {
        self.write(25, 0, [name.0, 0, 0], 0, span);
    }

    /// A type parameter of the alias before it.
    pub fn type_param(&mut self, name: Name, span: impl Into<Span>) {
        self.write(30, 0, [name.0, 0, 0], 0, span);
    }

    /// A field of the message or variant before it; its annotations follow.
    pub fn field(
        &mut self,
        name: Name,
        ty: TypePart,
        constraint: Option<ConstraintPart>,
        ordinal: u32,
        span: impl Into<Span>,
    ) {
        let constraint = constraint.map_or(NONE, |part| part.0);
        self.write(31, 0, [name.0, ty.0, constraint], ordinal.into(), span);
    }

    /// Something removed from the message or variant before it; its arguments follow.
    pub fn tombstone(&mut self, ty: Option<TypePart>, ordinal: u32, span: impl Into<Span>) {
        self.write(32, 0, [0, 0, ty.map_or(NONE, |part| part.0)], ordinal.into(), span);
    }

    /// Something removed from the union before it; its arguments follow.
    pub fn union_tombstone(&mut self, ty: Option<TypePart>, ordinal: u32, span: impl Into<Span>) {
        self.write(32, 1, [0, 0, ty.map_or(NONE, |part| part.0)], ordinal.into(), span);
    }

    /// A variant of the union before it; its fields and tombstones follow.
    pub fn variant(&mut self, name: Name, ordinal: u32, span: impl Into<Span>) {
        self.write(33, 0, [name.0, 0, 0], ordinal.into(), span);
    }

    /// An annotation of the message or field before it; its arguments follow.
    pub fn annotation(&mut self, annotation: Annotation, span: impl Into<Span>) {
        self.write(34, annotation.sub(), [0; 3], 0, span);
    }

    /// An argument of the annotation before it.
    pub fn argument(&mut self, key: Option<Name>, argument: Argument, span: impl Into<Span>) {
        let (sub, v) = match argument {
            Argument::Int(value) => (0, value),
            Argument::Hex(value) => (1, value),
            Argument::Other => (2, 0),
        };
        self.write(35, sub, [key.map_or(NONE, Name::number), 0, 0], v, span);
    }

    /// An argument of the tombstone before it; none for a value that is no string.
    pub fn tombstone_argument(&mut self, key: TombstoneKey, text: Option<Text>, span: impl Into<Span>) {
        self.write(36, key as u8, [text.map_or(NONE, Text::number), 0, 0], 0, span);
    }
}

/// A block: its number, how many records it has, the wildcard byte, the records, and the check.
fn block(number: usize, records: &[Fields], wildcards: bool) -> [u8; BLOCK] {
    let mut block = [0; BLOCK];
    // Both numbers are below 65.
    block[0] = number as u8;
    block[2] = records.len() as u8;
    block[3] = wildcards.into();
    for (record, place) in records.iter().zip(block[4..].chunks_exact_mut(RECORD)) {
        place.copy_from_slice(&record.bytes());
    }
    let check = check(&block);
    block[BLOCK - 2..].copy_from_slice(&check.to_be_bytes());
    block
}

/// The check of a block (RFC 1071), over all its bytes but the last two.
fn check(block: &[u8; BLOCK]) -> u16 {
    let words = block[..BLOCK - 2].chunks_exact(2).map(|word| u32::from(u16::from_be_bytes([word[0], word[1]])));
    let mut sum: u32 = words.sum();
    while sum > 0xFFFF {
        sum = (sum & 0xFFFF) + (sum >> 16);
    }
    !(sum as u16)
}

/// A book that would have no record, or more than 1,344; it has the number of its records.
#[derive(Clone, Copy, PartialEq, Eq, Debug)]
pub struct WrongLength(pub usize);

impl fmt::Display for WrongLength {
    fn fmt(&self, f: &mut fmt::Formatter) -> fmt::Result {
        match self.0 {
            0 => f.write_str("a book has at least one record"),
            count => write!(f, "a book has at most {} records, and this has {count}", BLOCKS * PLACES),
        }
    }
}

impl Error for WrongLength {}
