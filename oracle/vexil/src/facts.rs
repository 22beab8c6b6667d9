//! What a lowering says of a book, as plain data: names, strings and inline bits are the book's numbers again.

/// Offset and length.
pub type Span = (u32, u32);

/// A resolved type. Subs and sizes are those of the book's records.
#[derive(Clone, Debug, PartialEq, Eq, PartialOrd, Ord)]
pub enum Type {
    Primitive(u8),
    SubByte { signed: bool, bits: u8 },
    Semantic(u8),
    Named(u32),
    One { sub: u8, size: u64, child: Box<Type> },
    Two { sub: u8, left: Box<Type>, right: Box<Type> },
    Bits(u16),
}

#[derive(Clone, Debug, PartialEq, Eq)]
pub enum Operand {
    Int(i64),
    /// The 64 bits.
    Float(u64),
    String(u16),
    Bool(bool),
    Reference(u16),
}

#[derive(Clone, Debug, PartialEq, Eq)]
pub enum Constraint {
    And(Box<Constraint>, Box<Constraint>),
    Or(Box<Constraint>, Box<Constraint>),
    Not(Box<Constraint>),
    Comparison { op: u8, length: bool, operand: Operand },
    Range { exclusive: bool, length: bool, low: Operand, high: Operand },
}

/// Base: 0 default, 1 varint, 2 zigzag.
#[derive(Clone, Debug, PartialEq, Eq)]
pub struct Encoding {
    pub base: u8,
    pub delta: bool,
    pub limit: Option<u64>,
}

#[derive(Clone, Debug, PartialEq, Eq)]
pub struct Field {
    pub name: u16,
    pub span: Span,
    pub ordinal: u32,
    pub resolved: Type,
    pub encoding: Encoding,
    pub constraint: Option<Constraint>,
}

/// No reason stands for "(no reason)".
#[derive(Clone, Debug, PartialEq, Eq)]
pub struct Tombstone {
    pub span: Span,
    pub ordinal: u32,
    pub reason: Option<u16>,
    pub since: Option<u16>,
    pub original: Option<Type>,
}

#[derive(Clone, Debug, PartialEq, Eq)]
pub struct Variant {
    pub name: u16,
    pub span: Span,
    pub ordinal: u32,
    pub fields: Vec<Field>,
    pub tombstones: Vec<Tombstone>,
}

#[derive(Clone, Debug, PartialEq, Eq)]
pub enum Body {
    Message { name: u16, span: Span, fields: Vec<Field>, tombstones: Vec<Tombstone> },
    Union { name: u16, span: Span, variants: Vec<Variant>, tombstones: Vec<Tombstone> },
    Newtype { name: u16, span: Span, inner: Type },
}

/// A stored constant.
#[derive(Clone, Debug, PartialEq, Eq, PartialOrd, Ord)]
pub struct Constant {
    pub name: u16,
    pub value: i64,
    pub resolved: Type,
    pub span: Span,
}

/// Class: 0 `UnresolvedType`, 1 `AliasTargetNotFound`, 2 `ConstRefNotFound`. Message 2 has a second name.
#[derive(Clone, Debug, PartialEq, Eq, PartialOrd, Ord)]
pub struct Diagnostic {
    pub message: u8,
    pub class: u8,
    pub name: u16,
    pub second: u16,
    pub span: Span,
}

/// The text of a stub's name.
#[derive(Clone, Debug, PartialEq, Eq)]
pub enum Stub {
    Bare(u16),
    Pair(u16, u16),
}

/// All that a lowering gives.
#[derive(Clone, Debug, Default, PartialEq, Eq)]
pub struct Lowered {
    /// The numbers of 20 to 22, in book order.
    pub declared: Vec<u32>,
    /// Name and number of each generic alias, in book order.
    pub generics: Vec<(u16, u32)>,
    /// Name and number of each stub, by number.
    pub stubs: Vec<(Stub, u32)>,
    /// Name and result of each plain alias, in book order.
    pub aliases: Vec<(u16, Type)>,
    /// By name.
    pub constants: Vec<Constant>,
    /// Each reached constant without a value, by name, with its type; empty where constants are handed over together.
    pub unstored: Vec<(u16, Type)>,
    /// In book order.
    pub bodies: Vec<Body>,
    /// Of the plain aliases, the constants and the bodies, each in the order given.
    pub diagnostics: [Vec<Diagnostic>; 3],
    /// How many diagnostics each plain alias and each body gave, in book order, and between them each constant, where
    /// these are handed over one at a time.
    pub told: [Vec<usize>; 3],
    /// The length of the registry after the declarations, the generic aliases, the plain aliases, the constants and the
    /// bodies.
    pub lengths: [u32; 5],
}
