//! What an accepted book was lowered to: views of the result records where they lie.

use crate::record::{debug_as_display, Name, Record, Span, Text, NONE, RECORD};
use crate::words::{CmpOp, Encoding, PrimitiveType, SemanticType};
use crate::write::Numbers;
use std::fmt;
use std::mem::replace;
use std::ops::RangeInclusive;

/// How many results there are at most.
pub const MOST_RESULTS: usize = 2048;

/// The kinds of each group of children.
const TYPES: RangeInclusive<u8> = 1..=9;
const CONSTRAINTS: RangeInclusive<u8> = 13..=15;
const OPERANDS: RangeInclusive<u8> = 16..=16;

/// A type's number in a book: messages, unions and newtypes from 0 in book order, then generic aliases, then types that the
/// book does not declare, as they were met.
#[derive(Clone, Copy, PartialEq, Eq, PartialOrd, Ord, Hash)]
pub struct TypeId(pub(crate) u32);

/// The number of a type that could not be resolved. A diagnostic says why.
pub const POISON_TYPE_ID: TypeId = TypeId(u32::MAX);

impl TypeId {
    /// Its number.
    pub fn index(self) -> u32 {
        self.0
    }
}

impl fmt::Display for TypeId {
    fn fmt(&self, f: &mut fmt::Formatter) -> fmt::Result {
        match *self {
            POISON_TYPE_ID => f.write_str("poison"),
            TypeId(number) => write!(f, "type {number}"),
        }
    }
}

/// The result records of an accepted book, in a lent slice or in a copy of it.
///
/// ```
/// use signal_book::{lower, FieldConstraint, Results, RESULTS_LIMIT};
///
/// # let path = concat!(env!("CARGO_MANIFEST_DIR"), "/../../books/wind.book");
/// let book = std::fs::read(path)?;
/// let mut slice = vec![0; RESULTS_LIMIT];
/// let kept = lower(&book, &mut slice, &mut [])?.results().bytes().to_vec();
///
/// // Seasons later.
/// let results = Results::new(&kept).unwrap();
/// let wind = results.messages().next().unwrap();
/// let direction = wind.fields().nth(1).unwrap();
/// assert_eq!(format!("{direction:?}"), "Field { name: N22, ordinal: 1, ty: u16, \
///     constraint: Some(0 <= value < N25), encoding: default, span: 280+19 }");
/// let exclusive = matches!(
///     direction.constraint().unwrap().constraint(),
///     FieldConstraint::Range { exclusive_high: true, .. }
/// );
/// assert!(exclusive);
/// # Ok::<(), Box<dyn std::error::Error>>(())
/// ```
#[derive(Clone, Copy)]
pub struct Results<'a> {
    bytes: &'a [u8],
}

impl<'a> Results<'a> {
    /// Those that [`lower`](crate::lower) counts: the promise of the library says that they have the form that
    /// [`new`](Results::new) looks for.
    pub(crate) fn written(slice: &'a [u8], count: usize) -> Results<'a> {
        let bytes = &slice[..count * RECORD];
        debug_assert!(Results::new(bytes).is_some());
        Results { bytes }
    }

    /// Results that were kept: the bytes of the records counted, and no others. None, if they are not of the form that
    /// results have.
    pub fn new(bytes: &'a [u8]) -> Option<Results<'a>> {
        let results = Results { bytes };
        let whole = bytes.chunks_exact(RECORD).remainder().is_empty() && results.len() <= MOST_RESULTS;
        let mut used = [false; MOST_RESULTS];
        (whole && (0..results.len()).all(|number| results.has_form(number, &mut used))).then_some(results)
    }

    /// The bytes, to keep them.
    pub fn bytes(self) -> &'a [u8] {
        self.bytes
    }

    /// How many records there are, of every kind.
    pub fn len(self) -> usize {
        self.bytes.len() / RECORD
    }

    /// Whether there is none.
    pub fn is_empty(self) -> bool {
        self.bytes.is_empty()
    }

    /// Record `number`.
    pub fn record(self, number: usize) -> Option<Record<'a>> {
        Record::of_slice(self.bytes, number)
    }

    /// All records, as they are.
    pub fn records(self) -> impl Iterator<Item = Record<'a>> {
        (0..self.len()).filter_map(move |number| self.record(number))
    }

    /// Every declaration, in the order in which they were lowered: aliases, constants, then messages, unions and newtypes.
    pub fn declarations(self) -> impl Iterator<Item = Declaration<'a>> {
        (0..self.len()).filter_map(move |number| Declaration::at(At { results: self, number }))
    }

    /// The plain aliases.
    pub fn aliases(self) -> impl Iterator<Item = Alias<'a>> {
        self.of_kind(40).map(Alias)
    }

    /// The constants that are reached, with a value or not.
    pub fn constants(self) -> impl Iterator<Item = Constant<'a>> {
        self.of_kind(41).map(Constant)
    }

    /// The messages.
    pub fn messages(self) -> impl Iterator<Item = Message<'a>> {
        self.of_kind(42).map(Message)
    }

    /// The unions.
    pub fn unions(self) -> impl Iterator<Item = Union<'a>> {
        self.of_kind(43).map(Union)
    }

    /// The newtypes.
    pub fn newtypes(self) -> impl Iterator<Item = Newtype<'a>> {
        self.of_kind(48).map(Newtype)
    }

    /// The messages, unions and newtypes, in the order of their type numbers, from 0.
    pub fn numbered(self) -> impl Iterator<Item = Declaration<'a>> {
        self.declarations().filter(|it| !matches!(it, Declaration::Alias(_) | Declaration::Constant(_)))
    }

    /// The message, union or newtype that has a type number. Generic aliases and types that the book does not declare have
    /// numbers behind these, and no declaration among the results.
    pub fn declared(self, id: TypeId) -> Option<Declaration<'a>> {
        self.numbered().nth(usize::try_from(id.index()).ok()?)
    }

    fn of_kind(self, kind: u8) -> impl Iterator<Item = At<'a>> {
        let all = (0..self.len()).map(move |number| At { results: self, number });
        all.filter(move |at| at.kind() == kind)
    }

    /// Whether a record has the values that the views count on. Its children are noted as used: no record has two parents, or
    /// a tree could be longer than all records, out of all bounds.
    fn has_form(self, number: usize, used: &mut [bool; MOST_RESULTS]) -> bool {
        let at = At { results: self, number };
        let record = at.record();
        let mut child = |child: u16, kinds| at.has_child(child, kinds) && !replace(&mut used[usize::from(child)], true);
        let encoded = || self.record(number + 1).is_some_and(|next| next.kind() == 46);
        let ordinal = u32::try_from(record.v()).is_ok();
        let (a, b, c) = (record.a(), record.b(), record.c());
        let name = Name::new(a).is_some();
        match (record.kind(), record.sub()) {
            (1, 0..=13) | (3, 0..=5) | (9, 0) => true,
            (2, 0..=1) => u8::try_from(a).is_ok(),
            (4, 0) => ordinal,
            (7, 0..=9) => child(a, TYPES),
            (8, 0..=1) => child(a, TYPES) && child(b, TYPES),
            (13, 0..=1) => child(a, CONSTRAINTS) && child(b, CONSTRAINTS),
            (13, 2) => child(a, CONSTRAINTS),
            (14, 0..=5) => child(a, OPERANDS),
            (15, 0..=1) => child(a, OPERANDS) && child(b, OPERANDS),
            (16, 0 | 1 | 3) | (46, 0..=2) => true,
            (16, 2) => Text::new(a).is_some(),
            (16, 5) | (42 | 43, 0) => name,
            (40 | 48, 0) | (41, 0..=1) => name && child(b, TYPES),
            (44, 0) => name && ordinal,
            (45, 0) => name && child(b, TYPES) && (c == NONE || child(c, CONSTRAINTS)) && ordinal && encoded(),
            (47, 0..=1) => (c == NONE || child(c, TYPES)) && ordinal,
            _ => false,
        }
    }
}

impl fmt::Debug for Results<'_> {
    fn fmt(&self, f: &mut fmt::Formatter) -> fmt::Result {
        f.debug_list().entries(self.declarations()).finish()
    }
}

/// A record of the results.
#[derive(Clone, Copy)]
struct At<'a> {
    results: Results<'a>,
    number: usize,
}

impl<'a> At<'a> {
    fn record(self) -> Record<'a> {
        self.results.record(self.number).expect("a view is of a record that is there")
    }

    fn kind(self) -> u8 {
        self.record().kind()
    }

    fn sub(self) -> u8 {
        self.record().sub()
    }

    fn name(self) -> Name {
        Name(self.record().a())
    }

    fn ordinal(self) -> u32 {
        self.record().v() as u32
    }

    fn child(self, number: u16) -> At<'a> {
        At { results: self.results, number: usize::from(number) }
    }

    fn ty(self, number: u16) -> Type<'a> {
        Type(self.child(number))
    }

    fn has_child(self, child: u16, kinds: RangeInclusive<u8>) -> bool {
        usize::from(child) < self.number && kinds.contains(&self.child(child).kind())
    }

    /// The records behind this one, up to the first that does not belong to the same message or union.
    fn body(self) -> impl Iterator<Item = At<'a>> {
        let behind = (self.number + 1..self.results.len()).map(move |number| At { results: self.results, number });
        behind.take_while(|at| !matches!(at.kind(), 42 | 43 | 48))
    }
}

/// A view over [`At`] with the name and the span that every declaration and most items have.
macro_rules! named_view {
    ($($(#[$about:meta])* $name:ident)*) => {$(
        $(#[$about])*
        #[derive(Clone, Copy)]
        pub struct $name<'a>(At<'a>);

        impl<'a> $name<'a> {
            /// Its name.
            pub fn name(self) -> Name {
                self.0.name()
            }

            /// Where it stands in the text that was parsed.
            pub fn span(self) -> Span {
                self.0.record().span()
            }
        }
    )*};
}

named_view! {
    /// A plain alias, with what it stands for.
    Alias
    /// A constant that is reached.
    Constant
    /// A message.
    Message
    /// A union.
    Union
    /// A newtype.
    Newtype
    /// A variant of a union.
    Variant
    /// A field of a message or of a variant.
    Field
}

/// One declaration of the results.
#[derive(Clone, Copy)]
pub enum Declaration<'a> {
    /// Kind 40.
    Alias(Alias<'a>),
    /// Kind 41.
    Constant(Constant<'a>),
    /// Kind 42.
    Message(Message<'a>),
    /// Kind 43.
    Union(Union<'a>),
    /// Kind 48.
    Newtype(Newtype<'a>),
}

impl<'a> Declaration<'a> {
    fn at(at: At<'a>) -> Option<Declaration<'a>> {
        match at.kind() {
            40 => Some(Declaration::Alias(Alias(at))),
            41 => Some(Declaration::Constant(Constant(at))),
            42 => Some(Declaration::Message(Message(at))),
            43 => Some(Declaration::Union(Union(at))),
            48 => Some(Declaration::Newtype(Newtype(at))),
            _ => None,
        }
    }

    /// Its name.
    pub fn name(self) -> Name {
        match self {
            Declaration::Alias(Alias(at))
            | Declaration::Constant(Constant(at))
            | Declaration::Message(Message(at))
            | Declaration::Union(Union(at))
            | Declaration::Newtype(Newtype(at)) => at.name(),
        }
    }
}

impl<'a> Alias<'a> {
    /// What it stands for.
    pub fn ty(self) -> Type<'a> {
        self.0.ty(self.0.record().b())
    }
}

impl<'a> Constant<'a> {
    /// Its declared type, which sets no bound on the value.
    pub fn ty(self) -> Type<'a> {
        self.0.ty(self.0.record().b())
    }

    /// The value that is stored, if there is one.
    pub fn value(self) -> Option<i64> {
        (self.0.sub() == 1).then_some(self.0.record().v() as i64)
    }
}

impl<'a> Newtype<'a> {
    /// The type it is made of.
    pub fn ty(self) -> Type<'a> {
        self.0.ty(self.0.record().b())
    }
}

impl<'a> Message<'a> {
    /// Its fields and tombstones, in book order.
    pub fn items(self) -> impl Iterator<Item = Item<'a>> {
        self.0.body().filter_map(Item::at)
    }

    /// Its fields.
    pub fn fields(self) -> impl Iterator<Item = Field<'a>> {
        self.items().filter_map(Item::field)
    }

    /// What was removed from it.
    pub fn tombstones(self) -> impl Iterator<Item = Tombstone<'a>> {
        self.items().filter_map(Item::tombstone)
    }
}

impl<'a> Union<'a> {
    /// Its variants and its own tombstones, in book order.
    pub fn items(self) -> impl Iterator<Item = UnionItem<'a>> {
        self.0.body().filter_map(UnionItem::at)
    }

    /// Its variants.
    pub fn variants(self) -> impl Iterator<Item = Variant<'a>> {
        self.0.body().filter(|at| at.kind() == 44).map(Variant)
    }

    /// What was removed from the union itself; a variant has its own.
    pub fn tombstones(self) -> impl Iterator<Item = Tombstone<'a>> {
        self.0.body().filter(of_union).map(Tombstone)
    }
}

/// What stands in a union.
#[derive(Clone, Copy)]
pub enum UnionItem<'a> {
    /// Kind 44.
    Variant(Variant<'a>),
    /// Kind 47, of the union itself.
    Tombstone(Tombstone<'a>),
}

impl<'a> UnionItem<'a> {
    fn at(at: At<'a>) -> Option<UnionItem<'a>> {
        match at.kind() {
            44 => Some(UnionItem::Variant(Variant(at))),
            _ => of_union(&at).then_some(UnionItem::Tombstone(Tombstone(at))),
        }
    }
}

/// Whether a record is a tombstone of the union itself.
fn of_union(at: &At) -> bool {
    (at.kind(), at.sub()) == (47, 1)
}

impl<'a> Variant<'a> {
    /// Its ordinal.
    pub fn ordinal(self) -> u32 {
        self.0.ordinal()
    }

    /// Its fields and tombstones, in book order.
    pub fn items(self) -> impl Iterator<Item = Item<'a>> {
        self.0.body().take_while(|at| at.kind() != 44 && !of_union(at)).filter_map(Item::at)
    }

    /// Its fields.
    pub fn fields(self) -> impl Iterator<Item = Field<'a>> {
        self.items().filter_map(Item::field)
    }

    /// What was removed from it.
    pub fn tombstones(self) -> impl Iterator<Item = Tombstone<'a>> {
        self.items().filter_map(Item::tombstone)
    }
}

/// What stands in a message or in a variant.
#[derive(Clone, Copy)]
pub enum Item<'a> {
    /// Kind 45.
    Field(Field<'a>),
    /// Kind 47.
    Tombstone(Tombstone<'a>),
}

impl<'a> Item<'a> {
    fn at(at: At<'a>) -> Option<Item<'a>> {
        match at.kind() {
            45 => Some(Item::Field(Field(at))),
            47 => Some(Item::Tombstone(Tombstone(at))),
            _ => None,
        }
    }

    fn field(self) -> Option<Field<'a>> {
        match self {
            Item::Field(field) => Some(field),
            Item::Tombstone(_) => None,
        }
    }

    fn tombstone(self) -> Option<Tombstone<'a>> {
        match self {
            Item::Field(_) => None,
            Item::Tombstone(tombstone) => Some(tombstone),
        }
    }
}

impl<'a> Field<'a> {
    /// Its ordinal.
    pub fn ordinal(self) -> u32 {
        self.0.ordinal()
    }

    /// Its type.
    pub fn ty(self) -> Type<'a> {
        self.0.ty(self.0.record().b())
    }

    /// What limits its values, if anything.
    pub fn constraint(self) -> Option<Constraint<'a>> {
        let number = self.0.record().c();
        (number != NONE).then(|| Constraint(self.0.child(number)))
    }

    /// How it is encoded.
    pub fn encoding(self) -> FieldEncoding {
        let at = At { results: self.0.results, number: self.0.number + 1 };
        let record = at.record();
        FieldEncoding {
            encoding: Encoding::from_sub(record.sub()).expect("a 46 has sub 0 to 2"),
            delta: record.a() == 1,
            limit: (record.b() == 1).then_some(record.v()),
        }
    }
}

/// How a field is encoded.
#[derive(Clone, Copy, PartialEq, Eq, Hash)]
pub struct FieldEncoding {
    /// The encoding of each value; below a delta, that of each difference.
    pub encoding: Encoding,
    /// Whether differences are encoded in place of values.
    pub delta: bool,
    /// The most elements, if a limit is given.
    pub limit: Option<u64>,
}

impl FieldEncoding {
    /// Values as they are, without a limit.
    pub const DEFAULT: FieldEncoding = FieldEncoding { encoding: Encoding::Default, delta: false, limit: None };
}

impl fmt::Display for FieldEncoding {
    fn fmt(&self, f: &mut fmt::Formatter) -> fmt::Result {
        match (self.delta, self.encoding) {
            (false, encoding) => write!(f, "{encoding}")?,
            (true, Encoding::Default) => f.write_str("delta")?,
            (true, encoding) => write!(f, "delta over {encoding}")?,
        }
        match self.limit {
            Some(limit) => write!(f, ", limit {limit}"),
            None => Ok(()),
        }
    }
}

/// Something that was removed, whose ordinal must not be used again.
#[derive(Clone, Copy)]
pub struct Tombstone<'a>(At<'a>);

impl<'a> Tombstone<'a> {
    /// The ordinal that was its.
    pub fn ordinal(self) -> u32 {
        self.0.ordinal()
    }

    /// Why it was removed; none stands for "(no reason)".
    pub fn reason(self) -> Option<Text> {
        Text::new(self.0.record().a())
    }

    /// Since when it is removed.
    pub fn since(self) -> Option<Text> {
        Text::new(self.0.record().b())
    }

    /// The type that it had, if that is said.
    pub fn ty(self) -> Option<Type<'a>> {
        let number = self.0.record().c();
        (number != NONE).then(|| self.0.ty(number))
    }

    /// Where it stands in the text that was parsed.
    pub fn span(self) -> Span {
        self.0.record().span()
    }
}

/// A resolved type; [`resolved`](Type::resolved) opens it.
#[derive(Clone, Copy)]
pub struct Type<'a>(At<'a>);

/// A resolved type, opened by one step.
#[derive(Clone, Copy, Debug)]
#[allow(missing_docs)]
pub enum ResolvedType<'a> {
    Primitive(PrimitiveType),
    SubByte {
        signed: bool,
        bits: u8,
    },
    Semantic(SemanticType),
    Named(TypeId),
    Optional(Type<'a>),
    Array(Type<'a>),
    /// An array whose size is known.
    FixedArray(Type<'a>, u64),
    Set(Type<'a>),
    /// Key and value.
    Map(Type<'a>, Type<'a>),
    /// What it is if all went well, and if not.
    Result(Type<'a>, Type<'a>),
    Vec2(Type<'a>),
    Vec3(Type<'a>),
    Vec4(Type<'a>),
    Quat(Type<'a>),
    Mat3(Type<'a>),
    Mat4(Type<'a>),
    /// Inline bits, with the number of their list.
    BitsInline(u16),
}

impl<'a> Type<'a> {
    /// What the type is.
    pub fn resolved(self) -> ResolvedType<'a> {
        let record = self.0.record();
        let (a, sub) = (record.a(), record.sub());
        match record.kind() {
            1 => ResolvedType::Primitive(PrimitiveType::from_sub(sub).expect("a 1 has sub 0 to 13")),
            2 => ResolvedType::SubByte { signed: sub == 1, bits: a as u8 },
            3 => ResolvedType::Semantic(SemanticType::from_sub(sub).expect("a 3 has sub 0 to 5")),
            4 => ResolvedType::Named(TypeId(record.v() as u32)),
            7 => self.of_one(self.0.ty(a)),
            8 if sub == 0 => ResolvedType::Map(self.0.ty(a), self.0.ty(record.b())),
            8 => ResolvedType::Result(self.0.ty(a), self.0.ty(record.b())),
            _ => ResolvedType::BitsInline(a),
        }
    }

    /// A type that is made of one other, kind 7.
    fn of_one(self, inner: Type<'a>) -> ResolvedType<'a> {
        match self.0.sub() {
            0 => ResolvedType::Optional(inner),
            1 => ResolvedType::Array(inner),
            2 => ResolvedType::FixedArray(inner, self.0.record().v()),
            3 => ResolvedType::Set(inner),
            4 => ResolvedType::Vec2(inner),
            5 => ResolvedType::Vec3(inner),
            6 => ResolvedType::Vec4(inner),
            7 => ResolvedType::Quat(inner),
            8 => ResolvedType::Mat3(inner),
            _ => ResolvedType::Mat4(inner),
        }
    }
}

/// What limits a field's values; [`constraint`](Constraint::constraint) opens it.
#[derive(Clone, Copy)]
pub struct Constraint<'a>(At<'a>);

/// What limits a field's values, opened by one step.
#[derive(Clone, Copy, Debug)]
#[allow(missing_docs)]
pub enum FieldConstraint<'a> {
    And(Constraint<'a>, Constraint<'a>),
    Or(Constraint<'a>, Constraint<'a>),
    Not(Constraint<'a>),
    Cmp { op: CmpOp, operand: ConstraintOperand },
    Range { low: ConstraintOperand, high: ConstraintOperand, exclusive_high: bool },
    LenCmp { op: CmpOp, operand: ConstraintOperand },
    LenRange { low: ConstraintOperand, high: ConstraintOperand, exclusive_high: bool },
}

/// What a constraint compares with.
#[derive(Clone, Copy, PartialEq, Debug)]
#[allow(missing_docs)]
pub enum ConstraintOperand {
    Int(i64),
    Float(f64),
    String(Text),
    Bool(bool),
    /// A constant, by name. Nothing is looked up: whether there is such a constant is not said.
    ConstRef(Name),
}

impl<'a> Constraint<'a> {
    /// What the constraint is.
    pub fn constraint(self) -> FieldConstraint<'a> {
        let record = self.0.record();
        let child = |number| Constraint(self.0.child(number));
        let operand = |number| operand(self.0.child(number).record());
        let (a, b, sub) = (record.a(), record.b(), record.sub());
        let op = || CmpOp::from_sub(sub).expect("a 14 has sub 0 to 5");
        match (record.kind(), record.c()) {
            (13, _) if sub == 0 => FieldConstraint::And(child(a), child(b)),
            (13, _) if sub == 1 => FieldConstraint::Or(child(a), child(b)),
            (13, _) => FieldConstraint::Not(child(a)),
            (14, 0) => FieldConstraint::Cmp { op: op(), operand: operand(a) },
            (14, _) => FieldConstraint::LenCmp { op: op(), operand: operand(a) },
            (_, 0) => FieldConstraint::Range { low: operand(a), high: operand(b), exclusive_high: sub == 1 },
            (_, _) => FieldConstraint::LenRange { low: operand(a), high: operand(b), exclusive_high: sub == 1 },
        }
    }
}

fn operand(record: Record) -> ConstraintOperand {
    match record.sub() {
        0 => ConstraintOperand::Int(record.v() as i64),
        1 => ConstraintOperand::Float(f64::from_bits(record.v())),
        2 => ConstraintOperand::String(Text(record.a())),
        3 => ConstraintOperand::Bool(record.v() == 1),
        _ => ConstraintOperand::ConstRef(Name(record.a())),
    }
}

/// A debugging page of a view, by its name and its parts.
macro_rules! debug_by_parts {
    ($($name:ident { $($part:ident),* })*) => {$(
        impl fmt::Debug for $name<'_> {
            fn fmt(&self, f: &mut fmt::Formatter) -> fmt::Result {
                f.debug_struct(stringify!($name))$(.field(stringify!($part), &debug_by_parts!(self, $part)))*.finish()
            }
        }
    )*};
    ($view:ident, items) => { List($view.items().collect()) };
    ($view:ident, $part:ident) => { $view.$part() };
}

debug_by_parts! {
    Alias { name, ty, span }
    Constant { name, ty, value, span }
    Message { name, items, span }
    Union { name, items, span }
    Newtype { name, ty, span }
    Variant { name, ordinal, items, span }
    Field { name, ordinal, ty, constraint, encoding, span }
    Tombstone { ordinal, reason, since, ty, span }
}

/// A list that is printed as one.
struct List<T>(Vec<T>);

impl<T: fmt::Debug> fmt::Debug for List<T> {
    fn fmt(&self, f: &mut fmt::Formatter) -> fmt::Result {
        f.debug_list().entries(&self.0).finish()
    }
}

impl fmt::Debug for Declaration<'_> {
    fn fmt(&self, f: &mut fmt::Formatter) -> fmt::Result {
        match self {
            Declaration::Alias(alias) => alias.fmt(f),
            Declaration::Constant(constant) => constant.fmt(f),
            Declaration::Message(message) => message.fmt(f),
            Declaration::Union(union) => union.fmt(f),
            Declaration::Newtype(newtype) => newtype.fmt(f),
        }
    }
}

impl fmt::Debug for Item<'_> {
    fn fmt(&self, f: &mut fmt::Formatter) -> fmt::Result {
        match self {
            Item::Field(field) => field.fmt(f),
            Item::Tombstone(tombstone) => tombstone.fmt(f),
        }
    }
}

impl fmt::Debug for UnionItem<'_> {
    fn fmt(&self, f: &mut fmt::Formatter) -> fmt::Result {
        match self {
            UnionItem::Variant(variant) => variant.fmt(f),
            UnionItem::Tombstone(tombstone) => tombstone.fmt(f),
        }
    }
}

impl fmt::Display for Type<'_> {
    fn fmt(&self, f: &mut fmt::Formatter) -> fmt::Result {
        self.in_words(&Numbers).fmt(f)
    }
}

impl fmt::Display for Constraint<'_> {
    fn fmt(&self, f: &mut fmt::Formatter) -> fmt::Result {
        self.in_words(&Numbers).fmt(f)
    }
}

debug_as_display!(TypeId, FieldEncoding, Type<'_>, Constraint<'_>);
