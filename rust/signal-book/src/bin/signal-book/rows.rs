//! The words of the text form: for each kind and sub, what the record is called and what its fields hold.

use signal_book::{Annotation, BinOpKind, Fields, PrimitiveType, SemanticType};

/// The groups of records that can be children.
#[derive(Clone, Copy, PartialEq, Eq, Debug)]
pub enum Group {
    Type,
    Constant,
    Constraint,
    Operand,
}

/// A field by its letter.
#[derive(Clone, Copy, PartialEq, Eq, Debug)]
pub enum Letter {
    A,
    B,
    C,
    V,
}

pub const LETTERS: [Letter; 4] = [Letter::A, Letter::B, Letter::C, Letter::V];

impl Letter {
    pub fn word(self) -> &'static str {
        match self {
            Letter::A => "a",
            Letter::B => "b",
            Letter::C => "c",
            Letter::V => "v",
        }
    }

    pub fn of(self, fields: &Fields) -> u64 {
        match self {
            Letter::A => fields.a.into(),
            Letter::B => fields.b.into(),
            Letter::C => fields.c.into(),
            Letter::V => fields.v,
        }
    }

    /// Sets the field; false if it is too short for the value.
    pub fn set(self, fields: &mut Fields, value: u64) -> bool {
        let field = match self {
            Letter::A => &mut fields.a,
            Letter::B => &mut fields.b,
            Letter::C => &mut fields.c,
            Letter::V => {
                fields.v = value;
                return true;
            }
        };
        u16::try_from(value).map(|value| *field = value).is_ok()
    }
}

/// What a field holds.
#[derive(Clone, Copy, PartialEq, Eq, Debug)]
pub enum Holds {
    Name,
    /// A name, or none where nothing is written.
    NameOrNone,
    Text,
    TextOrNone,
    Child(Group),
    ChildOrNone(Group),
    /// A number that is written.
    Number,
    /// A number that is 0 where nothing is written.
    NumberOrZero,
    Signed,
    Hex,
    Float,
    Truth,
}

impl Holds {
    /// What stands in the field where nothing is written; none if something has to be.
    pub fn default(self) -> Option<u64> {
        match self {
            Holds::NameOrNone | Holds::TextOrNone | Holds::ChildOrNone(_) => Some(signal_book::NONE.into()),
            Holds::NumberOrZero => Some(0),
            _ => None,
        }
    }

    pub fn child(self) -> Option<Group> {
        match self {
            Holds::Child(group) | Holds::ChildOrNone(group) => Some(group),
            _ => None,
        }
    }
}

/// A field that a record uses. Where it is bare its value stands without its word, before all that have one.
#[derive(Clone, Copy, Debug)]
pub struct Slot {
    pub letter: Letter,
    pub word: &'static str,
    pub holds: Holds,
    pub bare: bool,
}

/// What the text form says of a kind and sub.
#[derive(Clone, Copy, Debug)]
pub struct Row {
    pub word: &'static str,
    /// The word of the sub, if the kind has several.
    pub sub_word: Option<&'static str>,
    pub slots: &'static [Slot],
}

/// Each kind, with its word and the words of its subs.
const KINDS: &[(u8, &str, &[&str])] = &[
    (1, "primitive", PrimitiveType::WORDS),
    (2, "sub-byte", &["unsigned", "signed"]),
    (3, "semantic", SemanticType::WORDS),
    (4, "named", &[]),
    (5, "qualified", &[]),
    (6, "generic", &[]),
    (7, "one-child", &["optional", "array", "fixed-array", "set", "vec2", "vec3", "vec4", "quat", "mat3", "mat4"]),
    (8, "two-children", &["map", "result"]),
    (9, "inline-bits", &[]),
    (10, "literal", &["int", "uint", "float", "hex", "bool"]),
    (11, "reference", &[]),
    (12, "operation", BinOpKind::WORDS),
    (13, "logic", &["and", "or", "not"]),
    (14, "comparison", &["eq", "ne", "lt", "gt", "le", "ge"]),
    (15, "range", &["with-high", "without-high"]),
    (16, "operand", &["int", "float", "string", "bool", "value", "reference"]),
    (20, "message", &[]),
    (21, "union", &[]),
    (22, "newtype", &[]),
    (23, "alias", &[]),
    (24, "constant", &[]),
    (25, "ambiguous", &[]),
    (30, "parameter", &[]),
    (31, "field", &[]),
    (32, "tombstone", &["of-body", "of-union"]),
    (33, "variant", &[]),
    (34, "annotation", Annotation::WORDS),
    (35, "argument", &["int", "hex", "other"]),
    (36, "tombstone-argument", &["reason", "since", "other"]),
];

macro_rules! bare {
    ($letter:ident $word:literal $holds:expr) => {
        Slot { letter: Letter::$letter, word: $word, holds: $holds, bare: true }
    };
}

macro_rules! keyed {
    ($letter:ident $word:literal $holds:expr) => {
        Slot { letter: Letter::$letter, word: $word, holds: $holds, bare: false }
    };
}

/// The fields that a record of a tree uses, by kind and sub, in the order in which they are written.
fn of_tree(kind: u8, sub: u8) -> &'static [Slot] {
    use Group::{Constant, Constraint, Operand, Type};
    use Holds::*;
    match (kind, sub) {
        (2, _) => &[bare!(A "bits" Number)],
        (4 | 11, _) => &[bare!(A "name" Name)],
        (5, _) => &[bare!(A "namespace" Name), bare!(B "name" Name)],
        (6, _) => &[bare!(A "head" Name), bare!(B "argument" Child(Type))],
        (7, 2) => &[bare!(A "child" Child(Type)), keyed!(V "size" Number)],
        (7, _) => &[bare!(A "child" Child(Type))],
        (8, _) => &[bare!(A "first" Child(Type)), bare!(B "second" Child(Type))],
        (9, _) => &[bare!(A "list" Number)],
        (10, 0) | (16, 0) => &[bare!(V "value" Signed)],
        (10, 2) | (16, 1) => &[bare!(V "value" Float)],
        (10, 3) => &[bare!(V "value" Hex)],
        (10, 4) | (16, 3) => &[bare!(V "value" Truth)],
        (10, _) => &[bare!(V "value" Number)],
        (12, _) => &[bare!(A "left" Child(Constant)), bare!(B "right" Child(Constant))],
        (13, 2) => &[bare!(A "child" Child(Constraint))],
        (13, _) => &[bare!(A "left" Child(Constraint)), bare!(B "right" Child(Constraint))],
        (14, _) => &[bare!(A "operand" Child(Operand)), keyed!(C "length" NumberOrZero)],
        (15, _) => &[bare!(A "low" Child(Operand)), bare!(B "high" Child(Operand)), keyed!(C "length" NumberOrZero)],
        (16, 2) => &[bare!(A "string" Text)],
        (16, 4) => &[keyed!(V "value" NumberOrZero)],
        (16, _) => &[bare!(A "name" Name)],
        _ => &[],
    }
}

/// The fields that a declaration or an item uses.
fn of_declaration(kind: u8, sub: u8) -> &'static [Slot] {
    use Group::{Constant, Constraint, Type};
    use Holds::*;
    match (kind, sub) {
        (20 | 21 | 25 | 30, _) => &[bare!(A "name" Name)],
        (22, _) => &[bare!(A "name" Name), keyed!(B "type" Child(Type))],
        (23, _) => &[bare!(A "name" Name), keyed!(B "target" Child(Type))],
        (24, _) => &[bare!(A "name" Name), keyed!(B "type" Child(Type)), keyed!(C "expression" Child(Constant))],
        (31, _) => &[
            bare!(A "name" Name),
            keyed!(B "type" Child(Type)),
            keyed!(C "constraint" ChildOrNone(Constraint)),
            keyed!(V "ordinal" Number),
        ],
        (32, _) => &[keyed!(C "type" ChildOrNone(Type)), keyed!(V "ordinal" Number)],
        (33, _) => &[bare!(A "name" Name), keyed!(V "ordinal" Number)],
        (35, 0) => &[bare!(V "value" Number), keyed!(A "key" NameOrNone)],
        (35, 1) => &[bare!(V "value" Hex), keyed!(A "key" NameOrNone)],
        (35, _) => &[keyed!(A "key" NameOrNone)],
        (36, _) => &[keyed!(A "string" TextOrNone)],
        _ => &[],
    }
}

/// The row of a kind and sub, if the format has them.
pub fn row(kind: u8, sub: u8) -> Option<Row> {
    let (_, word, subs) = KINDS.iter().find(|(number, ..)| *number == kind)?;
    let sub_word = subs.get(usize::from(sub)).copied();
    let known = if subs.is_empty() { sub == 0 } else { sub_word.is_some() };
    let slots = if kind < 20 { of_tree(kind, sub) } else { of_declaration(kind, sub) };
    known.then_some(Row { word, sub_word, slots })
}

/// The kind of a word, with the words of its subs.
pub fn kind(word: &str) -> Option<(u8, &'static [&'static str])> {
    KINDS.iter().find(|(_, known, _)| *known == word).map(|(kind, _, subs)| (*kind, *subs))
}

/// The sub of a kind that has a word, for the kinds whose records are that word alone.
pub fn leaf(kind: u8, word: &str) -> Option<u8> {
    let (_, _, subs) = KINDS.iter().find(|(number, ..)| *number == kind)?;
    subs.iter().position(|sub| *sub == word).map(|sub| sub as u8)
}
