//! Which kinds and subs there are and the values of each of their fields: the lists Types,
//! Constants, Constraints, Operands, Declarations and Items of "Book". Cause 4 is told from here,
//! and which fields are children.

use crate::record::{Record, NONE};

/// The group that a child belongs to.
#[derive(Clone, Copy, Debug, PartialEq, Eq)]
pub enum Group {
    Type,
    Constant,
    Constraint,
    Operand,
}

impl Group {
    /// The group of a kind; kinds 20 up are nobody's children.
    pub fn of(kind: u8) -> Option<Group> {
        match kind {
            1..=9 => Some(Group::Type),
            10..=12 => Some(Group::Constant),
            13..=15 => Some(Group::Constraint),
            16 => Some(Group::Operand),
            _ => None,
        }
    }
}

/// The values of one of a, b, c.
#[derive(Clone, Copy)]
pub enum Field {
    /// "Unused fields are zero."
    Unused,
    /// "1 for length, else 0".
    Flag,
    /// "bits 0-255".
    Bits,
    /// "Names are 0 to 4,095".
    Name,
    /// "key name or none".
    NameOrNone,
    /// "strings 0 to 65,534".
    Text,
    /// "string, or none".
    TextOrNone,
    /// "any list number".
    Any,
    /// A child. Every number is in the range of the field: one that no earlier record has is cause 5 (a decision).
    Child(Group),
    /// "constraint or none", "type or none".
    ChildOrNone(Group),
}

impl Field {
    fn holds(self, value: u16) -> bool {
        match self {
            Field::Unused => value == 0,
            Field::Flag => value <= 1,
            Field::Bits => value <= 255,
            Field::Name => value <= 4_095,
            Field::NameOrNone => value <= 4_095 || value == NONE,
            Field::Text => value <= 65_534,
            Field::TextOrNone | Field::Any | Field::Child(_) | Field::ChildOrNone(_) => true,
        }
    }

    fn child(self, value: u16) -> Option<(u16, Group)> {
        match self {
            Field::Child(group) => Some((value, group)),
            Field::ChildOrNone(group) if value != NONE => Some((value, group)),
            _ => None,
        }
    }
}

/// The values of v.
#[derive(Clone, Copy)]
pub enum Wide {
    Unused,
    /// "Bool 0 or 1".
    Flag,
    /// "Ordinals are below 2^32."
    Ordinal,
    Any,
}

impl Wide {
    fn holds(self, value: u64) -> bool {
        match self {
            Wide::Unused => value == 0,
            Wide::Flag => value <= 1,
            Wide::Ordinal => value < 1 << 32,
            Wide::Any => true,
        }
    }
}

/// The fields of a kind and sub. "Spans are free."
#[derive(Clone, Copy)]
pub struct Shape {
    a: Field,
    b: Field,
    c: Field,
    v: Wide,
}

impl Shape {
    /// Every field inside its values.
    pub fn holds(&self, record: &Record) -> bool {
        self.a.holds(record.a) && self.b.holds(record.b) && self.c.holds(record.c) && self.v.holds(record.v)
    }

    /// The children a record names, with the group each has to be of.
    pub fn children(&self, record: &Record) -> impl Iterator<Item = (u16, Group)> {
        [self.a.child(record.a), self.b.child(record.b), self.c.child(record.c)].into_iter().flatten()
    }
}

/// The children of a record; none for a kind or sub that is not listed.
pub fn children(record: &Record) -> impl Iterator<Item = (u16, Group)> + '_ {
    shape(record.kind, record.sub).into_iter().flat_map(|shape| shape.children(record))
}

/// The fields of a kind and sub, where the kind is known and the sub inside its values. A sub
/// that is not zero, of a kind without listed subs, is outside (a decision).
pub fn shape(kind: u8, sub: u8) -> Option<Shape> {
    use Field::{Any, Bits, Child, ChildOrNone, Flag, Name, NameOrNone, Text, TextOrNone, Unused};
    use Group::{Constant, Constraint, Operand, Type};
    let (a, b, c, v) = match (kind, sub) {
        // Types.
        (1, 0..=13) => (Unused, Unused, Unused, Wide::Unused),
        (2, 0..=1) => (Bits, Unused, Unused, Wide::Unused),
        (3, 0..=5) => (Unused, Unused, Unused, Wide::Unused),
        (4, 0) => (Name, Unused, Unused, Wide::Unused),
        (5, 0) => (Name, Name, Unused, Wide::Unused),
        (6, 0) => (Name, Child(Type), Unused, Wide::Unused),
        // "2 FixedArray with size v". Reading: no range is given for the size, so it is any 64 bits.
        (7, 2) => (Child(Type), Unused, Unused, Wide::Any),
        (7, 0..=9) => (Child(Type), Unused, Unused, Wide::Unused),
        (8, 0..=1) => (Child(Type), Child(Type), Unused, Wide::Unused),
        (9, 0) => (Any, Unused, Unused, Wide::Unused),
        // Constants: "v bits, Bool 0 or 1".
        (10, 4) => (Unused, Unused, Unused, Wide::Flag),
        (10, 0..=3) => (Unused, Unused, Unused, Wide::Any),
        (11, 0) => (Name, Unused, Unused, Wide::Unused),
        (12, 0..=9) => (Child(Constant), Child(Constant), Unused, Wide::Unused),
        // Constraints: "a, and b except Not".
        (13, 2) => (Child(Constraint), Unused, Unused, Wide::Unused),
        (13, 0..=1) => (Child(Constraint), Child(Constraint), Unused, Wide::Unused),
        (14, 0..=5) => (Child(Operand), Unused, Flag, Wide::Unused),
        (15, 0..=1) => (Child(Operand), Child(Operand), Flag, Wide::Unused),
        // Operands: "a string or name, else v; Bool 0 or 1". Value has any v (a decision).
        (16, 0 | 1 | 4) => (Unused, Unused, Unused, Wide::Any),
        (16, 2) => (Text, Unused, Unused, Wide::Unused),
        (16, 3) => (Unused, Unused, Unused, Wide::Flag),
        (16, 5) => (Name, Unused, Unused, Wide::Unused),
        // Declarations.
        (20 | 21 | 25, 0) => (Name, Unused, Unused, Wide::Unused),
        (22 | 23, 0) => (Name, Child(Type), Unused, Wide::Unused),
        (24, 0) => (Name, Child(Type), Child(Constant), Wide::Unused),
        // Items.
        (30, 0) => (Name, Unused, Unused, Wide::Unused),
        (31, 0) => (Name, Child(Type), ChildOrNone(Constraint), Wide::Ordinal),
        (32, 0..=1) => (Unused, Unused, ChildOrNone(Type), Wide::Ordinal),
        (33, 0) => (Name, Unused, Unused, Wide::Ordinal),
        (34, 0..=4) => (Unused, Unused, Unused, Wide::Unused),
        (35, 0..=1) => (NameOrNone, Unused, Unused, Wide::Any),
        (35, 2) => (NameOrNone, Unused, Unused, Wide::Unused),
        (36, 0..=2) => (TextOrNone, Unused, Unused, Wide::Unused),
        _ => return None,
    };
    Some(Shape { a, b, c, v })
}
