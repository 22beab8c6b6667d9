//! The fields of every kind and sub.

use crate::layout::Record;

/// Groups of children.
#[derive(Clone, Copy, PartialEq, Eq, Debug)]
pub enum Group {
    Type,
    Constant,
    Constraint,
    Operand,
}

/// What stands in `a`, `b` or `c`.
#[derive(Clone, Copy, PartialEq, Eq, Debug)]
pub enum Field {
    Unused,
    Name,
    NameOrNone,
    Text,
    TextOrNone,
    /// 0 to 255.
    Bits,
    /// Any 16 bits.
    Any,
    /// 0 or 1.
    Flag,
    Child(Group),
    ChildOrNone(Group),
}

/// What stands in `v`.
#[derive(Clone, Copy, PartialEq, Eq, Debug)]
pub enum Value {
    Unused,
    Any,
    Bool,
    Ordinal,
}

/// The fields of a record.
#[derive(Clone, Copy, PartialEq, Eq, Debug)]
pub struct Shape {
    /// `a`, `b`, `c`.
    pub fields: [Field; 3],
    pub v: Value,
}

/// Every kind with the number of its subs.
pub const KINDS: [(u8, u8); 29] = [
    (1, 14),
    (2, 2),
    (3, 6),
    (4, 1),
    (5, 1),
    (6, 1),
    (7, 10),
    (8, 2),
    (9, 1),
    (10, 5),
    (11, 1),
    (12, 10),
    (13, 3),
    (14, 6),
    (15, 2),
    (16, 6),
    (20, 1),
    (21, 1),
    (22, 1),
    (23, 1),
    (24, 1),
    (25, 1),
    (30, 1),
    (31, 1),
    (32, 2),
    (33, 1),
    (34, 5),
    (35, 3),
    (36, 3),
];

/// Every kind with every sub.
pub fn pairs() -> impl Iterator<Item = (u8, u8)> {
    KINDS.iter().flat_map(|&(kind, subs)| (0..subs).map(move |sub| (kind, sub)))
}

/// The group a record belongs to as a child.
pub fn group(kind: u8) -> Option<Group> {
    match kind {
        1..=9 => Some(Group::Type),
        10..=12 => Some(Group::Constant),
        13..=15 => Some(Group::Constraint),
        16 => Some(Group::Operand),
        _ => None,
    }
}

/// The fields of that kind and sub; none for an unknown one.
pub fn shape(kind: u8, sub: u8) -> Option<Shape> {
    use Field::*;
    use Group::*;
    let (fields, v) = match (kind, sub) {
        (1, 0..=13) | (3, 0..=5) | (34, 0..=4) => ([Unused; 3], Value::Unused),
        (2, 0..=1) => ([Bits, Unused, Unused], Value::Unused),
        (4 | 11 | 20 | 21 | 25 | 30, 0) => ([Name, Unused, Unused], Value::Unused),
        (5, 0) => ([Name, Name, Unused], Value::Unused),
        (6 | 22 | 23, 0) => ([Name, Child(Type), Unused], Value::Unused),
        (7, 2) => ([Child(Type), Unused, Unused], Value::Any),
        (7, 0..=9) => ([Child(Type), Unused, Unused], Value::Unused),
        (8, 0..=1) => ([Child(Type), Child(Type), Unused], Value::Unused),
        (9, 0) => ([Any, Unused, Unused], Value::Unused),
        (10, 0..=3) => ([Unused; 3], Value::Any),
        (10, 4) => ([Unused; 3], Value::Bool),
        (12, 0..=9) => ([Child(Constant), Child(Constant), Unused], Value::Unused),
        (13, 0..=1) => ([Child(Constraint), Child(Constraint), Unused], Value::Unused),
        (13, 2) => ([Child(Constraint), Unused, Unused], Value::Unused),
        (14, 0..=5) => ([Child(Operand), Unused, Flag], Value::Unused),
        (15, 0..=1) => ([Child(Operand), Child(Operand), Flag], Value::Unused),
        (16, 0 | 1 | 4) => ([Unused; 3], Value::Any),
        (16, 2) => ([Text, Unused, Unused], Value::Unused),
        (16, 3) => ([Unused; 3], Value::Bool),
        (16, 5) => ([Name, Unused, Unused], Value::Unused),
        (24, 0) => ([Name, Child(Type), Child(Constant)], Value::Unused),
        (31, 0) => ([Name, Child(Type), ChildOrNone(Constraint)], Value::Ordinal),
        (32, 0..=1) => ([Unused, Unused, ChildOrNone(Type)], Value::Ordinal),
        (33, 0) => ([Name, Unused, Unused], Value::Ordinal),
        (35, 0..=1) => ([NameOrNone, Unused, Unused], Value::Any),
        (35, 2) => ([NameOrNone, Unused, Unused], Value::Unused),
        (36, 0..=2) => ([TextOrNone, Unused, Unused], Value::Unused),
        _ => return None,
    };
    Some(Shape { fields, v })
}

/// The field with that index: `a`, `b`, `c`.
pub fn field(record: &mut Record, index: usize) -> &mut u16 {
    match index {
        0 => &mut record.a,
        1 => &mut record.b,
        _ => &mut record.c,
    }
}
