//! Records in the making.

use books::{Book, Record};
use std::collections::HashMap;

/// Record places of one block.
pub const PLACES: usize = 21;

/// The number that stands for none.
pub const NONE: u16 = 65_535;

/// Primitive types by their numbers.
pub const U8: u8 = 1;
pub const U16: u8 = 2;
pub const U32: u8 = 3;
pub const U64: u8 = 4;
pub const I16: u8 = 6;

/// Operations of constants' expressions.
pub const ADD: u8 = 0;
pub const MUL: u8 = 2;

/// Records in the making; each gets a span of its own.
#[derive(Clone, Default)]
pub struct Draft {
    pub book: Book,
}

impl Draft {
    /// The book, with its names numbered in the order in which they come, as a parser numbers the words that it meets.
    pub fn numbered(self) -> Book {
        self.numbered_from(0)
    }

    /// The same from a number on.
    pub fn numbered_from(mut self, first: u16) -> Book {
        let mut numbers = HashMap::new();
        for r in &mut self.book.records {
            let names = match r.kind {
                4 | 6 | 11 | 20..=25 | 30 | 31 | 33 => 1,
                5 => 2,
                16 => usize::from(r.sub == 5),
                35 => usize::from(r.a != NONE),
                _ => 0,
            };
            for name in [&mut r.a, &mut r.b].into_iter().take(names) {
                let next = first + numbers.len() as u16;
                *name = *numbers.entry(*name).or_insert(next);
            }
        }
        self.book
    }

    /// In a book with wildcard imports.
    pub fn wild() -> Draft {
        Draft { book: Book { wildcards: true, records: Vec::new() } }
    }

    pub fn put(&mut self, kind: u8, sub: u8, [a, b, c]: [u16; 3], v: u64) -> u16 {
        let n = self.len() as u16;
        let (offset, len) = (100 + 10 * u32::from(n), 1 + u32::from(n) % 9);
        self.book.records.push(Record { kind, sub, a, b, c, v, offset, len });
        n
    }

    pub fn len(&self) -> usize {
        self.book.records.len()
    }

    /// Adds parts, each handed its number, until the next one would not fit into so many records.
    pub fn fill(&mut self, records: usize, add: impl Fn(&mut Draft, u16)) {
        for n in 0.. {
            let before = self.len();
            add(self, n);
            if self.len() > records {
                self.book.records.truncate(before);
                return;
            }
        }
    }
}

/// Types.
impl Draft {
    pub fn primitive(&mut self, sub: u8) -> u16 {
        self.put(1, sub, [0; 3], 0)
    }

    pub fn text(&mut self) -> u16 {
        self.put(3, 0, [0; 3], 0)
    }

    pub fn named(&mut self, name: u16) -> u16 {
        self.put(4, 0, [name, 0, 0], 0)
    }

    pub fn qualified(&mut self, namespace: u16, name: u16) -> u16 {
        self.put(5, 0, [namespace, name, 0], 0)
    }

    pub fn generic(&mut self, head: u16, argument: u16) -> u16 {
        self.put(6, 0, [head, argument, 0], 0)
    }

    /// A generic of u8.
    pub fn generic_u8(&mut self, head: u16) -> u16 {
        let argument = self.primitive(U8);
        self.generic(head, argument)
    }

    pub fn array(&mut self, of: u16) -> u16 {
        self.put(7, 1, [of, 0, 0], 0)
    }

    pub fn map(&mut self, key: u16, value: u16) -> u16 {
        self.put(8, 0, [key, value, 0], 0)
    }

    /// Maps over so many leaves, each handed its number, as low as can be.
    pub fn maps(&mut self, first: u16, n: u16, leaf: &impl Fn(&mut Draft, u16) -> u16) -> u16 {
        if n == 1 {
            return leaf(self, first);
        }
        let key = self.maps(first, n / 2, leaf);
        let value = self.maps(first + n / 2, n - n / 2, leaf);
        self.map(key, value)
    }
}

/// Constants' expressions, and constraints.
impl Draft {
    pub fn int(&mut self, v: u64) -> u16 {
        self.put(10, 0, [0; 3], v)
    }

    pub fn reference(&mut self, name: u16) -> u16 {
        self.put(11, 0, [name, 0, 0], 0)
    }

    pub fn operation(&mut self, op: u8, left: u16, right: u16) -> u16 {
        self.put(12, op, [left, right, 0], 0)
    }

    /// At most what the operand is.
    pub fn at_most(&mut self, operand: u16) -> u16 {
        self.put(14, 4, [operand, 0, 0], 0)
    }

    /// From the one operand up to the other, without the high end if `below` is 1.
    pub fn range(&mut self, below: u8, low: u16, high: u16) -> u16 {
        self.put(15, below, [low, high, 0], 0)
    }

    pub fn operand(&mut self, v: u64) -> u16 {
        self.put(16, 0, [0; 3], v)
    }

    pub fn operand_of(&mut self, constant: u16) -> u16 {
        self.put(16, 5, [constant, 0, 0], 0)
    }
}

/// Declarations.
impl Draft {
    pub fn message(&mut self, name: u16) -> u16 {
        self.put(20, 0, [name, 0, 0], 0)
    }

    pub fn union(&mut self, name: u16) -> u16 {
        self.put(21, 0, [name, 0, 0], 0)
    }

    pub fn newtype(&mut self, name: u16, t: u16) -> u16 {
        self.put(22, 0, [name, t, 0], 0)
    }

    pub fn alias(&mut self, name: u16, t: u16) -> u16 {
        self.put(23, 0, [name, t, 0], 0)
    }

    pub fn generic_alias(&mut self, name: u16, t: u16, parameter: u16) {
        self.alias(name, t);
        self.put(30, 0, [parameter, 0, 0], 0);
    }

    pub fn constant(&mut self, name: u16, primitive: u8, expression: u16) -> u16 {
        let t = self.primitive(primitive);
        self.put(24, 0, [name, t, expression], 0)
    }

    pub fn ambiguous(&mut self, name: u16) -> u16 {
        self.put(25, 0, [name, 0, 0], 0)
    }
}

/// Items. A field has its number in the message as ordinal.
impl Draft {
    pub fn field(&mut self, name: u16, ordinal: u64, t: u16, constraint: u16) -> u16 {
        self.put(31, 0, [name, t, constraint], ordinal)
    }

    /// A field of a primitive type, without a constraint.
    pub fn plain_field(&mut self, name: u16, ordinal: u64, primitive: u8) -> u16 {
        let t = self.primitive(primitive);
        self.field(name, ordinal, t, NONE)
    }

    /// A tombstone of a message with a reason.
    pub fn tombstone(&mut self, ordinal: u64, reason: u16) {
        self.put(32, 0, [0, 0, NONE], ordinal);
        self.put(36, 0, [reason, 0, 0], 0);
    }

    pub fn variant(&mut self, name: u16, ordinal: u64) -> u16 {
        self.put(33, 0, [name, 0, 0], ordinal)
    }

    pub fn varint(&mut self) -> u16 {
        self.put(34, 0, [0; 3], 0)
    }

    pub fn zigzag(&mut self) -> u16 {
        self.put(34, 1, [0; 3], 0)
    }

    pub fn delta(&mut self) -> u16 {
        self.put(34, 2, [0; 3], 0)
    }

    pub fn limit(&mut self, v: u64) {
        self.put(34, 3, [0; 3], 0);
        self.put(35, 0, [NONE, 0, 0], v);
    }
}
