//! Records in the making.

use books::{Book, Record};

/// The number that stands for none.
pub const NONE: u16 = 65_535;

/// Records in the making; each gets a span of its own.
#[derive(Clone, Default)]
pub struct Draft {
    pub book: Book,
}

impl Draft {
    pub fn put(&mut self, kind: u8, sub: u8, [a, b, c]: [u16; 3], v: u64) -> u16 {
        let n = self.book.records.len() as u16;
        let (offset, len) = (100 + 10 * n as u32, 1 + n as u32 % 9);
        self.book.records.push(Record { kind, sub, a, b, c, v, offset, len });
        n
    }

    pub fn wild(mut self) -> Draft {
        self.book.wildcards = true;
        self
    }
}

/// Types.
impl Draft {
    pub fn primitive(&mut self, sub: u8) -> u16 {
        self.put(1, sub, [0; 3], 0)
    }

    pub fn u8(&mut self) -> u16 {
        self.primitive(1)
    }

    pub fn named(&mut self, name: u16) -> u16 {
        self.put(4, 0, [name, 0, 0], 0)
    }

    pub fn qualified(&mut self, namespace: u16, name: u16) -> u16 {
        self.put(5, 0, [namespace, name, 0], 0)
    }

    pub fn generic(&mut self, name: u16, argument: u16) -> u16 {
        self.put(6, 0, [name, argument, 0], 0)
    }

    /// A generic of u8.
    pub fn generic_u8(&mut self, name: u16) -> u16 {
        let argument = self.u8();
        self.generic(name, argument)
    }

    pub fn one(&mut self, sub: u8, child: u16) -> u16 {
        self.put(7, sub, [child, 0, 0], 0)
    }

    pub fn map(&mut self, left: u16, right: u16) -> u16 {
        self.put(8, 0, [left, right, 0], 0)
    }

    /// A type of some depth: arrays over `inner`, which has depth 1.
    pub fn arrays(&mut self, inner: u16, depth: usize) -> u16 {
        (1..depth).fold(inner, |child, _| self.one(1, child))
    }

    /// Arrays over u8, of some depth.
    pub fn arrays_u8(&mut self, depth: usize) -> u16 {
        let leaf = self.u8();
        self.arrays(leaf, depth)
    }
}

/// Constants' expressions, and operands of constraints.
impl Draft {
    pub fn literal(&mut self, sub: u8, v: u64) -> u16 {
        self.put(10, sub, [0; 3], v)
    }

    pub fn int(&mut self, v: i64) -> u16 {
        self.literal(0, v as u64)
    }

    pub fn reference(&mut self, name: u16) -> u16 {
        self.put(11, 0, [name, 0, 0], 0)
    }

    pub fn operation(&mut self, op: u8, left: u16, right: u16) -> u16 {
        self.put(12, op, [left, right, 0], 0)
    }

    /// An operand Int.
    pub fn operand(&mut self, v: u64) -> u16 {
        self.put(16, 0, [0; 3], v)
    }
}

/// Declarations.
impl Draft {
    pub fn message(&mut self, name: u16) -> u16 {
        self.put(20, 0, [name, 0, 0], 0)
    }

    pub fn union(&mut self, name: u16) -> u16 {
        self.put(21, 0, [name, 0, 0], 0)
    }

    pub fn newtype(&mut self, name: u16, t: u16) -> u16 {
        self.put(22, 0, [name, t, 0], 0)
    }

    pub fn alias(&mut self, name: u16, t: u16, parameters: &[u16]) -> u16 {
        let at = self.put(23, 0, [name, t, 0], 0);
        parameters.iter().for_each(|p| {
            self.put(30, 0, [*p, 0, 0], 0);
        });
        at
    }

    /// A plain alias of u8.
    pub fn alias_u8(&mut self, name: u16) -> u16 {
        let t = self.u8();
        self.alias(name, t, &[])
    }

    /// A constant of type u8.
    pub fn constant(&mut self, name: u16, expression: u16) -> u16 {
        let t = self.u8();
        self.put(24, 0, [name, t, expression], 0)
    }

    pub fn ambiguous(&mut self, name: u16) -> u16 {
        self.put(25, 0, [name, 0, 0], 0)
    }
}

/// Items.
impl Draft {
    pub fn field(&mut self, name: u16, t: u16, constraint: u16) -> u16 {
        self.put(31, 0, [name, t, constraint], name as u64)
    }

    /// A field of u8 without a constraint.
    pub fn field_u8(&mut self, name: u16) -> u16 {
        let t = self.u8();
        self.field(name, t, NONE)
    }

    pub fn tombstone(&mut self, sub: u8, t: u16, ordinal: u64) -> u16 {
        self.put(32, sub, [0, 0, t], ordinal)
    }

    pub fn variant(&mut self, name: u16, ordinal: u64) -> u16 {
        self.put(33, 0, [name, 0, 0], ordinal)
    }

    pub fn annotation(&mut self, sub: u8) -> u16 {
        self.put(34, sub, [0; 3], 0)
    }

    pub fn argument(&mut self, sub: u8, key: u16, v: u64) -> u16 {
        self.put(35, sub, [key, 0, 0], v)
    }
}
