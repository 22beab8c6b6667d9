//! Constants and their expressions.

use super::draft::{corner64, Id};
use super::maker::Maker;
use super::types::{Place, DEEPEST};
use crate::layout::Record;

const MAX: u64 = i64::MAX as u64;
const MIN: u64 = 1 << 63;
const MINUS: u64 = u64::MAX;

/// Operations at the edge of 64 bits: sub, left, right.
const EDGES: [(u8, u64, u64); 40] = [
    (0, MAX, 1),
    (0, MAX, 0),
    (0, MAX - 1, 1),
    (0, MAX, MAX),
    (0, MIN, MINUS),
    (0, MIN, MIN),
    (0, MIN, MAX),
    (0, MIN + 1, MINUS),
    (1, MIN, 1),
    (1, MIN, 0),
    (1, MIN + 1, 1),
    (1, MAX, MINUS),
    (1, 0, MIN),
    (1, MINUS, MIN),
    (1, 0, MAX),
    (1, MAX, MAX),
    (2, MIN, MINUS),
    (2, MINUS, MIN),
    (2, MAX, MINUS),
    (2, MIN, 1),
    (2, MAX, 2),
    (2, 1 << 62, 2),
    (2, 1 << 62, MINUS - 1),
    (2, 3_037_000_499, 3_037_000_499),
    (2, 3_037_000_500, 3_037_000_500),
    (2, 1 << 32, 1 << 31),
    (2, 0, MIN),
    (2, MIN, MIN),
    (3, MIN, MINUS),
    (3, MIN + 1, MINUS),
    (3, MIN, 1),
    (3, MAX, MINUS),
    (3, 7, 0),
    (3, 0, 0),
    (3, 0, MIN),
    (3, MINUS - 6, 2),
    (3, 7, MINUS - 1),
    (3, MINUS - 6, MINUS - 1),
    (3, 7, 2),
    (3, MIN, MIN),
];

/// What stands at the leaves of an expression.
#[derive(Clone, Copy)]
enum Leaf {
    Literal,
    Name(u16),
}

impl Maker<'_> {
    /// The constant with that index.
    pub fn constant(&mut self, index: usize) {
        let name = self.plan.constants[index];
        let kind = self.constant_type();
        let value = self.expression(index);
        self.declare_constant(name, kind, value);
    }

    /// Constants with these names, each leading to the next, the last to the first.
    pub fn ring_of(&mut self, names: &[u16]) {
        for (at, &name) in names.iter().enumerate() {
            let mut leaves = vec![Leaf::Name(names[(at + 1) % names.len()])];
            if self.rng.chance(2) {
                leaves.push(Leaf::Literal);
            }
            let kind = self.constant_type();
            let value = self.combine(leaves);
            self.declare_constant(name, kind, value);
        }
    }

    /// Kind 24.
    fn declare_constant(&mut self, name: u16, kind: Id, value: Id) {
        let record = Record { kind: 24, a: name, ..Record::default() };
        let id = self.draft.node(record, [None, Some(kind), Some(value)]);
        self.draft.open(id);
    }

    /// An expression that no constant has.
    pub fn loose_expression(&mut self) -> Id {
        if self.plan.constants.is_empty() || self.rng.chance(2) {
            return self.edge();
        }
        let leaves = self.any_leaves();
        self.combine(leaves)
    }

    /// The type of a constant.
    fn constant_type(&mut self) -> Id {
        if self.rng.chance(self.knobs.typed) {
            return self.usual_type();
        }
        if self.rng.chance(6) {
            return self.leaf_type(&Place::default());
        }
        self.plain_leaf()
    }

    /// The expression of the constant with that index.
    fn expression(&mut self, index: usize) -> Id {
        let weights = self.knobs.constants;
        let leaves = match self.weighed(&weights) {
            0 => vec![Leaf::Literal; 1 + self.rng.below(3) as usize],
            1 => self.link_back(index),
            2 => self.several(index),
            3 => self.ring(index),
            4 => self.repeat(),
            5 => self.undeclared(index),
            6 => return self.edge(),
            7 if self.left() > 130 => return self.deep_expression(index),
            _ => self.any_leaves(),
        };
        self.combine(leaves)
    }

    /// A reference to a constant with that distance before, and some literals.
    fn link_back(&mut self, index: usize) -> Vec<Leaf> {
        let mut out = vec![Leaf::Literal; self.rng.below(3) as usize];
        if index > 0 {
            out.push(Leaf::Name(self.plan.constants[index - 1]));
        } else {
            out.push(Leaf::Literal);
        }
        out
    }

    /// References to some constants before, each once.
    fn several(&mut self, index: usize) -> Vec<Leaf> {
        let mut before = self.plan.constants[..index].to_vec();
        self.rng.shuffle(&mut before);
        before.truncate(1 + self.rng.below(4) as usize);
        let mut out: Vec<Leaf> = before.into_iter().map(Leaf::Name).collect();
        if out.is_empty() || self.rng.chance(2) {
            out.push(Leaf::Literal);
        }
        out
    }

    /// A reference to itself or to one soon after. The one after mostly leads back.
    fn ring(&mut self, index: usize) -> Vec<Leaf> {
        let names = self.plan.constants.clone();
        let to = match self.rng.below(4) {
            0 => index,
            1 => (index + 1) % names.len(),
            2 => (index + 2) % names.len(),
            _ => self.rng.below(names.len() as u64) as usize,
        };
        let mut out = vec![Leaf::Name(names[to])];
        if self.rng.chance(3) {
            out.push(Leaf::Literal);
        }
        out
    }

    /// The same reference twice or more.
    fn repeat(&mut self) -> Vec<Leaf> {
        let name = *self.rng.pick(&self.plan.constants);
        let mut out = vec![Leaf::Name(name); 2 + self.rng.below(2) as usize];
        for _ in 0..self.rng.below(3) {
            out.push(Leaf::Literal);
        }
        self.rng.shuffle(&mut out);
        out
    }

    /// An undeclared reference once or twice, sometimes with a declared one.
    fn undeclared(&mut self, index: usize) -> Vec<Leaf> {
        let name = match self.rng.below(3) {
            0 => 4_094,
            1 => 3_900,
            _ => self.any_name(),
        };
        let mut out = vec![Leaf::Name(name); 1 + self.rng.below(2) as usize];
        if index > 0 && self.rng.chance(2) {
            out.push(Leaf::Name(self.plan.constants[index - 1]));
        }
        if self.rng.chance(2) {
            out.push(Leaf::Literal);
        }
        out
    }

    /// Any mixture.
    fn any_leaves(&mut self) -> Vec<Leaf> {
        let count = 1 + self.rng.below(4) as usize;
        (0..count)
            .map(|_| match self.rng.below(3) {
                0 => Leaf::Literal,
                1 => Leaf::Name(self.any_name()),
                _ => Leaf::Name(*self.rng.pick(&self.plan.constants)),
            })
            .collect()
    }

    /// An operation at the edge of 64 bits, alone or inside another.
    fn edge(&mut self) -> Id {
        let (sub, left, right) = *self.rng.pick(&EDGES);
        let a = self.literal_of(left);
        let b = self.literal_of(right);
        let id = self.operation(sub, a, b);
        if self.rng.chance(3) {
            let side = self.literal();
            let sub = self.operator();
            return self.operation(sub, id, side);
        }
        id
    }

    /// A deep expression, often of exactly 64.
    fn deep_expression(&mut self, index: usize) -> Id {
        let deep = match self.rng.below(3) {
            0 => DEEPEST,
            1 => self.rng.between(60, DEEPEST),
            _ => self.rng.between(5, 40),
        };
        let mut top = if index > 0 && self.rng.chance(2) {
            let name = self.plan.constants[index - 1];
            self.leaf(11, 0, name, 0, 0)
        } else {
            self.literal()
        };
        for _ in 1..deep {
            let v = self.rng.below(3);
            let side = self.leaf(10, 0, 0, 0, v);
            let sub = self.rng.below(2) as u8;
            top = if self.rng.chance(3) { self.operation(sub, side, top) } else { self.operation(sub, top, side) };
        }
        top
    }

    /// A tree with these leaves.
    fn combine(&mut self, leaves: Vec<Leaf>) -> Id {
        let mut parts: Vec<Id> = leaves
            .into_iter()
            .map(|leaf| match leaf {
                Leaf::Literal => self.literal(),
                Leaf::Name(name) => self.leaf(11, 0, name, 0, 0),
            })
            .collect();
        self.rng.shuffle(&mut parts);
        while parts.len() > 1 {
            let at = self.rng.below(parts.len() as u64 - 1) as usize;
            let right = parts.remove(at + 1);
            let sub = self.operator();
            parts[at] = self.operation(sub, parts[at], right);
        }
        parts[0]
    }

    /// Kind 12.
    fn operation(&mut self, sub: u8, a: Id, b: Id) -> Id {
        self.draft.node(Record { kind: 12, sub, ..Record::default() }, [Some(a), Some(b), None])
    }

    /// The sub of an operation: a comparison now and then.
    fn operator(&mut self) -> u8 {
        if self.rng.chance(5) {
            return self.rng.below(10) as u8;
        }
        *self.rng.pick(&[0, 0, 0, 1, 1, 2, 2, 3])
    }

    /// Kind 10 of any sub: small numbers mostly.
    fn literal(&mut self) -> Id {
        match self.rng.below(12) {
            0 => {
                let v = self.any_bits();
                self.leaf(10, 2, 0, 0, v)
            }
            1 => {
                let v = self.rng.below(2);
                self.leaf(10, 4, 0, 0, v)
            }
            2 | 3 => {
                let v = corner64(self.rng);
                self.literal_of(v)
            }
            _ => {
                let v = self.rng.below(20).wrapping_sub(8);
                self.literal_of(v)
            }
        }
    }

    /// Kind 10 with these bits: Int, UInt or Hex.
    fn literal_of(&mut self, v: u64) -> Id {
        let sub = *self.rng.pick(&[0, 0, 1, 3]);
        self.leaf(10, sub, 0, 0, v)
    }
}
