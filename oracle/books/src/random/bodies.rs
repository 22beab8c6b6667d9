//! Messages, unions, their items, and constraints.

use super::draft::Id;
use super::maker::Maker;
use super::types::DEEPEST;
use crate::layout::{Record, NONE};

impl Maker<'_> {
    /// A message with that name.
    pub fn message(&mut self, name: u16) {
        let id = self.leaf(20, 0, name, 0, 0);
        self.draft.open(id);
        if self.rng.chance(self.knobs.delta) {
            self.delta();
        } else if self.rng.chance(4) {
            self.annotations();
        }
        let weights = [self.knobs.body[0], self.knobs.body[1]];
        let most = self.knobs.items;
        for _ in 0..self.rng.between(0, most) {
            if self.left() == 0 {
                return;
            }
            match self.weighed(&weights) {
                0 => self.field(),
                _ => self.tombstone(0),
            }
        }
    }

    /// The annotation delta, among others.
    fn delta(&mut self) {
        if self.rng.chance(3) {
            self.annotation();
        }
        let id = self.leaf(34, 2, 0, 0, 0);
        self.draft.item(id);
        self.arguments();
        if self.rng.chance(4) {
            self.annotation();
        }
    }

    /// A union with that name. No field and no tombstone of sub 0 before a variant, or between the union's own
    /// tombstone and the next variant.
    pub fn union(&mut self, name: u16) {
        let id = self.leaf(21, 0, name, 0, 0);
        self.draft.open(id);
        let mut open = false;
        let most = self.knobs.items;
        for _ in 0..self.rng.between(0, most) {
            if self.left() == 0 {
                return;
            }
            let mut weights = self.knobs.body;
            if !open {
                weights[..2].fill(0);
            }
            match self.weighed(&weights) {
                0 if open => self.field(),
                1 => self.tombstone(0),
                3 => {
                    self.tombstone(1);
                    open = false;
                }
                _ => {
                    self.variant();
                    open = true;
                }
            }
        }
    }

    /// Kind 33.
    fn variant(&mut self) {
        let (a, v) = (self.any_name(), self.any_ordinal());
        let id = self.leaf(33, 0, a, 0, v);
        self.draft.item(id);
    }

    /// Kind 31 with its type, constraint and annotations.
    fn field(&mut self) {
        let (a, v) = (self.any_name(), self.any_ordinal());
        let kind = self.usual_type();
        let bound = if self.rng.chance(self.knobs.constrained) { Some(self.usual_constraint()) } else { None };
        let c = if bound.is_some() { 0 } else { NONE };
        let id = self.draft.node(Record { kind: 31, a, c, v, ..Record::default() }, [None, Some(kind), bound]);
        self.draft.item(id);
        if self.rng.chance(self.knobs.annotated) {
            self.annotations();
        }
    }

    /// Kind 32 with its type and arguments.
    fn tombstone(&mut self, sub: u8) {
        let v = self.any_ordinal();
        let kind = if self.rng.chance(2) { Some(self.usual_type()) } else { None };
        let c = if kind.is_some() { 0 } else { NONE };
        let id = self.draft.node(Record { kind: 32, sub, c, v, ..Record::default() }, [None, None, kind]);
        self.draft.item(id);
        if self.rng.chance(self.knobs.bare) {
            return;
        }
        for _ in 0..1 + self.rng.below(4) {
            let sub = self.rng.below(3) as u8;
            let a = if self.rng.chance(3) { NONE } else { self.any_string() };
            let id = self.leaf(36, sub, a, 0, 0);
            self.draft.item(id);
        }
    }

    /// One to four annotations.
    fn annotations(&mut self) {
        let weights = self.knobs.several;
        let count = 1 + self.weighed(&weights);
        for _ in 0..count {
            self.annotation();
        }
    }

    /// Kind 34 with its arguments.
    fn annotation(&mut self) {
        let weights = self.knobs.annotations;
        let sub = self.weighed(&weights) as u8;
        let id = self.leaf(34, sub, 0, 0, 0);
        self.draft.item(id);
        if sub == 3 || self.rng.chance(3) {
            self.arguments();
        }
    }

    /// None to three of kind 35.
    fn arguments(&mut self) {
        let count = self.weighed(&[2, 4, 2, 1]);
        for _ in 0..count {
            let sub = self.rng.below(3) as u8;
            let a = if self.rng.chance(3) { self.any_name() } else { NONE };
            let v = if sub == 2 { 0 } else { self.any_bits() };
            let id = self.leaf(35, sub, a, 0, v);
            self.draft.item(id);
        }
    }

    /// A constraint: usually small, sometimes deep.
    pub fn usual_constraint(&mut self) -> Id {
        if self.rng.chance(self.knobs.deep) && self.left() > 70 {
            return self.deep_constraint();
        }
        let size = 1 + self.weighed(&[6, 3, 2, 1, 1]);
        self.constraint_of(size)
    }

    /// A constraint of so many records, the operands not counted.
    pub fn constraint_of(&mut self, size: usize) -> Id {
        if size <= 1 {
            return self.test();
        }
        if size == 2 || self.rng.chance(4) {
            let a = self.constraint_of(size - 1);
            return self.not(a);
        }
        let left = self.rng.between(1, size - 2);
        let a = self.constraint_of(left);
        let b = self.constraint_of(size - 1 - left);
        self.both(a, b)
    }

    /// Kind 13, sub 2.
    fn not(&mut self, a: Id) -> Id {
        self.draft.node(Record { kind: 13, sub: 2, ..Record::default() }, [Some(a), None, None])
    }

    /// Kind 13, sub 0 or 1.
    fn both(&mut self, a: Id, b: Id) -> Id {
        let sub = self.rng.below(2) as u8;
        self.draft.node(Record { kind: 13, sub, ..Record::default() }, [Some(a), Some(b), None])
    }

    /// Kind 14 or 15.
    fn test(&mut self) -> Id {
        let c = self.rng.below(2) as u16;
        let a = self.operand();
        if self.rng.chance(3) {
            let b = self.operand();
            let sub = self.rng.below(2) as u8;
            return self.draft.node(Record { kind: 15, sub, c, ..Record::default() }, [Some(a), Some(b), None]);
        }
        let sub = self.rng.below(6) as u8;
        self.draft.node(Record { kind: 14, sub, c, ..Record::default() }, [Some(a), None, None])
    }

    /// Kind 16.
    pub fn operand(&mut self) -> Id {
        let sub = self.rng.below(6) as u8;
        match sub {
            2 => {
                let a = self.any_string();
                self.leaf(16, sub, a, 0, 0)
            }
            3 => {
                let v = self.rng.below(2);
                self.leaf(16, sub, 0, 0, v)
            }
            5 => {
                let a = self.any_name();
                self.leaf(16, sub, a, 0, 0)
            }
            _ => {
                let v = self.any_bits();
                self.leaf(16, sub, 0, 0, v)
            }
        }
    }

    /// A deep constraint, often of exactly 64. The operand has depth 1.
    fn deep_constraint(&mut self) -> Id {
        let deep = match self.rng.below(3) {
            0 => DEEPEST,
            1 => self.rng.between(60, DEEPEST),
            _ => self.rng.between(5, 60),
        };
        let wide = self.rng.chance(3) && self.left() > 220;
        let mut top = self.test();
        for _ in 2..deep {
            top = if wide && !self.rng.chance(4) {
                let side = self.test();
                if self.rng.chance(2) {
                    self.both(side, top)
                } else {
                    self.both(top, side)
                }
            } else {
                self.not(top)
            };
        }
        top
    }
}
