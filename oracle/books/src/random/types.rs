//! Types, newtypes and aliases.

use super::draft::Id;
use super::maker::{Generic, Maker};
use crate::layout::Record;

/// The deepest tree.
pub const DEEPEST: usize = 64;

/// Where a type stands.
#[derive(Clone, Default)]
pub struct Place {
    /// The parameters of the generic alias whose target it is.
    pub params: Vec<u16>,
    /// The generic aliases it may use; all where absent.
    pub heads: Option<Vec<u16>>,
    /// The plain aliases it may use; all where absent.
    pub plains: Option<Vec<u16>>,
}

impl Maker<'_> {
    /// A type for an item or a newtype: usually small, sometimes deep.
    pub fn usual_type(&mut self) -> Id {
        let place = Place::default();
        if self.rng.chance(self.knobs.deep) && self.left() > 70 {
            return self.deep_type(&place);
        }
        let most = self.knobs.size;
        let size = if self.rng.chance(2) { 1 } else { self.rng.between(1, most) };
        self.type_of(size, &place)
    }

    /// A type of at most `size` records.
    pub fn type_of(&mut self, size: usize, place: &Place) -> Id {
        if size <= 1 {
            return self.leaf_type(place);
        }
        let inner = self.knobs.inner;
        match self.weighed(&inner) {
            0 => {
                let child = self.type_of(size - 1, place);
                let head = self.head(place);
                self.generic(head, child)
            }
            1 => {
                let child = self.type_of(size - 1, place);
                self.one_child(child)
            }
            _ if size == 2 => self.leaf_type(place),
            _ => {
                let left = self.rng.between(1, size - 2);
                let a = self.type_of(left, place);
                let b = self.type_of(size - 1 - left, place);
                self.two_children(a, b)
            }
        }
    }

    /// Kind 6.
    pub fn generic(&mut self, head: u16, child: Id) -> Id {
        self.draft.node(Record { kind: 6, a: head, ..Record::default() }, [None, Some(child), None])
    }

    /// Kind 7 with a random sub.
    pub fn one_child(&mut self, child: Id) -> Id {
        let sub = self.rng.below(10) as u8;
        let v = if sub == 2 { self.any_bits() } else { 0 };
        self.draft.node(Record { kind: 7, sub, v, ..Record::default() }, [Some(child), None, None])
    }

    /// Kind 8 with a random sub.
    pub fn two_children(&mut self, a: Id, b: Id) -> Id {
        let sub = self.rng.below(2) as u8;
        self.draft.node(Record { kind: 8, sub, ..Record::default() }, [Some(a), Some(b), None])
    }

    /// Kind 4.
    pub fn named(&mut self, name: u16) -> Id {
        self.leaf(4, 0, name, 0, 0)
    }

    /// Kinds 1 to 3 and 9: nothing to look up.
    pub fn plain_leaf(&mut self) -> Id {
        match self.rng.below(6) {
            0 => self.sub_byte(),
            1 => {
                let sub = self.rng.below(6) as u8;
                self.leaf(3, sub, 0, 0, 0)
            }
            2 if self.rng.chance(2) => self.bits(),
            _ => self.primitive(),
        }
    }

    /// Kind 1.
    pub fn primitive(&mut self) -> Id {
        let sub = self.rng.below(14) as u8;
        self.leaf(1, sub, 0, 0, 0)
    }

    /// Kind 2.
    fn sub_byte(&mut self) -> Id {
        let bits = match self.rng.below(3) {
            0 => *self.rng.pick(&[0, 1, 7, 8, 254, 255]),
            _ => self.rng.below(256) as u16,
        };
        let sub = self.rng.below(2) as u8;
        self.leaf(2, sub, bits, 0, 0)
    }

    /// Kind 9.
    fn bits(&mut self) -> Id {
        let list = match self.rng.below(3) {
            0 => *self.rng.pick(&[0, 1, 4_096, 65_534, 65_535]),
            _ => self.rng.below(65_536) as u16,
        };
        self.leaf(9, 0, list, 0, 0)
    }

    /// A type of one record.
    pub fn leaf_type(&mut self, place: &Place) -> Id {
        if !place.params.is_empty() && self.rng.chance(2) {
            let name = *self.rng.pick(&place.params);
            return self.named(name);
        }
        let leaves = self.knobs.leaves;
        match self.weighed(&leaves) {
            0 => self.primitive(),
            1 => self.sub_byte(),
            2 => {
                let sub = self.rng.below(6) as u8;
                self.leaf(3, sub, 0, 0, 0)
            }
            3 => {
                let name = self.type_name(place);
                self.named(name)
            }
            4 => self.qualified(place),
            _ => self.bits(),
        }
    }

    /// A name for kind 4.
    fn type_name(&mut self, place: &Place) -> u16 {
        let weights = self.knobs.named;
        let heads = place.heads.clone().unwrap_or_else(|| self.generic_names());
        let plains = place.plains.clone().unwrap_or_else(|| self.plan.plains.clone());
        let list = match self.weighed(&weights) {
            0 => self.plan.declared.clone(),
            1 => plains,
            2 => heads,
            3 => self.plan.ambiguous.clone(),
            4 => self.plan.unknown.clone(),
            5 if place.plains.is_none() => self.plan.pool.clone(),
            6 => Vec::new(),
            _ => self.plan.declared.clone(),
        };
        match self.one_of(&list) {
            Some(name) => name,
            None if place.plains.is_none() => self.any_name(),
            None => *self.rng.pick(&[0, 4_095, 3_500, 3_501]),
        }
    }

    /// Kind 5: namespaces and names known and unknown, few enough that pairs come again.
    fn qualified(&mut self, place: &Place) -> Id {
        if !self.pairs.is_empty() && self.rng.chance(3) {
            let (space, name) = *self.rng.pick(&self.pairs);
            return self.leaf(5, 0, space, name, 0);
        }
        let list = match self.rng.below(9) {
            0 => vec![0, 4_095],
            1 | 2 if !place.params.is_empty() => place.params.clone(),
            3 => vec![3_600, 3_601],
            4 => self.plan.declared.clone(),
            5 => self.plan.plains.clone(),
            6 => self.plan.unknown.clone(),
            7 => self.generic_names(),
            _ => Vec::new(),
        };
        let space = match self.one_of(&list) {
            Some(name) => name,
            None => self.any_name(),
        };
        let name = match self.rng.below(6) {
            0 => 4_095,
            1 => 0,
            2 => self.any_name(),
            _ => self.rng.below(3) as u16,
        };
        self.pairs.push((space, name));
        self.leaf(5, 0, space, name, 0)
    }

    /// The names of all generic aliases.
    pub fn generic_names(&self) -> Vec<u16> {
        self.plan.generics.iter().map(|generic| generic.name).collect()
    }

    /// The head of a generic type.
    pub fn head(&mut self, place: &Place) -> u16 {
        let weights = self.knobs.heads;
        let heads = place.heads.clone().unwrap_or_else(|| self.generic_names());
        let list = match self.weighed(&weights) {
            0 => heads,
            1 => self.plan.declared.clone(),
            2 => self.plan.plains.clone(),
            3 => self.plan.unknown.clone(),
            4 if place.heads.is_none() => self.plan.pool.clone(),
            5 => place.params.clone(),
            _ => Vec::new(),
        };
        match self.one_of(&list) {
            Some(name) => name,
            None if place.heads.is_none() => self.any_name(),
            None => *self.rng.pick(&[3_500, 3_501, 4_094]),
        }
    }

    /// A deep type, often of exactly 64.
    pub fn deep_type(&mut self, place: &Place) -> Id {
        let deep = match self.rng.below(3) {
            0 => DEEPEST,
            1 => self.rng.between(58, DEEPEST),
            _ => self.rng.between(6, 58),
        };
        let mut top = if self.rng.chance(2) { self.plain_leaf() } else { self.leaf_type(place) };
        let wide = self.rng.below(3);
        let generic = self.rng.chance(3);
        for _ in 1..deep {
            top = self.deeper(top, wide, generic, place);
        }
        top
    }

    /// A type one deeper: with two children, as an argument, or with one child.
    fn deeper(&mut self, top: Id, wide: u64, generic: bool, place: &Place) -> Id {
        if wide == 2 && self.left() > 140 || wide == 1 && self.rng.chance(8) {
            let side = self.plain_leaf();
            return if self.rng.chance(2) { self.two_children(side, top) } else { self.two_children(top, side) };
        }
        if generic && self.rng.chance(30) {
            let head = self.head(place);
            return self.generic(head, top);
        }
        self.one_child(top)
    }

    /// A newtype with that name.
    pub fn newtype(&mut self, name: u16) {
        let child = self.usual_type();
        let id = self.draft.node(Record { kind: 22, a: name, ..Record::default() }, [None, Some(child), None]);
        self.draft.open(id);
    }

    /// Kind 23 without parameters.
    pub fn alias(&mut self, name: u16, target: Id) {
        let id = self.draft.node(Record { kind: 23, a: name, ..Record::default() }, [None, Some(target), None]);
        self.draft.open(id);
    }

    /// The plain alias with that index. It leads to aliases of higher index only, so that copies stay few,
    /// except for bare names, which may be any alias, also itself.
    pub fn plain_alias(&mut self, index: usize) {
        let name = self.plan.plains[index];
        let later = self.plan.plains[index + 1..].to_vec();
        let target = if self.rng.chance(self.knobs.chain) {
            self.link(index)
        } else if self.rng.chance(4 * self.knobs.deep) && self.left() > 70 {
            self.deep_type(&Place { plains: Some(Vec::new()), ..Place::default() })
        } else {
            let plains = if self.rng.chance(3) { later } else { Vec::new() };
            let most = self.knobs.size.min(4);
            let size = self.rng.between(1, most);
            self.type_of(size, &Place { plains: Some(plains), ..Place::default() })
        };
        self.alias(name, target);
    }

    /// A target that is a bare name: the next alias, any alias, a generic, or what has no number.
    fn link(&mut self, index: usize) -> Id {
        let plains = self.plan.plains.clone();
        let generics = self.generic_names();
        let list = match self.rng.below(10) {
            0 => plains,
            1 | 8 | 9 => generics,
            2 => self.plan.unknown.clone(),
            3 => self.plan.ambiguous.clone(),
            4 => self.plan.declared.clone(),
            _ if index + 1 < plains.len() => vec![plains[index + 1]],
            _ => self.plan.declared.clone(),
        };
        let name = match self.one_of(&list) {
            Some(name) => name,
            None => self.any_name(),
        };
        self.named(name)
    }

    /// The generic alias with that index.
    pub fn generic_alias(&mut self, index: usize) {
        let Generic { name, params } = self.plan.generics[index].clone();
        let target = self.target(index, &params);
        self.alias(name, target);
        for param in params {
            let id = self.leaf(30, 0, param, 0, 0);
            self.draft.item(id);
        }
    }

    /// The target of a generic alias. It uses generics of higher index only, unless it may be in a ring.
    fn target(&mut self, index: usize, params: &[u16]) -> Id {
        let ring = self.rng.chance(self.knobs.ring);
        let names = self.generic_names();
        let heads = if ring { names } else { names[index + 1..].to_vec() };
        let place = Place { params: params.to_vec(), heads: Some(heads.clone()), ..Place::default() };
        if ring && self.rng.chance(2) {
            return self.passing_on(&heads, &place);
        }
        match self.rng.below(8) {
            0 => self.named(params[0]),
            1 | 2 if !heads.is_empty() => self.passing_on(&heads, &place),
            3 => {
                let child = self.leaf_type(&place);
                self.generic(params[0], child)
            }
            4 => {
                let b = self.any_name();
                self.leaf(5, 0, params[0], b, 0)
            }
            5 => {
                let a = self.named(params[0]);
                let last = params[params.len() - 1];
                let b = self.named(last);
                self.two_children(a, b)
            }
            _ => {
                let most = self.knobs.size.min(6);
                let size = self.rng.between(1, most);
                self.type_of(size, &place)
            }
        }
    }

    /// A generic inside a target, with the parameter in its argument.
    fn passing_on(&mut self, heads: &[u16], place: &Place) -> Id {
        let head = *self.rng.pick(heads);
        let mut child = if self.rng.chance(3) { self.leaf_type(place) } else { self.named(place.params[0]) };
        if self.rng.chance(3) {
            child = self.one_child(child);
        }
        let inner = self.generic(head, child);
        match self.rng.below(3) {
            0 => self.one_child(inner),
            1 => {
                let side = self.named(place.params[0]);
                self.two_children(inner, side)
            }
            _ => inner,
        }
    }
}
