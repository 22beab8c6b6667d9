//! What the parts of the generator share: the draft, the names and their roles, the knobs of a theme.

use super::draft::{corner64, Draft, Id};
use crate::layout::{Record, MOST_RECORDS};
use crate::rng::Rng;

/// The last name.
pub const LAST_NAME: u16 = 4_095;
/// The last string.
pub const LAST_STRING: u16 = 65_534;

/// What a theme turns up or down. Weights are compared within their array.
#[derive(Clone)]
pub struct Knobs {
    /// Message, union, newtype, plain alias, generic alias, constant, ambiguous name.
    pub roles: [u64; 7],
    /// About so many records a declaration takes.
    pub per: usize,
    /// Most names that nothing declares.
    pub unknown: usize,
    /// Wildcards in so many of four books.
    pub wildcards: u64,
    /// Leaves: primitive, sub-byte, semantic, named, qualified, inline bits.
    pub leaves: [u64; 6],
    /// Inner types: generic, one child, two children.
    pub inner: [u64; 3],
    /// A named type: declared, plain alias, bare generic, ambiguous, unknown, any of the pool, any at all.
    pub named: [u64; 7],
    /// The head of a generic: generic alias, declared, plain alias, unknown, any of the pool, parameter.
    pub heads: [u64; 6],
    /// Most records of a usual type.
    pub size: usize,
    /// One type in so many is deep.
    pub deep: u64,
    /// One generic target in so many may go round in a ring.
    pub ring: u64,
    /// One alias in so many leads on to another.
    pub chain: u64,
    /// Shapes of constants: literal, chain, several, ring, repeat, undeclared, corner, deep, any.
    pub constants: [u64; 9],
    /// One constant in so many has a type that is not a plain leaf.
    pub typed: u64,
    /// Most items of a body.
    pub items: usize,
    /// Items: field, tombstone, variant, the union's own tombstone.
    pub body: [u64; 4],
    /// One field in so many has a constraint.
    pub constrained: u64,
    /// One field in so many has annotations.
    pub annotated: u64,
    /// One message in so many has delta.
    pub delta: u64,
    /// How many annotations an annotated field has: one to four.
    pub several: [u64; 4],
    /// Annotations: varint, zigzag, delta, limit, other.
    pub annotations: [u64; 5],
    /// One tombstone in so many has no arguments.
    pub bare: u64,
    /// One declaration in so many is followed by a tree that nobody uses.
    pub loose: u64,
    /// Least records of the book.
    pub least: usize,
    /// Nothing but what the theme itself makes.
    pub alone: bool,
}

impl Knobs {
    /// A mixture of everything.
    pub fn mixed() -> Knobs {
        Knobs {
            roles: [5, 3, 4, 4, 3, 4, 2],
            per: 7,
            unknown: 3,
            wildcards: 2,
            leaves: [6, 2, 2, 6, 1, 1],
            inner: [2, 4, 2],
            named: [6, 4, 1, 1, 2, 2, 1],
            heads: [8, 1, 1, 1, 1, 1],
            size: 5,
            deep: 60,
            ring: 8,
            chain: 3,
            constants: [3, 5, 3, 1, 1, 1, 2, 1, 2],
            typed: 3,
            items: 6,
            body: [6, 2, 2, 1],
            constrained: 4,
            annotated: 3,
            delta: 4,
            several: [6, 3, 2, 1],
            annotations: [2, 2, 2, 2, 1],
            bare: 4,
            loose: 8,
            least: 1,
            alone: false,
        }
    }
}

/// A generic alias that the book is to declare.
#[derive(Clone)]
pub struct Generic {
    pub name: u16,
    pub params: Vec<u16>,
}

/// The names of a book by what they are to be. A name stands in one of the first six lists; constants and
/// ambiguous names are sets of their own.
#[derive(Default)]
pub struct Plan {
    pub messages: Vec<u16>,
    pub unions: Vec<u16>,
    pub newtypes: Vec<u16>,
    pub plains: Vec<u16>,
    pub generics: Vec<Generic>,
    pub unknown: Vec<u16>,
    pub constants: Vec<u16>,
    pub ambiguous: Vec<u16>,
    /// All names of the first six lists.
    pub pool: Vec<u16>,
    /// Names of 20 to 22.
    pub declared: Vec<u16>,
}

pub struct Maker<'r> {
    pub rng: &'r mut Rng,
    pub draft: Draft,
    pub knobs: Knobs,
    pub plan: Plan,
    /// The book gets about so many records, and never more.
    pub room: usize,
    /// Qualified names made so far.
    pub pairs: Vec<(u16, u16)>,
}

impl<'r> Maker<'r> {
    /// A maker without any planned names.
    pub fn blank(rng: &'r mut Rng) -> Maker<'r> {
        let (draft, plan) = (Draft::default(), Plan::default());
        Maker { rng, draft, knobs: Knobs::mixed(), plan, room: MOST_RECORDS, pairs: Vec::new() }
    }
}

impl Maker<'_> {
    /// Records that may still be made.
    pub fn left(&self) -> usize {
        self.room.saturating_sub(self.draft.made())
    }

    /// An index, by weight.
    pub fn weighed(&mut self, weights: &[u64]) -> usize {
        weighed(self.rng, weights)
    }

    /// One of the names, none where the list is empty.
    pub fn one_of(&mut self, names: &[u16]) -> Option<u16> {
        if names.is_empty() {
            None
        } else {
            Some(*self.rng.pick(names))
        }
    }

    /// Any name, corners often, mostly of the pool.
    pub fn any_name(&mut self) -> u16 {
        match self.rng.below(8) {
            0 => *self.rng.pick(&[0, 1, LAST_NAME, LAST_NAME - 1, 255, 256]),
            1 => self.rng.below(u64::from(LAST_NAME) + 1) as u16,
            _ if self.plan.pool.is_empty() => self.rng.below(8) as u16,
            _ => *self.rng.pick(&self.plan.pool),
        }
    }

    /// Any string, corners often.
    pub fn any_string(&mut self) -> u16 {
        match self.rng.below(3) {
            0 => *self.rng.pick(&[0, 1, LAST_STRING, LAST_STRING - 1, 4_095, 4_096]),
            1 => self.rng.below(20) as u16,
            _ => self.rng.below(u64::from(LAST_STRING) + 1) as u16,
        }
    }

    /// Any ordinal, corners often.
    pub fn any_ordinal(&mut self) -> u64 {
        match self.rng.below(6) {
            0 => *self.rng.pick(&[0, 1, 0xFFFF_FFFF, 0xFFFF_FFFE, 0x8000_0000, 65_535, 65_536]),
            1 => self.rng.next() >> 32,
            _ => self.rng.below(40),
        }
    }

    /// Any 64 bits, corners often.
    pub fn any_bits(&mut self) -> u64 {
        corner64(self.rng)
    }

    /// A record without children.
    pub fn leaf(&mut self, kind: u8, sub: u8, a: u16, b: u16, v: u64) -> Id {
        self.draft.leaf(Record { kind, sub, a, b, v, ..Record::default() })
    }
}

/// An index, by weight. All weights zero give 0.
pub fn weighed(rng: &mut Rng, weights: &[u64]) -> usize {
    let mut left = rng.below(weights.iter().sum());
    for (index, &weight) in weights.iter().enumerate() {
        if left < weight {
            return index;
        }
        left -= weight;
    }
    0
}

/// Distinct names, mostly small ones, sometimes with the last name or from anywhere.
pub fn names(rng: &mut Rng, count: usize) -> Vec<u16> {
    let range = match rng.below(12) {
        0 => usize::from(LAST_NAME) + 1,
        1 => count.max(1),
        _ => (count + 4).min(usize::from(LAST_NAME) + 1),
    };
    let mut all: Vec<u16> = (0..range as u16).collect();
    rng.shuffle(&mut all);
    all.truncate(count);
    if !all.contains(&LAST_NAME) && !all.is_empty() && rng.chance(4) {
        let at = rng.below(all.len() as u64) as usize;
        all[at] = LAST_NAME;
    }
    all
}

/// How many of each role there are to be: seven counts.
fn counts(rng: &mut Rng, knobs: &Knobs, room: usize) -> [usize; 7] {
    let mut counts = [0; 7];
    let most = (room / knobs.per.max(1)).max(1);
    let total = if rng.chance(3) { rng.between(1, most) } else { most };
    for _ in 0..total {
        counts[weighed(rng, &knobs.roles)] += 1;
    }
    counts
}

/// Names with roles for a book of about `room` records.
pub fn plan(rng: &mut Rng, knobs: &Knobs, room: usize) -> Plan {
    let counts = counts(rng, knobs, room);
    let unknown = rng.between(0, knobs.unknown);
    let typed: usize = counts[..5].iter().sum();
    let pool = names(rng, typed + unknown);
    let mut rest = pool.clone();
    let mut take = |count: usize| rest.split_off(rest.len() - count);
    let mut plan = Plan {
        messages: take(counts[0]),
        unions: take(counts[1]),
        newtypes: take(counts[2]),
        plains: take(counts[3]),
        ..Plan::default()
    };
    let heads = take(counts[4]);
    plan.unknown = rest;
    plan.generics = heads.into_iter().map(|name| Generic { name, params: params(rng, &pool) }).collect();
    plan.constants = names(rng, counts[5]);
    plan.ambiguous = ambiguous(rng, counts[6], &pool);
    plan.declared = [&plan.messages[..], &plan.unions, &plan.newtypes].concat();
    plan.pool = pool;
    plan
}

/// Parameters of a generic alias: one to four, now and then one of them twice, or a name of the pool.
fn params(rng: &mut Rng, pool: &[u16]) -> Vec<u16> {
    let count = 1 + weighed(rng, &[12, 5, 2, 1]);
    let mut out: Vec<u16> = Vec::new();
    for _ in 0..count {
        let name = match rng.below(10) {
            0 if !pool.is_empty() => *rng.pick(pool),
            1 if !out.is_empty() => *rng.pick(&out),
            2 => *rng.pick(&[0, LAST_NAME]),
            _ => 3_000 + rng.below(5) as u16,
        };
        out.push(name);
    }
    out
}

/// Distinct names for kind 25, most of them of the pool.
fn ambiguous(rng: &mut Rng, count: usize, pool: &[u16]) -> Vec<u16> {
    let mut from = pool.to_vec();
    rng.shuffle(&mut from);
    let mut out = Vec::new();
    for _ in 0..count {
        let name = match from.pop() {
            Some(name) if !rng.chance(5) => name,
            _ => rng.below(u64::from(LAST_NAME) + 1) as u16,
        };
        if !out.contains(&name) {
            out.push(name);
        }
    }
    out
}
