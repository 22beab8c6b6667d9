//! A book in the making: records with children by identity, numbered only at the end.

use crate::layout::{Record, NONE};
use crate::rng::Rng;

/// The identity of a record in a draft. Children are made before their parents.
pub type Id = usize;

struct Node {
    record: Record,
    /// The children in `a`, `b` and `c`.
    kids: [Option<Id>; 3],
}

/// Where the records of a tree stand.
#[derive(Clone, Copy)]
pub enum Placing {
    /// Right before the record that uses them.
    Close,
    /// All of them at the front.
    Front,
    /// One in so many anywhere before its parent, the others close to it.
    Spread(u64),
}

/// How spans are given.
#[derive(Clone, Copy)]
pub enum Spans {
    Distinct,
    Random,
    Zero,
}

#[derive(Default)]
pub struct Draft {
    nodes: Vec<Node>,
    /// Declarations with their items, in their order.
    pub groups: Vec<Vec<Id>>,
    /// Trees that nobody uses.
    pub loose: Vec<Id>,
}

impl Draft {
    /// Makes a record with children in `a`, `b`, `c` where given.
    pub fn node(&mut self, record: Record, kids: [Option<Id>; 3]) -> Id {
        self.nodes.push(Node { record, kids });
        self.nodes.len() - 1
    }

    /// Makes a record without children.
    pub fn leaf(&mut self, record: Record) -> Id {
        self.node(record, [None; 3])
    }

    /// Starts a declaration.
    pub fn open(&mut self, declaration: Id) {
        self.groups.push(vec![declaration]);
    }

    /// Adds an item to the declaration started last.
    pub fn item(&mut self, item: Id) {
        if let Some(group) = self.groups.last_mut() {
            group.push(item);
        }
    }

    /// Records made so far.
    pub fn made(&self) -> usize {
        self.nodes.len()
    }

    /// Records of the tree under and with that one.
    fn weight(&self, id: Id) -> usize {
        1 + self.nodes[id].kids.iter().flatten().map(|&kid| self.weight(kid)).sum::<usize>()
    }

    /// Records of all groups and loose trees.
    pub fn total(&self) -> usize {
        self.groups.iter().flatten().chain(&self.loose).map(|&id| self.weight(id)).sum()
    }

    /// Drops loose trees, then items from the end, until no more than `room` records are left.
    pub fn trim(&mut self, room: usize) {
        let mut total = self.total();
        while total > room {
            if let Some(id) = self.loose.pop() {
                total -= self.weight(id);
                continue;
            }
            let Some(group) = self.groups.last_mut() else {
                return;
            };
            let Some(id) = group.pop() else {
                self.groups.pop();
                continue;
            };
            total -= self.weight(id);
        }
        self.groups.retain(|group| !group.is_empty());
    }

    /// Gives every record of a tree its key. A child's key is never above its parent's.
    fn place(&self, rng: &mut Rng, id: Id, key: u64, placing: Placing, keys: &mut Vec<(u64, Id)>) {
        keys.push((key, id));
        for &kid in self.nodes[id].kids.iter().flatten() {
            let below = match placing {
                Placing::Close => key,
                Placing::Front => 0,
                Placing::Spread(one_in) if rng.chance(one_in) => rng.below(key + 1),
                Placing::Spread(_) => key,
            };
            self.place(rng, kid, below, placing, keys);
        }
    }

    /// The order of all records: by key, and by identity within a key.
    fn order(&self, rng: &mut Rng, placing: Placing) -> Vec<Id> {
        let mut keys = Vec::new();
        let mut top = 0;
        for &id in self.groups.iter().flatten() {
            top += 1;
            self.place(rng, id, 2 * top + 1, placing, &mut keys);
        }
        for &id in &self.loose {
            let key = rng.below(2 * top + 3);
            self.place(rng, id, key, placing, &mut keys);
        }
        keys.sort_unstable();
        keys.into_iter().map(|(_, id)| id).collect()
    }

    /// The records in their order, children by number, with spans; and the number of each identity.
    pub fn finish(&self, rng: &mut Rng, placing: Placing, spans: Spans) -> (Vec<Record>, Vec<u16>) {
        let order = self.order(rng, placing);
        let mut number = vec![NONE; self.nodes.len()];
        let mut out = Vec::with_capacity(order.len());
        for (at, &id) in order.iter().enumerate() {
            number[id] = at as u16;
            let node = &self.nodes[id];
            let mut record = node.record;
            let fields = [&mut record.a, &mut record.b, &mut record.c];
            for (field, kid) in fields.into_iter().zip(node.kids) {
                if let Some(kid) = kid {
                    *field = number[kid];
                }
            }
            (record.offset, record.len) = span(rng, at, spans);
            out.push(record);
        }
        (out, number)
    }
}

/// The span of the record with that number.
fn span(rng: &mut Rng, at: usize, spans: Spans) -> (u32, u32) {
    match spans {
        Spans::Distinct => (1000 * at as u32 + rng.below(1000) as u32, rng.below(500) as u32),
        Spans::Random => (corner32(rng), corner32(rng)),
        Spans::Zero => (0, 0),
    }
}

/// Any 32 bits, corners often.
pub fn corner32(rng: &mut Rng) -> u32 {
    match rng.below(4) {
        0 => *rng.pick(&[0, 1, u32::MAX, u32::MAX - 1, 1 << 31, (1 << 31) - 1, 255, 256, 65_535, 65_536]),
        1 => rng.below(100) as u32,
        _ => rng.next() as u32,
    }
}

/// Any 64 bits, corners often.
pub fn corner64(rng: &mut Rng) -> u64 {
    match rng.below(4) {
        0 => *rng.pick(&[
            0,
            1,
            2,
            u64::MAX,
            u64::MAX - 1,
            1 << 63,
            (1 << 63) - 1,
            (1 << 63) + 1,
            (1 << 63) - 2,
            1 << 32,
            (1 << 32) - 1,
            65_535,
            65_536,
            255,
        ]),
        1 => rng.below(100),
        2 => rng.next() >> rng.below(64),
        _ => rng.next(),
    }
}
