//! Causes 9 and 10, in books whose lowering is plain.

use super::Case;
use crate::layout::{Book, Record, NONE, RECORD};
use crate::random::{Id, Maker, Placing, Spans, FULL};
use crate::rng::Rng;

/// Where a type is used.
#[derive(Clone, Copy, PartialEq, Eq)]
pub enum User {
    Alias,
    Constant,
    Newtype,
    Field,
    Tombstone,
}

/// A newtype.
fn newtype(m: &mut Maker, child: Id) -> Id {
    let a = m.fresh_name();
    let id = m.draft.node(Record { kind: 22, a, ..Record::default() }, [None, Some(child), None]);
    m.draft.open(id);
    id
}

/// A plain alias.
fn alias(m: &mut Maker, child: Id) -> Id {
    let a = m.fresh_name();
    let id = m.draft.node(Record { kind: 23, a, ..Record::default() }, [None, Some(child), None]);
    m.draft.open(id);
    id
}

/// A constant with a value.
fn constant(m: &mut Maker, child: Id) -> Id {
    let a = m.fresh_name();
    let v = m.rng.below(100);
    let value = m.leaf(10, 0, 0, 0, v);
    let id = m.draft.node(Record { kind: 24, a, ..Record::default() }, [None, Some(child), Some(value)]);
    m.draft.open(id);
    id
}

/// A message or union without items.
fn body(m: &mut Maker, kind: u8) -> Id {
    let a = m.fresh_name();
    let id = m.leaf(kind, 0, a, 0, 0);
    m.draft.open(id);
    id
}

/// A field without constraint.
fn field(m: &mut Maker, child: Id) -> Id {
    let record = Record { kind: 31, a: m.rng.below(4_096) as u16, c: NONE, v: 3, ..Record::default() };
    let id = m.draft.node(record, [None, Some(child), None]);
    m.draft.item(id);
    id
}

/// A tombstone.
fn tombstone(m: &mut Maker, sub: u8, child: Option<Id>) -> Id {
    let c = if child.is_some() { 0 } else { NONE };
    let id = m.draft.node(Record { kind: 32, sub, c, v: 4, ..Record::default() }, [None, None, child]);
    m.draft.item(id);
    id
}

/// A variant.
fn variant(m: &mut Maker) -> Id {
    let a = m.rng.below(4_096) as u16;
    let id = m.leaf(33, 0, a, 0, 1);
    m.draft.item(id);
    id
}

/// Uses a type. Gives the declaration or item, and the results that are written before its type.
fn used(m: &mut Maker, user: User, child: Id) -> (Id, usize) {
    match user {
        User::Alias => (alias(m, child), 0),
        User::Constant => (constant(m, child), 0),
        User::Newtype => (newtype(m, child), 0),
        User::Field if m.rng.chance(2) => {
            body(m, 21);
            variant(m);
            (field(m, child), 2)
        }
        User::Field => {
            body(m, 20);
            (field(m, child), 1)
        }
        User::Tombstone if m.rng.chance(2) => {
            body(m, 21);
            (tombstone(m, 1, Some(child)), 1)
        }
        User::Tombstone => {
            body(m, 20);
            (tombstone(m, 0, Some(child)), 1)
        }
    }
}

/// The bytes of a draft, and the number of that record.
fn finished(m: &mut Maker, wildcards: bool, id: Id) -> (Vec<u8>, u32) {
    let placing = *m.rng.pick(&[Placing::Close, Placing::Front, Placing::Spread(2)]);
    let (records, numbers) = m.draft.finish(m.rng, placing, Spans::Distinct);
    (Book { wildcards, records }.bytes(), u32::from(numbers[id]))
}

/// Lent lengths of the limits or above.
fn ample(rng: &mut Rng) -> (usize, usize) {
    (FULL.0 + *rng.pick(&[0, 0, 1, 48]), FULL.1 + *rng.pick(&[0, 0, 24, 48]))
}

/// Resolving that takes exactly 65 steps, alone in a slice that is just long enough, or among newtypes. Later in the
/// order of lowering there may be another.
pub fn steps(rng: &mut Rng, user: User) -> Case {
    let wildcards = rng.chance(2);
    let alone = rng.chance(3);
    let mut m = Maker::blank(rng);
    let child = m.stepped(65);
    let (id, before) = used(&mut m, user, child);
    if !alone {
        for _ in 0..m.rng.below(5) {
            let child = m.primitive();
            newtype(&mut m, child);
        }
        let later = matches!(user, User::Alias | User::Constant) && m.rng.chance(3);
        if later {
            let child = m.stepped(65);
            newtype(&mut m, child);
        }
        m.rng.shuffle(&mut m.draft.groups);
    }
    let (bytes, place) = finished(&mut m, wildcards, id);
    let lengths = if alone { (before * RECORD + rng.between(0, 23), rng.between(0, 30)) } else { ample(rng) };
    Case { bytes, lengths: Some(lengths), expected: Some((9, place)) }
}

/// Two children, one too deep and one plain, and no room for the plain one: the left one decides.
fn too_deep_beside(rng: &mut Rng, deep_first: bool) -> Case {
    let mut m = Maker::blank(rng);
    let unknown = m.rng.chance(2);
    let deep = m.stepped(64);
    let plain = if unknown { m.named(3_010) } else { m.primitive() };
    let child = if deep_first { m.two_children(deep, plain) } else { m.two_children(plain, deep) };
    let user = *m.rng.pick(&[User::Alias, User::Constant, User::Newtype, User::Field, User::Tombstone]);
    let (id, before) = used(&mut m, user, child);
    let (bytes, place) = finished(&mut m, false, id);
    let ample = ample(rng);
    // An unknown name says so before its record is written.
    let lengths = if unknown && rng.chance(2) { (ample.0, 0) } else { (before * RECORD, ample.1) };
    let cause = if deep_first { 9 } else { 10 };
    Case { bytes, lengths: Some(lengths), expected: Some((cause, place)) }
}

pub fn deep_before_full(rng: &mut Rng) -> Case {
    too_deep_beside(rng, true)
}

pub fn full_before_deep(rng: &mut Rng) -> Case {
    too_deep_beside(rng, false)
}

/// A ring of generics.
pub fn ring(rng: &mut Rng) -> Case {
    let wildcards = rng.chance(2);
    let mut m = Maker::blank(rng);
    let length = m.rng.between(1, 5);
    let names: Vec<u16> = (0..length).map(|_| m.fresh_name()).collect();
    for at in 0..length {
        let argument = if m.rng.chance(2) { m.named(3_000) } else { m.primitive() };
        let mut target = m.generic(names[(at + 1) % length], argument);
        if m.rng.chance(2) {
            target = m.one_child(target);
        }
        m.alias(names[at], target);
        let param = m.leaf(30, 0, 3_000, 0, 0);
        m.draft.item(param);
    }
    let argument = m.primitive();
    let child = m.generic(names[0], argument);
    let user = *m.rng.pick(&[User::Alias, User::Constant, User::Newtype, User::Field, User::Tombstone]);
    let (id, before) = used(&mut m, user, child);
    m.rng.shuffle(&mut m.draft.groups);
    let (bytes, place) = finished(&mut m, wildcards, id);
    let lengths = if rng.chance(3) { (before * RECORD + rng.between(0, 23), 0) } else { ample(rng) };
    Case { bytes, lengths: Some(lengths), expected: Some((9, place)) }
}

/// What lowering writes, in its order: counts of results with the record lowered.
type Events = Vec<(usize, Id)>;

/// A number of records below what is written: mostly one short, sometimes any.
fn short(rng: &mut Rng, events: &Events) -> usize {
    let all: usize = events.iter().map(|event| event.0).sum();
    if rng.chance(2) {
        all - 1
    } else {
        rng.between(0, all - 1)
    }
}

/// The record being lowered when one more than `room` is written.
fn overflows(events: &Events, room: usize) -> Id {
    let mut sum = 0;
    for &(count, id) in events {
        sum += count;
        if sum > room {
            return id;
        }
    }
    unreachable!("everything fits")
}

/// The case of a results slice that is too short for these events.
fn results(mut m: Maker, events: Events) -> Case {
    let room = short(m.rng, &events).min(2_047);
    let (bytes, place) = finished(&mut m, false, overflows(&events, room));
    let lengths = (room * RECORD + m.rng.between(0, 23), ample(m.rng).1);
    Case { bytes, lengths: Some(lengths), expected: Some((10, place)) }
}

pub fn newtypes(rng: &mut Rng) -> Case {
    let mut m = Maker::blank(rng);
    let count = m.rng.between(1, 30);
    let events = (0..count)
        .map(|_| {
            let child = m.primitive();
            (2, newtype(&mut m, child))
        })
        .collect();
    results(m, events)
}

pub fn constants(rng: &mut Rng) -> Case {
    let mut m = Maker::blank(rng);
    let count = m.rng.between(1, 20);
    let events = (0..count)
        .map(|_| {
            let child = m.primitive();
            (2, constant(&mut m, child))
        })
        .collect();
    results(m, events)
}

/// A message or union with fields, variants and tombstones without type.
pub fn items(rng: &mut Rng) -> Case {
    let mut m = Maker::blank(rng);
    let kind = m.rng.between(20, 21) as u8;
    let mut events = vec![(1, body(&mut m, kind))];
    if kind == 21 {
        events.push((1, variant(&mut m)));
    }
    for _ in 0..m.rng.below(20) {
        let event = match m.rng.below(3) {
            0 if kind == 21 => (1, variant(&mut m)),
            1 => (1, tombstone(&mut m, 0, None)),
            _ => {
                let child = m.primitive();
                (3, field(&mut m, child))
            }
        };
        events.push(event);
    }
    results(m, events)
}

/// Newtypes first in the book, plain aliases first in lowering.
pub fn aliases_first(rng: &mut Rng) -> Case {
    let mut m = Maker::blank(rng);
    let mut newtypes = Events::new();
    let mut aliases = Events::new();
    for _ in 0..m.rng.between(2, 20) {
        let child = m.primitive();
        if m.rng.chance(2) {
            newtypes.push((2, newtype(&mut m, child)));
        } else {
            aliases.push((2, alias(&mut m, child)));
        }
    }
    aliases.append(&mut newtypes);
    results(m, aliases)
}

/// Copies of an alias: the full limit is met, or a shorter slice.
pub fn copies(rng: &mut Rng) -> Case {
    let mut m = Maker::blank(rng);
    let size = m.rng.between(20, 64);
    let mut child = m.primitive();
    for _ in 1..size {
        child = m.one_child(child);
    }
    let id = alias(&mut m, child);
    let name = *m.plan.pool.last().expect("the alias has a name");
    let mut events = vec![(size + 1, id)];
    let full = m.rng.chance(2);
    let count = if full { 2_048 / (size + 1) + m.rng.between(0, 3) } else { m.rng.between(1, 10) };
    for _ in 0..count {
        let child = m.named(name);
        events.push((size + 1, newtype(&mut m, child)));
    }
    let all: usize = events.iter().map(|event| event.0).sum();
    if !full || all <= 2_048 {
        return results(m, events);
    }
    let (bytes, place) = finished(&mut m, false, overflows(&events, 2_048));
    Case { bytes, lengths: Some(ample(m.rng)), expected: Some((10, place)) }
}

/// Newtypes over unknown names: a diagnostic each, and two results.
fn unknown_newtypes(m: &mut Maker, count: usize) -> Vec<Id> {
    (0..count)
        .map(|_| {
            let name = 3_000 + m.rng.below(100) as u16;
            let child = m.named(name);
            newtype(m, child)
        })
        .collect()
}

pub fn diagnostics(rng: &mut Rng) -> Case {
    let mut m = Maker::blank(rng);
    let count = m.rng.between(1, 30);
    let all = unknown_newtypes(&mut m, count);
    let room = if m.rng.chance(2) { count - 1 } else { m.rng.between(0, count - 1) };
    let (bytes, place) = finished(&mut m, false, all[room]);
    let lengths = (ample(m.rng).0, room * RECORD + m.rng.between(0, 23));
    Case { bytes, lengths: Some(lengths), expected: Some((10, place)) }
}

pub fn diagnostics_full(rng: &mut Rng) -> Case {
    let mut m = Maker::blank(rng);
    let count = m.rng.between(257, 280);
    let all = unknown_newtypes(&mut m, count);
    let (bytes, place) = finished(&mut m, false, all[256]);
    Case { bytes, lengths: Some(ample(m.rng)), expected: Some((10, place)) }
}

/// Both slices too short: whichever is met first.
pub fn both(rng: &mut Rng) -> Case {
    let mut m = Maker::blank(rng);
    let count = m.rng.between(2, 30);
    let all = unknown_newtypes(&mut m, count);
    let said = m.rng.between(0, count - 1);
    let written = m.rng.between(0, 2 * count - 1);
    let (bytes, place) = finished(&mut m, false, all[said.min(written / 2)]);
    let lengths = (written * RECORD + m.rng.between(0, 23), said * RECORD + m.rng.between(0, 23));
    Case { bytes, lengths: Some(lengths), expected: Some((10, place)) }
}
