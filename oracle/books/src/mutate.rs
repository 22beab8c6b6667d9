//! Changes of a book's records that a fuzzer makes: children move along, so that most of a book stays readable.

use crate::layout::{Book, Record, MOST_RECORDS, NONE};
use crate::rng::Rng;
use crate::shape::{field, group, shape, Field, Group, Value, KINDS};

/// Some changes, one after the other.
pub fn mutate(book: &mut Book, rng: &mut Rng) {
    for _ in 0..1 + rng.below(4) {
        change(book, rng);
    }
}

fn change(book: &mut Book, rng: &mut Rng) {
    let records = &mut book.records;
    if records.is_empty() {
        records.push(Record { kind: 1, ..Record::default() });
    }
    let at = rng.below(records.len() as u64) as usize;
    match rng.below(9) {
        0..=2 => set_field(records, at, rng),
        3 => set_value(&mut records[at], rng),
        4 => set_kind(&mut records[at], rng),
        5 => insert(records, at, rng),
        6 => remove(records, at),
        7 => again(records, at, rng),
        _ => book.wildcards ^= rng.chance(2),
    }
}

/// One of `a`, `b` and `c`: mostly something that may stand there.
fn set_field(records: &mut [Record], at: usize, rng: &mut Rng) {
    let which = rng.below(3) as usize;
    let wanted = shape(records[at].kind, records[at].sub).map_or(Field::Any, |s| s.fields[which]);
    let (other, small, any) = (*rng.pick(records), rng.below(12) as u16, rng.next() as u16);
    let value = match wanted {
        Field::Child(g) | Field::ChildOrNone(g) => earlier(records, at, g, rng),
        Field::Name | Field::NameOrNone => *rng.pick(&[other.a, other.b, small, 4_095]),
        _ => *rng.pick(&[0, 1, small, 255, NONE, NONE - 1]),
    };
    let near = field(&mut records[at], which);
    *near = match rng.below(12) {
        0 => near.wrapping_add(1),
        1 => near.wrapping_sub(1),
        2 => any,
        _ => value,
    };
}

/// A record of that group before `at`; none where there is none.
fn earlier(records: &[Record], at: usize, wanted: Group, rng: &mut Rng) -> u16 {
    let of: Vec<usize> = (0..at).filter(|&i| group(records[i].kind) == Some(wanted)).collect();
    match of.len() {
        0 => NONE,
        n => of[if rng.chance(2) { n - 1 } else { rng.below(n as u64) as usize }] as u16,
    }
}

fn set_value(record: &mut Record, rng: &mut Rng) {
    let any = rng.next();
    let edge = *rng.pick(&[0, 1, 2, 63, 64, i64::MAX as u64, i64::MIN as u64, u64::MAX, 1 << 32, (1 << 32) - 1, any]);
    let bit = 1 << rng.below(64);
    let near = *rng.pick(&[record.v.wrapping_add(1), record.v.wrapping_sub(1), record.v ^ bit]);
    record.v = match shape(record.kind, record.sub).map(|s| s.v) {
        Some(Value::Bool) => rng.below(3),
        _ if rng.chance(3) => near,
        _ => edge,
    };
    if rng.chance(4) {
        (record.offset, record.len) = (rng.next() as u32, rng.next() as u32);
    }
}

/// Another sub of the kind, or another kind.
fn set_kind(record: &mut Record, rng: &mut Rng) {
    if rng.chance(2) {
        record.kind = rng.pick(&KINDS).0;
    }
    let subs = KINDS.iter().find(|k| k.0 == record.kind).map_or(1, |k| k.1);
    let past = rng.below(2);
    record.sub = rng.below(u64::from(subs) + past) as u8;
}

/// Children from `from` on move by so many places.
fn shift(records: &mut [Record], from: usize, by: i32) {
    for r in records {
        let fields = shape(r.kind, r.sub).map_or([Field::Unused; 3], |s| s.fields);
        for (which, what) in fields.into_iter().enumerate() {
            let child = field(r, which);
            if matches!(what, Field::Child(_) | Field::ChildOrNone(_)) && *child != NONE && usize::from(*child) >= from
            {
                *child = (i32::from(*child) + by).clamp(0, i32::from(NONE)) as u16;
            }
        }
    }
}

/// A record more: a leaf, or a copy of another.
fn insert(records: &mut Vec<Record>, at: usize, rng: &mut Rng) {
    if records.len() >= MOST_RECORDS {
        return;
    }
    let (kind, subs) = *rng.pick(&KINDS);
    let mut new = *rng.pick(records);
    if rng.chance(2) {
        new = Record { kind, sub: rng.below(subs.into()) as u8, a: rng.below(12) as u16, ..Record::default() };
    }
    let at = at + rng.below(2) as usize;
    shift(records, at, 1);
    records.insert(at, new);
}

fn remove(records: &mut Vec<Record>, at: usize) {
    records.remove(at);
    shift(records, at + 1, -1);
}

/// Some records in a row once more at the end, with other names for what they declare.
fn again(records: &mut Vec<Record>, at: usize, rng: &mut Rng) {
    let end = records.len().min(at + 1 + rng.below(24) as usize);
    let mut copy = records[at..end].to_vec();
    shift(&mut copy, at, (records.len() - at) as i32);
    let more = rng.below(40) as u16;
    copy.iter_mut().filter(|r| (20..26).contains(&r.kind)).for_each(|r| r.a = r.a.wrapping_add(more) % 4_096);
    records.extend(copy);
    records.truncate(MOST_RECORDS);
}
