//! Causes 1 to 8 as rows of a table: what each kind's fields may be, and for each cause a test of one record against
//! those before it. Written beside the model and apart from it, so that each is a check of the other.

use books::Record;
use std::collections::HashSet;

const NONE: u16 = 65_535;

#[derive(Clone, Copy, PartialEq, Eq)]
enum Group {
    Type,
    Expression,
    Constraint,
    Operand,
}

fn group(kind: u8) -> Option<Group> {
    match kind {
        1..=9 => Some(Group::Type),
        10..=12 => Some(Group::Expression),
        13..=15 => Some(Group::Constraint),
        16 => Some(Group::Operand),
        _ => None,
    }
}

/// What *a*, *b* or *c* may be.
#[derive(Clone, Copy)]
enum Field {
    Zero,
    Any,
    Byte,
    Flag,
    Name,
    NameOrNone,
    Text,
    TextOrNone,
    Child(Group),
    ChildOrNone(Group),
}
use Field::{Any, Byte, Child, ChildOrNone, Flag, Name, NameOrNone, Text, TextOrNone, Zero};

/// What *v* may be.
#[derive(Clone, Copy)]
enum Value {
    Unused,
    Free,
    Bool,
    Ordinal,
}
use Value::{Bool, Free, Ordinal, Unused};

const TYPE: Field = Child(Group::Type);
const EXPRESSION: Field = Child(Group::Expression);
const CONSTRAINT: Field = Child(Group::Constraint);
const OPERAND: Field = Child(Group::Operand);

/// Kind, first and last sub, then *a*, *b*, *c* and *v*.
#[rustfmt::skip]
const ROWS: [(u8, u8, u8, Field, Field, Field, Value); 38] = [
    (1, 0, 13, Zero, Zero, Zero, Unused),
    (2, 0, 1, Byte, Zero, Zero, Unused),
    (3, 0, 5, Zero, Zero, Zero, Unused),
    (4, 0, 0, Name, Zero, Zero, Unused),
    (5, 0, 0, Name, Name, Zero, Unused),
    (6, 0, 0, Name, TYPE, Zero, Unused),
    (7, 0, 1, TYPE, Zero, Zero, Unused),
    (7, 2, 2, TYPE, Zero, Zero, Free),
    (7, 3, 9, TYPE, Zero, Zero, Unused),
    (8, 0, 1, TYPE, TYPE, Zero, Unused),
    (9, 0, 0, Any, Zero, Zero, Unused),
    (10, 0, 3, Zero, Zero, Zero, Free),
    (10, 4, 4, Zero, Zero, Zero, Bool),
    (11, 0, 0, Name, Zero, Zero, Unused),
    (12, 0, 9, EXPRESSION, EXPRESSION, Zero, Unused),
    (13, 0, 1, CONSTRAINT, CONSTRAINT, Zero, Unused),
    (13, 2, 2, CONSTRAINT, Zero, Zero, Unused),
    (14, 0, 5, OPERAND, Zero, Flag, Unused),
    (15, 0, 1, OPERAND, OPERAND, Flag, Unused),
    (16, 0, 1, Zero, Zero, Zero, Free),
    (16, 2, 2, Text, Zero, Zero, Unused),
    (16, 3, 3, Zero, Zero, Zero, Bool),
    (16, 4, 4, Zero, Zero, Zero, Free),
    (16, 5, 5, Name, Zero, Zero, Unused),
    (20, 0, 0, Name, Zero, Zero, Unused),
    (21, 0, 0, Name, Zero, Zero, Unused),
    (22, 0, 0, Name, TYPE, Zero, Unused),
    (23, 0, 0, Name, TYPE, Zero, Unused),
    (24, 0, 0, Name, TYPE, EXPRESSION, Unused),
    (25, 0, 0, Name, Zero, Zero, Unused),
    (30, 0, 0, Name, Zero, Zero, Unused),
    (31, 0, 0, Name, TYPE, ChildOrNone(Group::Constraint), Ordinal),
    (32, 0, 1, Zero, Zero, ChildOrNone(Group::Type), Ordinal),
    (33, 0, 0, Name, Zero, Zero, Ordinal),
    (34, 0, 4, Zero, Zero, Zero, Unused),
    (35, 0, 1, NameOrNone, Zero, Zero, Free),
    (35, 2, 2, NameOrNone, Zero, Zero, Unused),
    (36, 0, 2, TextOrNone, Zero, Zero, Unused),
];

fn within(f: Field, n: u16) -> bool {
    match f {
        Zero => n == 0,
        Any | Child(_) | ChildOrNone(_) | TextOrNone => true,
        Byte => n < 256,
        Flag => n < 2,
        Name => n < 4_096,
        NameOrNone => n < 4_096 || n == NONE,
        Text => n != NONE,
    }
}

fn allowed(value: Value, v: u64) -> bool {
    match value {
        Unused => v == 0,
        Free => true,
        Bool => v < 2,
        Ordinal => v < 1 << 32,
    }
}

/// A value just outside what a field may be, and the cause that it falls under.
#[derive(Clone, Copy)]
pub enum Edge {
    Sub(u8),
    Abc(usize, u16),
    V(u64),
}

/// For each row, each of its fields just outside its values: kind and sub of the row, the edge, the cause.
pub fn edges() -> Vec<(u8, u8, Edge, u8)> {
    let mut all = Vec::new();
    for (i, row) in ROWS.iter().enumerate() {
        let (kind, sub) = (row.0, row.1);
        if ROWS.get(i + 1).is_none_or(|next| next.0 != kind) {
            all.push((kind, sub, Edge::Sub(row.2 + 1), 4));
        }
        for (k, f) in [row.3, row.4, row.5].into_iter().enumerate() {
            let (values, cause): (&[u16], u8) = match f {
                Zero => (&[1], 4),
                Byte => (&[256], 4),
                Flag => (&[2], 4),
                Name => (&[4_096, NONE], 4),
                NameOrNone => (&[4_096, 65_534], 4),
                Text => (&[NONE], 4),
                Any | TextOrNone => (&[], 4),
                Child(_) => (&[1_343, NONE], 5),
                ChildOrNone(_) => (&[1_343], 5),
            };
            all.extend(values.iter().map(|v| (kind, sub, Edge::Abc(k, *v), cause)));
        }
        match row.6 {
            Unused => all.push((kind, sub, Edge::V(1), 4)),
            Free => {}
            Bool => all.push((kind, sub, Edge::V(2), 4)),
            Ordinal => all.push((kind, sub, Edge::V(1 << 32), 4)),
        }
    }
    all
}

/// The fields of a record's row.
fn fields(r: &Record) -> Option<([(Field, u16); 3], Value)> {
    let row = ROWS.iter().find(|row| row.0 == r.kind && row.1 <= r.sub && r.sub <= row.2)?;
    Some(([(row.3, r.a), (row.4, r.b), (row.5, r.c)], row.6))
}

/// Cause 4.
fn outside(r: &Record) -> bool {
    match fields(r) {
        Some((all, value)) => !all.iter().all(|(f, n)| within(*f, *n)) || !allowed(value, r.v),
        None => true,
    }
}

/// Which of *a*, *b* and *c* is a child.
pub fn child_fields(r: &Record) -> [bool; 3] {
    let all = fields(r).map(|x| x.0).unwrap_or([(Zero, 0); 3]);
    all.map(|(f, _)| matches!(f, Child(_) | ChildOrNone(_)))
}

fn children(r: &Record) -> Vec<u16> {
    wanted(r).into_iter().map(|(k, _)| k).collect()
}

/// The children of a record, each with the group that it must be of.
fn wanted(r: &Record) -> Vec<(u16, Group)> {
    let all = fields(r).map(|x| x.0).unwrap_or([(Zero, 0); 3]);
    all.iter()
        .filter_map(|(f, n)| match f {
            Child(g) => Some((*n, *g)),
            ChildOrNone(g) if *n != NONE => Some((*n, *g)),
            _ => None,
        })
        .collect()
}

/// Cause 5: `used` holds the children of all records before.
fn child_fault(records: &[Record], at: usize, used: &HashSet<u16>) -> bool {
    let all = wanted(&records[at]);
    let fault =
        |(k, g): &(u16, Group)| *k as usize >= at || group(records[*k as usize].kind) != Some(*g) || used.contains(k);
    all.iter().any(fault) || (all.len() == 2 && all[0].0 == all[1].0)
}

/// Cause 6. `before`: the kinds, 20 and up, of the records before, with their subs, the latest last.
fn follow_fault(before: &[(u8, u8)], r: &Record) -> bool {
    let last = before.last().map_or(0, |x| x.0);
    let start = before.iter().rposition(|x| x.0 < 30);
    let body = &before[start.unwrap_or(before.len())..];
    let declaration = body.first().map_or(0, |x| x.0);
    let variant = body.iter().rposition(|x| x.0 == 33);
    let open = variant.is_some_and(|v| !body[v..].contains(&(32, 1)));
    let allowed = match (r.kind, r.sub) {
        (0..=29, _) => true,
        (30, _) => last == 23 || last == 30,
        (31, _) | (32, 0) => declaration == 20 || (declaration == 21 && open),
        (32, _) | (33, _) => declaration == 21,
        (34, _) => [20, 31, 34, 35].contains(&last),
        (35, _) => [34, 35].contains(&last),
        _ => [32, 36].contains(&last),
    };
    !allowed
}

/// Cause 7: the set that a declaration's name goes into.
fn set(kind: u8) -> Option<u8> {
    match kind {
        20..=23 => Some(20),
        24 | 25 => Some(kind),
        _ => None,
    }
}

/// Causes 4 to 8: the first record that falls under one.
fn records_fault(records: &[Record]) -> Option<(u8, u32)> {
    let mut used = HashSet::new();
    let mut names = HashSet::new();
    let mut before = Vec::new();
    let mut depths: Vec<u32> = Vec::new();
    for (at, r) in records.iter().enumerate() {
        let refused = |cause| Some((cause, at as u32));
        if outside(r) {
            return refused(4);
        }
        if child_fault(records, at, &used) {
            return refused(5);
        }
        if follow_fault(&before, r) {
            return refused(6);
        }
        if set(r.kind).is_some_and(|s| !names.insert((s, r.a))) {
            return refused(7);
        }
        let below = children(r).iter().map(|k| depths[*k as usize]).max().unwrap_or(0);
        depths.push(1 + below);
        if r.kind < 20 && below >= 64 {
            return refused(8);
        }
        used.extend(children(r));
        if r.kind >= 20 {
            before.push((r.kind, r.sub));
        }
    }
    None
}

/// Cause 2. Adds up without folding: the sum of 255 words and the last one is a multiple of 65,535.
fn check_fault(block: &[u8]) -> bool {
    let word = |w: &[u8]| u32::from(w[0]) << 8 | u32::from(w[1]);
    let sum: u32 = block[..510].chunks(2).map(word).sum();
    let left = if sum == 0 { 0 } else { (sum - 1) % 65_535 + 1 };
    left + word(&block[510..]) != 65_535
}

/// Cause 3.
fn block_fault(number: usize, last: bool, block: &[u8]) -> bool {
    let count = block[2] as usize;
    let counted = if last { (1..=21).contains(&count) } else { count == 21 };
    let third = if number == 0 { block[3] <= 1 } else { block[3] == 0 };
    let numbered = block[0] as usize + 256 * block[1] as usize == number;
    let zero = |s: &[u8]| s.iter().all(|b| *b == 0);
    !(numbered && counted && third && zero(&block[508..510]) && zero(&block[4 + 24 * count.min(21)..508]))
}

/// The first of causes 1 to 8, by number and place.
pub fn first(book: &[u8]) -> Option<(u8, u32)> {
    if book.is_empty() || book.len() > 32_768 || !book.len().is_multiple_of(512) {
        return Some((1, 0));
    }
    let blocks = book.len() / 512;
    let mut records = Vec::new();
    for (n, block) in book.chunks(512).enumerate() {
        if check_fault(block) {
            return Some((2, n as u32));
        }
        if block_fault(n, n + 1 == blocks, block) {
            return Some((3, n as u32));
        }
        let count = block[2] as usize;
        records.extend(block[4..].chunks(24).take(count).map(Record::read));
    }
    records_fault(&records)
}
