//! Books with one fault: each field just outside its values, items that do not follow, names again, blocks.

use super::draft::NONE;
use super::{accepted, refused, Books, Draft, FULL};
use crate::rows::{self, Edge};
use books::{seal, Record};

/// A book that is accepted and has a record of this kind and sub, and that record's number.
fn sound(kind: u8, sub: u8) -> (Draft, u16) {
    let mut d = Draft::default();
    let at = put_sound(&mut d, kind, sub);
    (d, at)
}

/// Puts a record of this kind and sub with what it needs, and gives its number. The names 1 and 2 stay free.
pub fn put_sound(d: &mut Draft, kind: u8, sub: u8) -> u16 {
    match kind {
        1..=9 => {
            let at = sound_type(d, kind, sub);
            d.newtype(3, at);
            at
        }
        10..=12 => {
            let at = sound_expression(d, kind, sub);
            d.constant(3, at);
            at
        }
        13..=16 => sound_constraint(d, kind, sub),
        20..=25 => declare(d, kind),
        _ => sound_item(d, kind, sub),
    }
}

pub fn sound_type(d: &mut Draft, kind: u8, sub: u8) -> u16 {
    match kind {
        2 => d.put(2, sub, [7, 0, 0], 0),
        4 => d.named(3),
        5 => d.qualified(3, 4),
        6 => d.generic_u8(3),
        7 => {
            let t = d.u8();
            d.one(sub, t)
        }
        8 => {
            let (l, r) = (d.u8(), d.u8());
            d.put(8, sub, [l, r, 0], 0)
        }
        9 => d.put(9, 0, [NONE, 0, 0], 0),
        _ => d.put(kind, sub, [0; 3], 0),
    }
}

pub fn sound_expression(d: &mut Draft, kind: u8, sub: u8) -> u16 {
    match kind {
        10 => d.literal(sub, 1),
        11 => d.reference(9),
        _ => {
            let (l, r) = (d.int(1), d.int(2));
            d.operation(sub, l, r)
        }
    }
}

/// In a field of a message: a 13 over comparisons, a 14 or a 15 over operands, or a 16 under a 14.
fn sound_constraint(d: &mut Draft, kind: u8, sub: u8) -> u16 {
    d.message(3);
    let at = match kind {
        13 => {
            let l = comparison(d, 0);
            let r = if sub < 2 { comparison(d, 0) } else { 0 };
            d.put(13, sub, [l, r, 0], 0)
        }
        14 => comparison(d, sub),
        15 => range(d, sub),
        _ => d.put(16, sub, [if sub == 2 || sub == 5 { 6 } else { 0 }, 0, 0], 0),
    };
    let root = if kind == 16 { d.put(14, 0, [at, 0, 0], 0) } else { at };
    let t = d.u8();
    d.field(4, t, root);
    at
}

/// A 14 over an operand.
pub fn comparison(d: &mut Draft, sub: u8) -> u16 {
    let o = d.operand(5);
    d.put(14, sub, [o, 0, 0], 0)
}

/// A 15 over two operands.
pub fn range(d: &mut Draft, sub: u8) -> u16 {
    let (l, r) = (d.operand(5), d.operand(5));
    d.put(15, sub, [l, r, 0], 0)
}

fn sound_item(d: &mut Draft, kind: u8, sub: u8) -> u16 {
    let t = d.u8();
    match kind {
        30 => d.alias(3, t, &[4]) + 1,
        33 => {
            d.union(3);
            d.variant(4, 5)
        }
        32 | 36 => sound_tombstone(d, kind, sub),
        _ => sound_field(d, kind, sub, t),
    }
}

/// A 32 in a message, or with sub 1 in a union, or a 36 behind a 32 in a message.
fn sound_tombstone(d: &mut Draft, kind: u8, sub: u8) -> u16 {
    let of_union = kind == 32 && sub == 1;
    d.put(if of_union { 21 } else { 20 }, 0, [3, 0, 0], 0);
    let tombstone = d.tombstone(of_union as u8, NONE, 5);
    match kind {
        36 => d.put(36, sub, [6, 0, 0], 0),
        _ => tombstone,
    }
}

/// A 31, a 34 behind it, or a 35 behind a limit annotation.
fn sound_field(d: &mut Draft, kind: u8, sub: u8, t: u16) -> u16 {
    d.message(3);
    let field = d.field(4, t, NONE);
    match kind {
        34 => d.annotation(sub),
        35 => {
            d.annotation(3);
            d.argument(sub, NONE, 0)
        }
        _ => field,
    }
}

/// Each field of each row just outside its values, and kinds that there are none of.
pub fn edges(to: &mut Books) {
    for (kind, sub, edge, cause) in rows::edges() {
        let (mut d, at) = sound(kind, sub);
        assert_eq!((d.book.records[at as usize].kind, d.book.records[at as usize].sub), (kind, sub));
        assert_eq!(rows::first(&d.book.bytes()), None);
        let what = set(&mut d.book.records[at as usize], edge);
        to.add(format!("{cause}-kind-{kind}-{what}"), &d, refused(cause, at));
    }
    for kind in [0, 17, 18, 19, 26, 27, 28, 29, 37, 40, 255] {
        to.refuse(format!("4-kind-{kind}"), 4, |d| d.put(kind, 0, [0; 3], 0));
    }
}

/// Sets a field just outside its values, and gives the end of the book's name.
fn set(r: &mut Record, edge: Edge) -> String {
    let old = r.sub;
    match edge {
        Edge::Sub(sub) => {
            r.sub = sub;
            format!("sub-{sub}")
        }
        Edge::Abc(k, value) => {
            *[&mut r.a, &mut r.b, &mut r.c][k] = value;
            format!("{old}-{}-{value}", ["a", "b", "c"][k])
        }
        Edge::V(value) => {
            r.v = value;
            format!("{old}-v")
        }
    }
}

/// Records that another may stand behind: a name, kind and sub of each. `sound` puts 32 sub 1 and 33 in a union, and
/// other items of a body in a message.
const ENDS: [(&str, u8, u8); 15] = [
    ("nothing", 0, 0),
    ("20", 20, 0),
    ("21", 21, 0),
    ("22", 22, 0),
    ("23", 23, 0),
    ("24", 24, 0),
    ("25", 25, 0),
    ("30", 30, 0),
    ("31", 31, 0),
    ("32-0", 32, 0),
    ("32-1", 32, 1),
    ("33", 33, 0),
    ("34", 34, 0),
    ("35", 35, 0),
    ("36", 36, 0),
];

/// Kind and sub of each item, and the names of the ends that it may stand behind.
const ITEMS: [(u8, u8, &[&str]); 8] = [
    (30, 0, &["23", "30"]),
    (31, 0, &["20", "31", "32-0", "33", "34", "35", "36"]),
    (32, 0, &["20", "31", "32-0", "33", "34", "35", "36"]),
    (32, 1, &["21", "32-1", "33"]),
    (33, 0, &["21", "32-1", "33"]),
    (34, 0, &["20", "31", "34", "35"]),
    (35, 0, &["34", "35"]),
    (36, 0, &["32-0", "32-1", "36"]),
];

/// Each item behind each record that it may not stand behind, or in a declaration that has no such item.
pub fn follow_rule(to: &mut Books) {
    for (name, kind, sub) in ENDS {
        let end = if kind == 0 { Draft::default() } else { sound(kind, sub).0 };
        for (kind, sub, _) in ITEMS.iter().filter(|i| !i.2.contains(&name)) {
            let mut d = end.clone();
            let at = item(&mut d, *kind, *sub);
            to.add(format!("6-{kind}-{sub}-behind-{name}"), &d, refused(6, at));
        }
    }
}

/// An item whose fields are in order.
fn item(d: &mut Draft, kind: u8, sub: u8) -> u16 {
    let t = d.u8();
    let (abc, v) = match kind {
        31 => ([9, t, NONE], 1),
        32 => ([0, 0, NONE], 1),
        34 => ([0; 3], 0),
        _ => ([9, 0, 0], 0),
    };
    d.put(kind, sub, abc, v)
}

/// "20-23 share one set, 24 and 25 have one each": each declaration of a name behind each other one.
pub fn names_again(to: &mut Books) {
    for first in 20..=25 {
        for second in 20..=25 {
            let mut d = Draft::default();
            declare(&mut d, first);
            let at = declare(&mut d, second);
            let again = first == second || (first < 24 && second < 24);
            let results = |kind: u8| [1, 1, 2, 2, 2, 0][kind as usize - 20];
            let constants = (first == 24) as u32 + (second == 24) as u32;
            let apart = accepted(results(first) + results(second), 0, constants);
            to.add(format!("7-{second}-behind-{first}"), &d, if again { refused(7, at) } else { apart });
        }
    }
}

/// A declaration of the name 3.
fn declare(d: &mut Draft, kind: u8) -> u16 {
    match kind {
        22 | 23 => {
            let t = d.u8();
            d.put(kind, 0, [3, t, 0], 0)
        }
        24 => {
            let e = d.int(1);
            d.constant(3, e)
        }
        _ => d.put(kind, 0, [3, 0, 0], 0),
    }
}

/// A byte of a block of a book of two that is not as it should be: name, block, byte, value.
const BLOCK_BYTES: [(&str, usize, usize, u8); 15] = [
    ("3-number-1-in-block-0", 0, 0, 1),
    ("3-number-256-in-block-0", 0, 1, 1),
    ("3-number-0-in-block-1", 1, 0, 0),
    ("3-number-257-in-block-1", 1, 1, 1),
    ("3-count-20-in-block-0", 0, 2, 20),
    ("3-count-22-in-block-0", 0, 2, 22),
    ("3-count-0-in-block-1", 1, 2, 0),
    ("3-count-22-in-block-1", 1, 2, 22),
    ("3-byte-3-of-block-0", 0, 3, 2),
    ("3-byte-3-of-block-1", 1, 3, 1),
    ("3-unused-place", 1, 507, 1),
    ("3-byte-508-of-block-0", 0, 508, 1),
    ("3-byte-509-of-block-0", 0, 509, 255),
    ("3-byte-508-of-block-1", 1, 508, 128),
    ("3-byte-509-of-block-1", 1, 509, 1),
];

/// Causes 2 and 3: each byte that a block rule speaks of, and "2 before 3", "blocks upward", before any record.
pub fn blocks(to: &mut Books) {
    let mut d = Draft::default();
    (0..22).for_each(|_| {
        d.u8();
    });
    let sound = d.book.bytes();
    for (name, block, at, value) in BLOCK_BYTES {
        let mut bytes = sound.clone();
        bytes[512 * block + at] = value;
        let unsealed = bytes.clone();
        seal(&mut bytes, block);
        to.bytes(name, bytes, FULL, refused(3, block as u16));
        to.bytes(name.replacen('3', "2", 1), unsealed, FULL, refused(2, block as u16));
    }
    let mut bytes = sound;
    bytes[3] = 2;
    seal(&mut bytes, 0);
    bytes[512] = 9;
    to.bytes("3-before-a-later-2", bytes.clone(), FULL, refused(3, 0));
    bytes[3] = 0;
    bytes[4] = 99;
    seal(&mut bytes, 0);
    to.bytes("2-before-an-earlier-4", bytes, FULL, refused(2, 1));
}

/// A byte of a block of a book of 64 that is not as it should be: name, cause, block, byte, value.
const LATE_BYTES: [(&str, u8, usize, usize, u8); 4] = [
    ("2-block-63", 2, 63, 507, 1),
    ("3-number-block-63", 3, 63, 0, 62),
    ("3-byte-3-block-63", 3, 63, 3, 1),
    ("3-byte-508-block-40", 3, 40, 508, 1),
];

/// Puts the first records or the last one of a book of 64 blocks.
type End = fn(&mut Draft) -> u16;

/// A cause that the last record falls under: no such kind; a child that was used long before; a field in a union
/// without a variant; a name again.
const LATE_RECORDS: [(u8, End, End); 4] = [
    (4, |d| d.u8(), |d| d.put(99, 0, [0; 3], 0)),
    (5, array_of_u8, |d| d.one(0, 0)),
    (6, |d| d.union(3), |d| d.field(4, 1, NONE)),
    (7, |d| d.message(3), |d| d.union(3)),
];

fn array_of_u8(d: &mut Draft) -> u16 {
    d.arrays_u8(2)
}

/// 1,344 records; those between the ends are u8 that nothing uses.
fn longest(first: End, last: End) -> Draft {
    let mut d = Draft::default();
    first(&mut d);
    while d.book.records.len() < 1_343 {
        d.u8();
    }
    last(&mut d);
    d
}

/// Faults at the end of the longest book.
pub fn late(to: &mut Books) {
    let sound = longest(|d| d.u8(), |d| d.u8());
    to.add("64-blocks-unused", &sound, accepted(0, 0, 0));
    for (name, cause, block, at, value) in LATE_BYTES {
        let mut bytes = sound.book.bytes();
        bytes[512 * block + at] = value;
        if cause == 3 {
            seal(&mut bytes, block);
        }
        to.bytes(name, bytes, FULL, refused(cause, block as u16));
    }
    for (cause, first, last) in LATE_RECORDS {
        to.add(format!("{cause}-record-1343"), &longest(first, last), refused(cause, 1_343));
    }
}
