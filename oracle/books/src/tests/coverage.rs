//! What readable books reach.

use std::collections::{BTreeMap, BTreeSet, HashMap};

use crate::counting::marked;
use crate::layout::{Book, Record, NONE};
use crate::random::{readable, FULL};
use crate::rng::Rng;
use crate::shape::{field, group, pairs, shape, Field, Value};

/// That many readable books, one after the other.
fn books(seed: u64, count: usize) -> impl Iterator<Item = Book> {
    let mut rng = Rng::new(seed);
    (0..count).map(move |_| readable(&mut rng))
}

#[test]
fn every_kind_and_sub_is_common() {
    let mut counts: BTreeMap<(u8, u8), usize> = BTreeMap::new();
    for book in books(3, 3_000) {
        let met: BTreeSet<(u8, u8)> = book.records.iter().map(|r| (r.kind, r.sub)).collect();
        for pair in met {
            *counts.entry(pair).or_default() += 1;
        }
    }
    for pair in pairs() {
        assert!(counts.get(&pair).is_some_and(|&count| count >= 60), "{pair:?}");
    }
    assert_eq!(counts.len(), pairs().count());
}

#[test]
fn every_size_of_book_comes() {
    let sizes: Vec<usize> = books(7, 3_000).map(|book| book.records.len()).collect();
    let share = |low: usize, high: usize| sizes.iter().filter(|&&size| (low..=high).contains(&size)).count();
    assert!(share(1, 84) > 1_800);
    assert!(share(85, 420) > 300);
    assert!(share(421, 1_343) > 60);
    assert!(share(1_344, 1_344) > 15);
    assert!(share(1, 1) > 5);
    assert!(sizes.iter().filter(|&&size| size % 21 == 0).count() > 300);
}

/// The corners of a field.
fn corners(what: Field) -> &'static [u16] {
    match what {
        Field::Unused => &[0],
        Field::Name => &[0, 4_095],
        Field::NameOrNone => &[0, 4_095, NONE],
        Field::Text => &[0, 65_534],
        Field::TextOrNone => &[0, 65_534, NONE],
        Field::Bits => &[0, 255],
        Field::Any => &[0, 65_534, 65_535],
        Field::Flag => &[0, 1],
        Field::Child(_) => &[],
        Field::ChildOrNone(_) => &[NONE],
    }
}

/// The corners of a value.
fn value_corners(what: Value) -> &'static [u64] {
    match what {
        Value::Unused => &[0],
        Value::Any => &[0, 1, u64::MAX, u64::MAX - 1, 1 << 63, (1 << 63) - 1],
        Value::Bool => &[0, 1],
        Value::Ordinal => &[0, 0xFFFF_FFFF],
    }
}

#[test]
fn every_field_comes_to_its_corners() {
    let mut fields: BTreeSet<(u8, u8, usize, u16)> = BTreeSet::new();
    let mut values: BTreeSet<(u8, u8, u64)> = BTreeSet::new();
    let mut spans: BTreeSet<u32> = BTreeSet::new();
    for book in books(8, 12_000) {
        for mut r in book.records {
            for index in 0..3 {
                fields.insert((r.kind, r.sub, index, *field(&mut r, index)));
            }
            values.insert((r.kind, r.sub, r.v));
            spans.extend([r.offset, r.len]);
        }
    }
    for (kind, sub) in pairs() {
        let shape = shape(kind, sub).expect("a listed kind");
        for (index, &what) in shape.fields.iter().enumerate() {
            for &corner in corners(what) {
                let seen = fields.contains(&(kind, sub, index, corner));
                assert!(seen, "kind {kind} sub {sub} field {index}: {corner}");
            }
        }
        for &corner in value_corners(shape.v) {
            assert!(values.contains(&(kind, sub, corner)), "kind {kind} sub {sub}: {corner}");
        }
    }
    assert!(spans.contains(&0) && spans.contains(&u32::MAX));
}

/// The depth of every record.
fn depths(records: &[Record]) -> Vec<usize> {
    let mut out: Vec<usize> = Vec::new();
    for r in records {
        let shape = shape(r.kind, r.sub).expect("a readable book");
        let mut depth = 1;
        for (index, what) in shape.fields.into_iter().enumerate() {
            let child = *field(&mut r.clone(), index);
            if matches!(what, Field::Child(_) | Field::ChildOrNone(_)) && child != NONE {
                depth = depth.max(1 + out[usize::from(child)]);
            }
        }
        out.push(depth);
    }
    out
}

#[test]
fn trees_of_every_group_come_to_depth_64() {
    let mut counts: BTreeMap<u8, usize> = BTreeMap::new();
    for book in books(9, 3_000) {
        let depths = depths(&book.records);
        let deep = book.records.iter().zip(depths).filter(|&(r, depth)| depth == 64 && group(r.kind).is_some());
        let kinds: BTreeSet<u8> = deep.map(|(r, _)| r.kind).collect();
        for kind in kinds {
            *counts.entry(kind).or_default() += 1;
        }
    }
    for kind in [7, 8, 12, 13] {
        assert!(counts.get(&kind).is_some_and(|&count| count >= 10), "kind {kind}: {counts:?}");
    }
}

/// What lowering is to meet.
const MARKS: [&str; 47] = [
    "alias not yet there",
    "alias of a leaf",
    "alias of a number",
    "alias of a tree",
    "alias of poison",
    "alias, ambiguous",
    "bare generic",
    "constant not reached",
    "declared",
    "declared, ambiguous",
    "depth 64",
    "generic in a target",
    "head alias",
    "head alias of a generic",
    "head alias without number",
    "head declared or generic",
    "head poison alias",
    "head stub",
    "head unknown",
    "later parameter",
    "message 0",
    "message 0 for a generic",
    "message 1",
    "message 1 for a head",
    "message 2",
    "message 3",
    "message 3 in a target",
    "message 4",
    "message 4 in an argument",
    "message 5",
    "namespace alias",
    "namespace alias without number",
    "namespace declared",
    "namespace generic",
    "namespace poison alias",
    "namespace stub",
    "namespace unknown",
    "pair again",
    "parameter as head",
    "parameter as namespace",
    "parameter replaced",
    "parameter twice",
    "several constants",
    "stub",
    "stub again",
    "stub before alias in lookup",
    "stub for a later alias",
];

#[test]
fn lowering_meets_everything() {
    let mut counts: BTreeMap<&str, usize> = BTreeMap::new();
    for book in books(10, 3_000) {
        for mark in marked(book.wildcards, &book.records, FULL).1 {
            *counts.entry(mark).or_default() += 1;
        }
    }
    for mark in MARKS {
        assert!(counts.get(mark).is_some_and(|&count| count >= 20), "{mark}: {counts:?}");
    }
    assert_eq!(counts.len(), MARKS.len());
}

/// The names an expression refers to.
fn references(records: &[Record], at: u16) -> Vec<u16> {
    let r = records[usize::from(at)];
    match r.kind {
        11 => vec![r.a],
        12 => [references(records, r.a), references(records, r.b)].concat(),
        _ => Vec::new(),
    }
}

/// Whether there is a way of at most `steps` steps, at least one, between constants.
fn leads(graph: &HashMap<u16, Vec<u16>>, from: u16, to: u16, steps: usize) -> bool {
    let mut now: BTreeSet<u16> = BTreeSet::from([from]);
    for _ in 0..steps {
        now = now.iter().flat_map(|name| graph.get(name).cloned().unwrap_or_default()).collect();
        if now.contains(&to) {
            return true;
        }
    }
    false
}

/// What the constants of a book are like.
fn constant_marks(records: &[Record]) -> BTreeSet<&'static str> {
    let mut out = BTreeSet::new();
    let graph: HashMap<u16, Vec<u16>> =
        records.iter().filter(|r| r.kind == 24).map(|r| (r.a, references(records, r.c))).collect();
    for (&name, to) in &graph {
        let ring = (1..=6).find(|&steps| leads(&graph, name, name, steps));
        match ring {
            Some(1) => out.insert("ring of 1"),
            Some(2) => out.insert("ring of 2"),
            Some(_) => out.insert("longer ring"),
            None if to.iter().any(|&next| next != name && leads(&graph, next, next, 6)) => out.insert("into a ring"),
            None => false,
        };
        let distinct: BTreeSet<u16> = to.iter().copied().collect();
        for next in &distinct {
            let times = to.iter().filter(|other| *other == next).count();
            match (graph.contains_key(next), times) {
                (true, 1) => out.insert("declared once"),
                (true, _) => out.insert("declared twice"),
                (false, 1) => out.insert("undeclared once"),
                (false, _) => out.insert("undeclared twice"),
            };
        }
        for &one in &distinct {
            for &other in &distinct {
                let first = graph.get(&one).cloned().unwrap_or_default();
                let second = graph.get(&other).cloned().unwrap_or_default();
                if one < other && first.iter().any(|name| second.contains(name)) {
                    out.insert("diamond");
                }
            }
        }
    }
    out
}

#[test]
fn constants_come_in_every_shape() {
    let mut counts: BTreeMap<&str, usize> = BTreeMap::new();
    for book in books(11, 3_000) {
        for mark in constant_marks(&book.records) {
            *counts.entry(mark).or_default() += 1;
        }
    }
    let marks = [
        "ring of 1",
        "ring of 2",
        "longer ring",
        "into a ring",
        "declared once",
        "declared twice",
        "undeclared once",
        "undeclared twice",
        "diamond",
    ];
    for mark in marks {
        assert!(counts.get(mark).is_some_and(|&count| count >= 30), "{mark}: {counts:?}");
    }
}

/// Fields of a primitive type in messages with delta: the primitive, and the field's own varint, zigzag, delta.
fn delta_fields(records: &[Record]) -> BTreeSet<(u8, [bool; 3])> {
    let tops: Vec<Record> = records.iter().filter(|r| r.kind >= 20).copied().collect();
    let mut out = BTreeSet::new();
    let (mut message, mut delta) = (false, false);
    for (at, r) in tops.iter().enumerate() {
        let own: Vec<u8> = tops[at + 1..]
            .iter()
            .take_while(|r| matches!(r.kind, 34 | 35))
            .filter(|r| r.kind == 34)
            .map(|r| r.sub)
            .collect();
        match r.kind {
            20..=25 => {
                message = r.kind == 20;
                delta = own.contains(&2);
            }
            31 if message && delta => {
                let child = records[usize::from(r.b)];
                if child.kind == 1 {
                    out.insert((child.sub, [0, 1, 2].map(|sub| own.contains(&sub))));
                }
            }
            _ => {}
        }
    }
    out
}

#[test]
fn delta_meets_every_primitive_and_encoding() {
    let met: BTreeSet<_> = books(12, 12_000).flat_map(|book| delta_fields(&book.records)).collect();
    assert_eq!(met.len(), 14 * 8);
}
