//! What [`Results::new`] and [`Diagnostics::new`] turn back: bytes of the right form with one thing wrong.

mod common;

use common::{bytes, Plain};
use signal_book::{Diagnostics, Results, NONE};

/// The highest ordinal and type number.
const HIGHEST: u64 = u32::MAX as u64;

/// Results as a lowering could write them, with every kind, and fields as high as they may be.
fn results() -> Vec<Plain> {
    let record = Plain::new;
    vec![
        record(1, 13, [0; 3], 0),
        record(7, 9, [0, 0, 0], 0),
        record(40, 0, [4095, 1, 0], 0),
        record(2, 1, [255, 0, 0], 0), // 3
        record(3, 5, [0; 3], 0),
        record(8, 1, [3, 4, 0], 0),
        record(40, 0, [2, 5, 0], 0),
        record(9, 0, [65_535, 0, 0], 0), // 7
        record(41, 1, [4095, 7, 0], u64::MAX),
        record(42, 0, [4095, 0, 0], 0), // 9
        record(4, 0, [0; 3], HIGHEST),
        record(16, 5, [4095, 0, 0], 0), // 11
        record(14, 5, [11, 0, 1], 0),
        record(13, 2, [12, 0, 0], 0),
        record(16, 2, [4095, 0, 0], 0), // 14
        record(16, 3, [0; 3], 1),
        record(15, 1, [14, 15, 1], 0),
        record(13, 1, [13, 16, 0], 0), // 17
        record(45, 0, [4095, 10, 17], HIGHEST),
        record(46, 2, [1, 1, 0], u64::MAX),
        record(43, 0, [4095, 0, 0], 0), // 20
        record(44, 0, [4095, 0, 0], HIGHEST),
        record(1, 1, [0; 3], 0),
        record(47, 0, [65_534, 65_534, 22], HIGHEST), // 23
        record(1, 1, [0; 3], 0),
        record(47, 1, [NONE, NONE, 24], HIGHEST),
        record(1, 1, [0; 3], 0), // 26
        record(48, 0, [4095, 26, 0], 0),
    ]
}

/// Whether the results are taken with one record changed.
fn taken_with(number: usize, change: impl Fn(&mut Plain)) -> bool {
    let mut records = results();
    change(&mut records[number]);
    Results::new(&bytes(&records)).is_some()
}

/// The parents in the results: number, which field (0 for *a*), the child there, and whether none may stand there too.
const CHILDREN: [(usize, usize, usize, bool); 17] = [
    (1, 0, 0, false),
    (2, 1, 1, false),
    (5, 0, 3, false),
    (5, 1, 4, false),
    (6, 1, 5, false),
    (8, 1, 7, false),
    (12, 0, 11, false),
    (13, 0, 12, false),
    (16, 0, 14, false),
    (16, 1, 15, false),
    (17, 0, 13, false),
    (17, 1, 16, false),
    (18, 1, 10, false),
    (18, 2, 17, true),
    (23, 2, 22, true),
    (25, 2, 24, true),
    (27, 1, 26, false),
];

/// A field of 16 bits.
fn field(record: &mut Plain, which: usize) -> &mut u16 {
    match which {
        0 => &mut record.a,
        1 => &mut record.b,
        _ => &mut record.c,
    }
}

#[test]
fn the_results_are_taken() {
    let records = results();
    assert!(Results::new(&bytes(&records)).is_some());
    assert!(Results::new(&[]).is_some_and(Results::is_empty));
    assert!(taken_with(14, |record| record.a = 65_534), "the highest string");
    assert!(CHILDREN.iter().all(|&(parent, which, child, _)| *field(&mut { records[parent] }, which) == child as u16));
}

/// Whether a kind of results has a sub.
fn has_sub(kind: u8, sub: u8) -> bool {
    let highest = match kind {
        1 => 13,
        3 | 14 | 16 => 5,
        7 => 9,
        13 | 46 => 2,
        2 | 8 | 15 | 41 | 47 => 1,
        _ => 0,
    };
    sub <= highest && (kind, sub) != (16, 4)
}

#[test]
fn a_sub_that_its_kind_does_not_have() {
    for (number, record) in results().into_iter().enumerate() {
        for sub in 0..=255 {
            // A Not has no second child, which the two others of its kind have.
            let second = number != 13 || sub >= 2;
            let taken = taken_with(number, |record| record.sub = sub);
            assert_eq!(taken, has_sub(record.kind, sub) && second, "record {number} with sub {sub}");
        }
    }
}

#[test]
fn a_child_that_is_not_earlier() {
    for (parent, which, _, or_none) in CHILDREN {
        for number in [parent, parent + 1, results().len(), 65_534] {
            let late = taken_with(parent, |record| *field(record, which) = number as u16);
            assert!(!late, "{number} as child of {parent}, field {which}");
        }
        let none = taken_with(parent, |record| *field(record, which) = NONE);
        assert_eq!(none, or_none, "none as child of {parent}, field {which}");
    }
}

/// The group of a kind: 1 type, 2 constraint, 3 operand, 0 everything else.
fn group(kind: u8) -> usize {
    match kind {
        1..=9 => 1,
        13..=15 => 2,
        16 => 3,
        _ => 0,
    }
}

/// Trees of every group that nothing uses.
fn trees() -> Vec<Plain> {
    let record = Plain::new;
    let (ty, operand) = (record(1, 1, [0; 3], 0), record(16, 0, [0; 3], 0));
    let cmp = |operand| record(14, 0, [operand, 0, 0], 0);
    let lists = [
        &[ty][..],
        &[ty, record(7, 0, [1, 0, 0], 0)],
        &[ty, ty, record(8, 0, [3, 4, 0], 0)],
        &[record(9, 0, [0; 3], 0), operand], // 6 and 7
        &[operand, cmp(8)],                  // 9
        &[operand, operand, record(15, 0, [10, 11, 0], 0)],
        &[operand, cmp(13), record(13, 2, [14, 0, 0], 0)], // 15
        &[record(42, 0, [0; 3], 0), record(44, 0, [0; 3], 0), record(46, 0, [0; 3], 0)],
        &[ty, ty, operand, operand, operand, cmp(23), operand, cmp(25)],
    ];
    lists.concat()
}

/// The roots that are tried as children.
const TRIED: [u16; 11] = [0, 2, 5, 6, 7, 9, 12, 15, 16, 17, 18];
/// For each group two roots that stand for the children that are right.
const RIGHT: [[u16; 2]; 4] = [[0, 0], [19, 20], [24, 26], [21, 22]];
/// Every kind that has children, with the group of each field.
const PARENTS: [(u8, u8, [usize; 3]); 12] = [
    (7, 0, [1, 0, 0]),
    (8, 0, [1, 1, 0]),
    (13, 0, [2, 2, 0]),
    (13, 1, [2, 2, 0]),
    (13, 2, [2, 0, 0]),
    (14, 0, [3, 0, 0]),
    (15, 0, [3, 3, 0]),
    (40, 0, [0, 1, 0]),
    (41, 0, [0, 1, 0]),
    (45, 0, [0, 1, 2]),
    (47, 0, [0, 0, 1]),
    (48, 0, [0, 1, 0]),
];

/// Whether a parent is taken with a root in one of its fields, and what is right in all others.
fn taken_as_child((kind, sub, groups): (u8, u8, [usize; 3]), which: usize, root: u16) -> bool {
    let mut fields = [0, 1, 2].map(|field| RIGHT[groups[field]][field % 2]);
    fields[which] = root;
    let parent = [Plain::new(kind, sub, fields, 0), Plain::new(46, 0, [0; 3], 0)];
    Results::new(&bytes(&[&trees()[..], &parent].concat())).is_some()
}

#[test]
fn a_child_of_another_group() {
    for parent in PARENTS {
        for which in (0..3).filter(|&field| parent.2[field] != 0) {
            for root in TRIED {
                let right = group(trees()[usize::from(root)].kind) == parent.2[which];
                assert_eq!(taken_as_child(parent, which, root), right, "{root} in field {which} of {parent:?}");
            }
        }
    }
}

#[test]
fn a_record_that_is_its_own_child() {
    let own = trees().len() as u16;
    for parent in PARENTS {
        for which in (0..3).filter(|&field| parent.2[field] != 0) {
            let taken = [own, own + 1, own + 2].map(|root| taken_as_child(parent, which, root));
            assert_eq!(taken, [false; 3], "field {which} of {parent:?}");
        }
    }
}

#[test]
fn a_child_that_is_used_before() {
    let records = results();
    let group = |child: usize| group(records[child].kind);
    for (parent, which, own, _) in CHILDREN {
        let others = CHILDREN.into_iter().map(|(_, _, child, _)| child);
        for other in others.filter(|&child| child < parent && child != own && group(child) == group(own)) {
            let shared = taken_with(parent, |record| *field(record, which) = other as u16);
            assert!(!shared, "{other} as child of {parent} too, field {which}");
        }
    }
}

#[test]
fn a_tree_that_would_be_longer_than_all_records() {
    let leaf = [Plain::new(1, 1, [0; 3], 0)];
    let doubled: Vec<Plain> = (0..40).map(|n| Plain::new(8, 0, [n, n, 0], 0)).collect();
    assert!(Results::new(&bytes(&[&leaf[..], &doubled].concat())).is_none());
}

#[test]
fn a_name_a_string_or_bits_out_of_their_range() {
    for number in [2, 6, 8, 9, 11, 18, 20, 21, 27] {
        assert!(!taken_with(number, |record| record.a = 4096), "name of record {number}");
    }
    assert!(!taken_with(14, |record| record.a = NONE), "the string of an operand is never none");
    assert!(!taken_with(3, |record| record.a = 256), "bits are at most 255");
}

#[test]
fn a_field_without_its_encoding() {
    assert!(!taken_with(19, |record| *record = Plain::new(42, 0, [0; 3], 0)));
    assert!(!taken_with(19, |record| record.kind = 16));
    assert!(Results::new(&bytes(&results()[..20])).is_some());
    assert!(Results::new(&bytes(&results()[..19])).is_none(), "nothing stands behind the field");
}

#[test]
fn an_ordinal_or_a_type_number_over_32_bits() {
    for number in [10, 18, 21, 23, 25] {
        assert!(!taken_with(number, |record| record.v = 1 << 32), "record {number}");
        assert!(!taken_with(number, |record| record.v = u64::MAX), "record {number}");
    }
}

#[test]
fn results_of_a_wrong_length() {
    let whole = bytes(&results());
    assert!(Results::new(&whole[..whole.len() - 1]).is_none());
    assert!((1..24).all(|more| Results::new(&[&whole[..], &vec![0; more]].concat()).is_none()));
    let messages = |count: usize| bytes(&vec![Plain::new(42, 0, [0; 3], 0); count]);
    assert!(Results::new(&messages(2048)).is_some_and(|results| results.len() == 2048));
    assert!(Results::new(&messages(2049)).is_none());
}

#[test]
fn kinds_that_are_no_results() {
    let known = [1, 2, 3, 4, 7, 8, 9, 13, 14, 15, 16, 40, 41, 42, 43, 44, 45, 46, 47, 48];
    for kind in (0..=255).filter(|kind| !known.contains(kind)) {
        assert!(Results::new(&Plain::new(kind, 0, [0; 3], 0).bytes()).is_none(), "kind {kind} alone");
        assert!(!taken_with(26, |record| record.kind = kind), "kind {kind} as a type");
        assert!(!taken_with(9, |record| record.kind = kind), "kind {kind} as a declaration");
    }
    // Those that have no child stand alone.
    for kind in [1, 2, 3, 4, 9, 16, 42, 43, 44, 46] {
        assert!(Results::new(&Plain::new(kind, 0, [0; 3], 0).bytes()).is_some(), "kind {kind}");
    }
}

/// The six messages, each with its class.
fn diagnostics() -> Vec<Plain> {
    let class = |sub: u8| [0, 0, 0, 1, 0, 2][usize::from(sub)];
    (0..6).map(|sub| Plain::new(50, sub, [4095, if sub == 2 { 4095 } else { 0 }, 0], class(sub))).collect()
}

/// Whether the diagnostics are taken with the last record changed.
fn told_with(change: impl Fn(&mut Plain)) -> bool {
    let mut records = diagnostics();
    change(&mut records[5]);
    Diagnostics::new(&bytes(&records)).is_some()
}

#[test]
fn diagnostics_of_a_wrong_form() {
    assert!(told_with(|_| ()));
    assert!(Diagnostics::new(&[]).is_some_and(Diagnostics::is_empty));
    assert!((0..=255).filter(|&kind| kind != 50).all(|kind| !told_with(|record| record.kind = kind)));
    assert!((6..=255).all(|sub| !told_with(|record| record.sub = sub)));
    assert!([3, 1 << 32, u64::MAX].into_iter().all(|class| !told_with(|record| record.v = class)));
}

#[test]
fn diagnostics_with_a_name_out_of_its_range() {
    assert!(told_with(|record| *record = diagnostics()[2]));
    assert!(!told_with(|record| *record = Plain { a: 4096, ..diagnostics()[2] }));
    assert!(!told_with(|record| *record = Plain { b: 4096, ..diagnostics()[2] }));
}

#[test]
fn diagnostics_of_a_wrong_length() {
    let whole = bytes(&diagnostics());
    assert!(Diagnostics::new(&whole[..whole.len() - 1]).is_none());
    assert!((1..24).all(|more| Diagnostics::new(&[&whole[..], &vec![0; more]].concat()).is_none()));
    let told = |count: usize| bytes(&vec![diagnostics()[0]; count]);
    assert!(Diagnostics::new(&told(256)).is_some_and(|diagnostics| diagnostics.len() == 256));
    assert!(Diagnostics::new(&told(257)).is_none());
}
