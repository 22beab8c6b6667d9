//! A refusal for each cause, their order, and the depths.

use super::*;

/// A book of records given as they are.
fn book_of(records: &[(u8, u8, u16, u16, u16, u64)]) -> Maker {
    let mut book = Maker::default();
    for &(kind, sub, a, b, c, v) in records {
        book.add(kind, sub, a, b, c, v);
    }
    book
}

fn reply(records: &[(u8, u8, u16, u16, u16, u64)]) -> Reply {
    book_of(records).lower().reply
}

/// So many blocks full of u8.
fn full(blocks: usize) -> Maker {
    let mut book = Maker::default();
    for _ in 0..21 * blocks {
        book.primitive(U8);
    }
    book
}

/// A book with some bytes changed and the checks made right again.
fn changed(book: &Maker, changes: &[(usize, u8)]) -> Reply {
    let mut bytes = book.bytes();
    for &(at, value) in changes {
        bytes[at] = value;
    }
    seal(&mut bytes);
    lower(&bytes).reply
}

#[test]
fn cause_1() {
    for length in [0, 511, 513, 32_769, 33_280] {
        assert_eq!(lower(&vec![0; length]).reply, refused(1, 0));
    }
    assert_eq!(full(64).lower().reply, accepted(0, 0, 0));
    assert_eq!(full(65).lower().reply, refused(1, 0));
}

#[test]
fn cause_2() {
    let mut bytes = full(3).bytes();
    bytes[2 * 512 + 511] ^= 0x40;
    assert_eq!(lower(&bytes).reply, refused(2, 2));
    // 2 before 3 within a block, but blocks upward.
    bytes[2 * 512 + 3] = 1;
    assert_eq!(lower(&bytes).reply, refused(2, 2));
    bytes[512 + 3] = 1;
    seal(&mut bytes[512..1024]);
    assert_eq!(lower(&bytes).reply, refused(3, 1));
    // 0000 is not FFFF: all words zero need FFFF, and then the count is refused.
    assert_eq!(lower(&[0; 512]).reply, refused(2, 0));
    let mut zero = [0; 512];
    seal(&mut zero);
    assert_eq!(zero[510..], [0xFF, 0xFF]);
    assert_eq!(lower(&zero).reply, refused(3, 0));
    // A sum of FFFF needs 0000, and FFFF in its place does not pass.
    let mut bytes = full(1).bytes();
    bytes[20..22].fill(0);
    seal(&mut bytes);
    bytes.copy_within(510..512, 20);
    seal(&mut bytes);
    assert_eq!(bytes[510..], [0, 0]);
    assert_eq!(lower(&bytes).reply, accepted(0, 0, 0));
    bytes[510..].fill(0xFF);
    assert_eq!(lower(&bytes).reply, refused(2, 0));
}

#[test]
fn cause_3() {
    let book = full(2);
    assert_eq!(changed(&book, &[(0, 1)]), refused(3, 0));
    assert_eq!(changed(&book, &[(513, 1)]), refused(3, 1));
    assert_eq!(changed(&book, &[(2, 20)]), refused(3, 0));
    assert_eq!(changed(&book, &[(512 + 2, 0)]), refused(3, 1));
    assert_eq!(changed(&book, &[(512 + 2, 22)]), refused(3, 1));
    // A used place that the count leaves out is not zero.
    assert_eq!(changed(&book, &[(512 + 2, 20)]), refused(3, 1));
    assert_eq!(changed(&book, &[(3, 1)]), accepted(0, 0, 0));
    assert_eq!(changed(&book, &[(3, 2)]), refused(3, 0));
    assert_eq!(changed(&book, &[(512 + 3, 1)]), refused(3, 1));
    assert_eq!(changed(&book, &[(508, 1)]), refused(3, 0));
    assert_eq!(changed(&book, &[(512 + 509, 1)]), refused(3, 1));
    assert_eq!(reply(&[(1, 0, 0, 0, 0, 0)]), accepted(0, 0, 0));
}

#[test]
fn cause_4() {
    for kind in [0, 17, 18, 19, 26, 29, 37, 40, 255] {
        assert_eq!(reply(&[(1, 0, 0, 0, 0, 0), (kind, 0, 0, 0, 0, 0)]), refused(4, 1));
    }
    let outside = [
        (1, 14, 0, 0, 0, 0),
        (1, 0, 1, 0, 0, 0),
        (2, 2, 0, 0, 0, 0),
        (2, 0, 256, 0, 0, 0),
        (3, 6, 0, 0, 0, 0),
        (4, 1, 0, 0, 0, 0),
        (4, 0, 4_096, 0, 0, 0),
        (5, 0, 0, 4_096, 0, 0),
        (7, 10, 0, 0, 0, 0),
        (7, 1, 0, 0, 0, 1),
        (8, 2, 0, 0, 0, 0),
        (9, 0, 0, 1, 0, 0),
        (10, 5, 0, 0, 0, 0),
        (10, 4, 0, 0, 0, 2),
        (12, 10, 0, 0, 0, 0),
        (13, 2, 0, 1, 0, 0),
        (13, 3, 0, 0, 0, 0),
        (14, 6, 0, 0, 0, 0),
        (14, 0, 0, 0, 2, 0),
        (15, 2, 0, 0, 0, 0),
        (16, 2, 65_535, 0, 0, 0),
        (16, 2, 0, 0, 0, 1),
        (16, 3, 0, 0, 0, 2),
        (16, 5, 4_096, 0, 0, 0),
        (16, 4, 1, 0, 0, 0),
        (16, 6, 0, 0, 0, 0),
        (20, 0, 65_535, 0, 0, 0),
        (25, 0, 0, 0, 1, 0),
        (31, 0, 0, 0, 0, 1 << 32),
        (32, 2, 0, 0, 0, 0),
        (32, 0, 1, 0, 0, 0),
        (34, 5, 0, 0, 0, 0),
        (35, 3, 0, 0, 0, 0),
        (35, 2, 0, 0, 0, 1),
        (35, 0, 4_096, 0, 0, 0),
        (36, 3, 0, 0, 0, 0),
    ];
    for it in outside {
        assert_eq!(reply(&[it]), refused(4, 0), "{it:?}");
    }
    // Value has any v, kind 9 any a, sub-byte 0 bits.
    assert_eq!(reply(&[(16, 4, 0, 0, 0, 9), (9, 0, 65_535, 0, 0, 0), (2, 0, 0, 0, 0, 0)]), accepted(0, 0, 0));
}

#[test]
fn cause_5() {
    let (u8, one, text) = ((1, 1, 0, 0, 0, 0), (10, 0, 0, 0, 0, 1), (16, 2, 0, 0, 0, 0));
    // Not earlier, nowhere, none where it is not offered.
    assert_eq!(reply(&[(7, 0, 0, 0, 0, 0)]), refused(5, 0));
    assert_eq!(reply(&[u8, (7, 0, 9, 0, 0, 0)]), refused(5, 1));
    assert_eq!(reply(&[(22, 0, 0, 65_535, 0, 0)]), refused(5, 0));
    // The wrong group.
    assert_eq!(reply(&[one, (7, 0, 0, 0, 0, 0)]), refused(5, 1));
    assert_eq!(reply(&[(20, 0, 0, 0, 0, 0), (22, 0, 1, 0, 0, 0)]), refused(5, 1));
    assert_eq!(reply(&[text, (13, 2, 0, 0, 0, 0)]), refused(5, 1));
    assert_eq!(reply(&[u8, one, (24, 0, 1, 1, 0, 0)]), refused(5, 2));
    // Used before, also by the same record.
    assert_eq!(reply(&[u8, (7, 0, 0, 0, 0, 0), (7, 0, 0, 0, 0, 0)]), refused(5, 2));
    assert_eq!(reply(&[u8, (8, 0, 0, 0, 0, 0)]), refused(5, 1));
    assert_eq!(reply(&[text, (15, 0, 0, 0, 0, 0)]), refused(5, 1));
    // 5 before 6.
    assert_eq!(reply(&[(31, 0, 0, 5, NONE, 0)]), refused(5, 0));
}

#[test]
fn cause_6_the_record_before() {
    // Kind and sub of what may stand before 30, 34, 35 and 36; each stands where it may itself.
    let (u8, message, union) = ((1, 1, 0, 0, 0, 0), (20, 0, 1, 0, 0, 0), (21, 0, 1, 0, 0, 0));
    let alias = (23, 0, 1, 0, 0, 0);
    let (thirty, annotation) = ((30, 0, 5, 0, 0, 0), (34, 0, 0, 0, 0, 0));
    let (argument, reason) = ((35, 0, NONE, 0, 0, 0), (36, 0, NONE, 0, 0, 0));
    let (tombstone, variant) = ((32, 0, 0, 0, NONE, 0), (33, 0, 1, 0, 0, 0));
    let ambiguous = (25, 0, 1, 0, 0, 0);
    let one = (10, 0, 0, 0, 0, 0);
    let before: Vec<(u8, Vec<_>)> = vec![
        (0, vec![u8]),
        (20, vec![u8, message]),
        (21, vec![u8, union]),
        (22, vec![u8, (22, 0, 1, 0, 0, 0)]),
        (23, vec![u8, alias]),
        (24, vec![u8, one, (24, 0, 1, 0, 1, 0)]),
        (25, vec![u8, ambiguous]),
        (30, vec![u8, alias, thirty]),
        (31, vec![u8, message, (31, 0, 1, 0, NONE, 0)]),
        (32, vec![u8, message, tombstone]),
        (33, vec![u8, union, variant]),
        (34, vec![u8, message, annotation]),
        (35, vec![u8, message, annotation, argument]),
        (36, vec![u8, message, tombstone, reason]),
    ];
    let may = |kind: u8, before: u8| match kind {
        30 => [23, 30].contains(&before),
        34 => [20, 31, 34, 35].contains(&before),
        35 => [34, 35].contains(&before),
        _ => [32, 36].contains(&before),
    };
    for (row, records) in &before {
        for column in [thirty, annotation, argument, reason] {
            // Kinds 1-16 are passed over.
            let mut records = records.clone();
            records.push(one);
            let place = records.len() as u32;
            records.push(column);
            let got = reply(&records);
            if may(column.0, *row) {
                assert!(matches!(got, Reply::Accepted { .. }), "{row} {column:?}");
            } else {
                assert_eq!(got, refused(6, place), "{row} {column:?}");
            }
        }
    }
}

#[test]
fn cause_6_the_latest_declaration() {
    let (message, union, ambiguous) = ((20, 0, 1, 0, 0, 0), (21, 0, 2, 0, 0, 0), (25, 0, 1, 0, 0, 0));
    let (of_variant, of_union, variant) = ((32, 0, 0, 0, NONE, 0), (32, 1, 0, 0, NONE, 0), (33, 0, 1, 0, 0, 0));
    assert_eq!(reply(&[of_variant]), refused(6, 0));
    assert_eq!(reply(&[message, of_union]), refused(6, 1));
    assert_eq!(reply(&[message, variant]), refused(6, 1));
    assert_eq!(reply(&[message, ambiguous, of_variant]), refused(6, 2));
    assert_eq!(reply(&[union, of_variant]), refused(6, 1));
    assert_eq!(reply(&[union, of_union, variant, of_variant, of_variant]), accepted(5, 0, 0));
    assert_eq!(reply(&[union, variant, of_union, of_variant]), refused(6, 3));
    assert_eq!(reply(&[union, variant, of_union, variant, of_variant]), accepted(5, 0, 0));
    // A variant of an earlier union does not count.
    assert_eq!(reply(&[union, variant, (21, 0, 3, 0, 0, 0), of_variant]), refused(6, 3));
}

#[test]
fn cause_7() {
    let (u8, one) = ((1, 1, 0, 0, 0, 0), (10, 0, 0, 0, 0, 1));
    assert_eq!(reply(&[u8, (20, 0, 1, 0, 0, 0), (23, 0, 1, 0, 0, 0)]), refused(7, 2));
    assert_eq!(reply(&[(25, 0, 1, 0, 0, 0), (25, 0, 1, 0, 0, 0)]), refused(7, 1));
    assert_eq!(reply(&[u8, one, (24, 0, 1, 0, 1, 0), u8, one, (24, 0, 1, 3, 4, 0)]), refused(7, 5));
    // The three sets are apart.
    assert_eq!(reply(&[u8, one, (24, 0, 1, 0, 1, 0), (25, 0, 1, 0, 0, 0), (21, 0, 1, 0, 0, 0)]), accepted(3, 0, 1));
}

/// A tree of a depth, made of a leaf and one record on top for each further level; then what uses it.
fn deep_type(depth: u16) -> Maker {
    let mut book = Maker::default();
    let mut top = book.primitive(U8);
    for _ in 1..depth {
        top = book.array(top);
    }
    book.newtype(1, top);
    book
}

fn deep_constant(depth: u16) -> Maker {
    let mut book = Maker::default();
    let mut top = book.int(1);
    for _ in 1..depth {
        let one = book.int(1);
        top = book.operation(0, top, one);
    }
    book.constant(1, top);
    book
}

fn deep_constraint(depth: u16) -> Maker {
    let mut book = Maker::default();
    book.message(1);
    let child = book.primitive(U8);
    let operand = book.add(16, 0, 0, 0, 0, 0);
    let mut top = book.add(14, 0, operand, 0, 0, 0);
    for _ in 2..depth {
        top = book.add(13, 2, top, 0, 0, 0);
    }
    book.add(31, 0, 2, child, top, 0);
    book
}

#[test]
fn cause_8() {
    assert_eq!(deep_type(64).lower().reply, accepted(65, 0, 0));
    assert_eq!(deep_type(65).lower().reply, refused(8, 64));
    assert_eq!(deep_constant(64).lower().reply, accepted(2, 0, 1));
    assert_eq!(deep_constant(64).lower().results[1].v, 64);
    assert_eq!(deep_constant(65).lower().reply, refused(8, 128));
    assert_eq!(deep_constraint(64).lower().reply, accepted(68, 0, 0));
    assert_eq!(deep_constraint(65).lower().reply, refused(8, 66));
}

/// 10 of T = arrays around T, and newtype 20 of 10 of u8: the use is at 1, its target at 2, T at
/// 2 + arrays, u8 one deeper. Returns the newtype's record too.
fn deep_use(arrays: u16) -> (Maker, u32) {
    let mut book = Maker::default();
    let mut top = book.named(1);
    for _ in 0..arrays {
        top = book.array(top);
    }
    book.alias(10, top);
    book.parameter(1);
    let u8 = book.primitive(U8);
    let used = book.generic(10, u8);
    let at = book.newtype(20, used);
    (book, u32::from(at))
}

#[test]
fn cause_9() {
    assert_eq!(deep_use(61).0.lower().reply, accepted(63, 0, 0));
    let (book, at) = deep_use(62);
    assert_eq!(book.lower().reply, refused(9, at));
    assert_eq!(book.lower().trace.numbers, [1, 2, 2, 2, 0]);
}

#[test]
fn cause_9_for_an_endless_alias_at_the_item() {
    let mut book = Maker::default();
    let t = book.named(1);
    let target = book.generic(10, t);
    book.alias(10, target);
    book.parameter(1);
    assert_eq!(book.lower().reply, accepted(0, 0, 0));
    book.message(20);
    let u8 = book.primitive(U8);
    let used = book.generic(10, u8);
    let field = book.field(2, used, 0);
    assert_eq!(book.lower().reply, refused(9, u32::from(field)));
}

#[test]
fn a_copied_alias_adds_no_depth() {
    let mut book = Maker::default();
    let mut top = book.primitive(U8);
    for _ in 1..64 {
        top = book.array(top);
    }
    book.alias(10, top);
    let mut top = book.named(10);
    for _ in 1..64 {
        top = book.array(top);
    }
    book.newtype(20, top);
    assert_eq!(book.lower().reply, accepted(65 + 64 + 63 + 1, 0, 0));
}

#[test]
fn cause_9_or_10_first_met() {
    // Both sides of a map stand at 2; the use's target at 3, T at 64, its argument at 65.
    for (deep_left, number) in [(true, 9), (false, 10)] {
        let mut book = Maker::default();
        let mut top = book.named(1);
        for _ in 0..61 {
            top = book.array(top);
        }
        book.alias(10, top);
        book.parameter(1);
        let argument = book.primitive(U8);
        let deep = book.generic(10, argument);
        let u8 = book.primitive(U8);
        let both = if deep_left { book.map(deep, u8) } else { book.map(u8, deep) };
        let at = book.newtype(20, both);
        assert_eq!(book.reply_with(0, 0), refused(number, u32::from(at)));
    }
}

#[test]
fn a_constants_type_is_met_before_its_message_5() {
    // An endless alias as the type, no value, and no room for message 5.
    let mut book = Maker::default();
    let t = book.named(1);
    let target = book.generic(10, t);
    book.alias(10, target);
    book.parameter(1);
    let u8 = book.primitive(U8);
    let used = book.generic(10, u8);
    let undeclared = book.reference(99);
    let at = book.add(24, 0, 1, used, undeclared, 0);
    assert_eq!(book.reply_with(0, 0), refused(9, u32::from(at)));
}

/// Aliases 100, 101, ... each a map of the one before twice; generic where asked.
fn doubling(levels: u16, generic: bool) -> (Maker, u32) {
    let mut book = Maker::default();
    let target = if generic { book.named(1) } else { book.primitive(U8) };
    book.alias(100, target);
    if generic {
        book.parameter(1);
    }
    let mut last = 0;
    for level in 1..=levels {
        let before = 99 + level;
        let side = |book: &mut Maker| {
            if generic {
                let argument = book.primitive(U8);
                book.generic(before, argument)
            } else {
                book.named(before)
            }
        };
        let (left, right) = (side(&mut book), side(&mut book));
        let both = book.map(left, right);
        last = book.alias(100 + level, both);
        if generic {
            book.parameter(1);
        }
    }
    if generic {
        let argument = book.primitive(U8);
        let used = book.generic(100 + levels, argument);
        last = book.newtype(20, used);
    }
    (book, u32::from(last))
}

#[test]
fn cause_10() {
    // 10 levels of generics are 2^11 - 1 results and the 48: exactly 2,048 fit.
    assert_eq!(doubling(10, true).0.lower().reply, accepted(2_048, 0, 0));
    let (book, at) = doubling(11, true);
    assert_eq!(book.lower().reply, refused(10, at));
    let (book, at) = doubling(30, true);
    assert_eq!(book.lower().reply, refused(10, at));
    // Each level takes two steps, so with 32 levels the first way down is too deep.
    let (book, at) = doubling(32, true);
    assert_eq!(book.lower().reply, refused(9, at));
    // Plain aliases 100 to 109 are 1 + 3 + ... + 1023 results and ten 40s: 2,046 in all.
    assert_eq!(doubling(9, false).0.lower().reply, accepted(2_046, 0, 0));
    let (book, at) = doubling(10, false);
    assert_eq!(book.lower().reply, refused(10, at));
}

#[test]
fn cause_10_for_diagnostics() {
    for (fields, full) in [(256, false), (257, true)] {
        let mut book = Maker::default();
        book.message(1);
        let mut last = 0;
        for field in 0..fields {
            let unknown = book.named(2);
            last = book.field(field, unknown, 0);
        }
        let expected = if full { refused(10, u32::from(last)) } else { accepted(769, 256, 0) };
        assert_eq!(book.lower().reply, expected);
    }
}
