//! K1 to K12 of "Proving runs", and the "slips".

use super::*;

const U8_RESULT: Record = Record { kind: 1, sub: 1, a: 0, b: 0, c: 0, v: 0, span: Span { offset: 0, length: 0 } };

/// A 41 of type u8 right behind that type.
fn done(name: u16, at_result: u16, value: Option<i64>, declared: u16) -> [Record; 2] {
    let sub = u8::from(value.is_some());
    let v = value.unwrap_or(0) as u64;
    [U8_RESULT, spanned(record(41, sub, name, at_result, 0, v), declared)]
}

/// One constant N1 of type u8 with the expression that `make` builds: its value, and the diagnostics.
fn alone(make: impl Fn(&mut Maker) -> u16) -> Option<i64> {
    let mut book = Maker::default();
    let expression = make(&mut book);
    let declared = book.constant(1, expression);
    let lowered = book.lower();
    let stored = lowered.results[1].sub == 1;
    let value = stored.then_some(lowered.results[1].v as i64);
    assert_eq!(lowered.results, done(1, 0, value, declared));
    if stored {
        assert_eq!(lowered.reply, accepted(2, 0, 1));
    } else {
        assert_eq!(lowered.reply, accepted(2, 1, 0));
        assert_eq!(lowered.diagnostics, [diagnostic(5, 1, 0, 2, expression)]);
    }
    value
}

fn divided(left: i64, right: i64) -> Option<i64> {
    alone(|book| {
        let (left, right) = (book.int(left), book.int(right));
        book.operation(3, left, right)
    })
}

#[test]
fn k1() {
    let mut book = Maker::default();
    let six = book.int(6);
    let first = book.constant(1, six);
    let (named, seven) = (book.reference(1), book.int(7));
    let product = book.operation(2, named, seven);
    let second = book.constant(2, product);
    let lowered = book.lower();
    assert_eq!(lowered.reply, accepted(4, 0, 2));
    assert_eq!(lowered.results, [done(1, 0, Some(6), first), done(2, 2, Some(42), second)].concat());
    assert_eq!(lowered.trace.results, [0, 0, 0, 4, 4]);
}

#[test]
fn k2_to_k4() {
    let sum = |book: &mut Maker| {
        let (left, right) = (book.int(i64::MAX), book.int(1));
        book.operation(0, left, right)
    };
    assert_eq!(alone(sum), None);
    assert_eq!(alone(|book| book.add(10, 1, 0, 0, 0, 1 << 63)), Some(i64::MIN));
    assert_eq!(divided(i64::MIN, -1), None);
}

#[test]
fn k5_divides_toward_zero() {
    assert_eq!(divided(-7, 2), Some(-3));
    assert_eq!(divided(7, -2), Some(-3));
    assert_eq!(divided(7, 0), None);
}

#[test]
fn k6_is_not_nine() {
    let mut book = Maker::default();
    let three = book.int(3);
    let first = book.constant(1, three);
    let (left, right) = (book.reference(1), book.reference(1));
    let product = book.operation(2, left, right);
    book.constant(2, product);
    let lowered = book.lower();
    assert_eq!(lowered.reply, accepted(2, 0, 1));
    assert_eq!(lowered.results, done(1, 0, Some(3), first));
}

#[test]
fn k7() {
    let mut book = Maker::default();
    let two = book.reference(2);
    book.constant(1, two);
    let one = book.reference(1);
    book.constant(2, one);
    assert_eq!(book.lower().reply, accepted(0, 0, 0));
}

/// The 46 of a field of a primitive type, with its annotations, in a message that may be delta.
fn encoding(message_delta: bool, primitive: u8, annotations: &[u8]) -> Record {
    let mut book = Maker::default();
    book.message(1);
    if message_delta {
        book.annotation(2);
    }
    let child = book.primitive(primitive);
    let field = book.field(2, child, 5);
    for &annotation in annotations {
        book.annotation(annotation);
    }
    let lowered = book.lower();
    assert_eq!(lowered.reply, accepted(4, 0, 0));
    let before = [
        spanned(record(42, 0, 1, 0, 0, 0), 0),
        record(1, primitive, 0, 0, 0, 0),
        spanned(record(45, 0, 2, 1, NONE, 5), field),
    ];
    assert_eq!(lowered.results[..3], before);
    lowered.results[3]
}

#[test]
fn k8() {
    assert_eq!(encoding(true, U16, &[1]), record(46, 1, 1, 0, 0, 0));
}

#[test]
fn encodings() {
    // Varint wins over zigzag, delta wraps the base.
    assert_eq!(encoding(false, U16, &[1, 0]), record(46, 1, 0, 0, 0, 0));
    assert_eq!(encoding(false, U16, &[4, 1]), record(46, 2, 0, 0, 0, 0));
    assert_eq!(encoding(false, U16, &[2, 1]), record(46, 2, 1, 0, 0, 0));
    assert_eq!(encoding(false, U16, &[]), record(46, 0, 0, 0, 0, 0));
    // A field that is delta already keeps its base under a message's delta.
    assert_eq!(encoding(true, U16, &[1, 2]), record(46, 2, 1, 0, 0, 0));
    // The fourteen rows, over zigzag: Bool and Void stay as they are.
    let rows: Vec<(u8, u16)> = (0..14).map(|sub| encoding(true, sub, &[1])).map(|it| (it.sub, it.a)).collect();
    let expected = [[(2, 0)].as_slice(), &[(1, 1); 4], &[(2, 1); 8], &[(2, 0)]].concat();
    assert_eq!(rows, expected);
    let over_varint: Vec<u8> = (0..14).map(|sub| encoding(true, sub, &[0]).sub).collect();
    assert_eq!(over_varint, [1, 1, 1, 1, 1, 2, 2, 2, 2, 1, 1, 1, 1, 1]);
}

#[test]
fn a_messages_delta_reaches_sub_bytes_and_aliases_only() {
    let mut book = Maker::default();
    let target = book.primitive(5);
    book.alias(9, target);
    book.message(1);
    book.annotation(2);
    let sub_byte = book.add(2, 1, 3, 0, 0, 0);
    book.field(2, sub_byte, 0);
    let alias = book.named(9);
    book.field(3, alias, 1);
    let text = book.add(3, 0, 0, 0, 0, 0);
    book.field(4, text, 2);
    book.union(5);
    book.variant(6, 0);
    let child = book.primitive(U16);
    book.field(7, child, 0);
    let found: Vec<(u8, u16)> =
        book.lower().results.iter().filter(|it| it.kind == 46).map(|it| (it.sub, it.a)).collect();
    assert_eq!(found, [(0, 1), (2, 1), (0, 0), (0, 0)]);
}

#[test]
fn k9() {
    let mut book = Maker::default();
    book.message(1);
    let child = book.primitive(U8);
    book.field(2, child, 0);
    book.annotation(3);
    book.argument(2, NONE, 0);
    book.annotation(3);
    book.argument(0, 8, 5);
    book.annotation(3);
    book.argument(0, NONE, 7);
    book.argument(0, NONE, 9);
    let lowered = book.lower();
    assert_eq!(lowered.reply, accepted(4, 0, 0));
    assert_eq!(lowered.results[3], record(46, 0, 0, 1, 0, 7));
}

#[test]
fn arguments_of_other_annotations_are_no_limit() {
    let mut book = Maker::default();
    book.message(1);
    let child = book.primitive(U8);
    book.field(2, child, 0);
    book.annotation(3);
    book.annotation(4);
    book.argument(0, NONE, 5);
    assert_eq!(book.lower().results[3], record(46, 0, 0, 0, 0, 0));
    book.annotation(3);
    book.argument(1, NONE, u64::MAX);
    assert_eq!(book.lower().results[3], record(46, 0, 0, 1, 0, u64::MAX));
}

/// Outer (10) of T (1) = Inner (11) of T, Inner of U (2) = array of U, a newtype 20 of Outer of u8.
/// Returns the book and the record U.
fn outer_and_inner() -> (Maker, u16, u16) {
    let mut book = Maker::default();
    let t = book.named(1);
    let inner_of_t = book.generic(11, t);
    book.alias(10, inner_of_t);
    book.parameter(1);
    let u = book.named(2);
    let array_of_u = book.array(u);
    book.alias(11, array_of_u);
    book.parameter(2);
    let argument = book.primitive(U8);
    let used = book.generic(10, argument);
    let declared = book.newtype(20, used);
    (book, u, declared)
}

#[test]
fn k10_does_not_substitute_t() {
    let (book, u, declared) = outer_and_inner();
    let lowered = book.lower();
    assert_eq!(lowered.reply, accepted(3, 1, 0));
    let expected = [poison(), record(7, 1, 0, 0, 0, 0), spanned(record(48, 0, 20, 1, 0, 0), declared)];
    assert_eq!(lowered.results, expected);
    // The argument T as a whole takes the span of U.
    assert_eq!(lowered.diagnostics, [diagnostic(1, 1, 0, 0, u)]);
    assert_eq!(lowered.trace.numbers, [1, 3, 3, 3, 3]);
}

#[test]
fn k11() {
    let mut book = Maker::default();
    let (t, u) = (book.named(1), book.named(2));
    let target = book.map(t, u);
    book.alias(10, target);
    book.parameter(1);
    book.parameter(2);
    let argument = book.primitive(U8);
    let used = book.generic(10, argument);
    let declared = book.newtype(20, used);
    let lowered = book.lower();
    assert_eq!(lowered.reply, accepted(4, 1, 0));
    let expected = [U8_RESULT, poison(), record(8, 0, 0, 1, 0, 0), spanned(record(48, 0, 20, 2, 0, 0), declared)];
    assert_eq!(lowered.results, expected);
    assert_eq!(lowered.diagnostics, [diagnostic(1, 2, 0, 0, u)]);
}

#[test]
fn k12() {
    let mut book = Maker::default();
    let target = book.named(1);
    book.alias(10, target);
    book.parameter(1);
    let bare = book.named(10);
    let declared = book.newtype(20, bare);
    let lowered = book.lower();
    assert_eq!(lowered.reply, accepted(2, 0, 0));
    assert_eq!(lowered.results, [number(1), spanned(record(48, 0, 20, 0, 0, 0), declared)]);
}

#[test]
fn no_stub_for_an_unknown_generic_head() {
    for wildcards in [false, true] {
        let mut book = Maker { wildcards, ..Maker::default() };
        let argument = book.primitive(U8);
        let used = book.generic(10, argument);
        book.newtype(20, used);
        let lowered = book.lower();
        assert_eq!(lowered.reply, accepted(2, 1, 0));
        assert_eq!(lowered.results[0], poison());
        assert_eq!(lowered.diagnostics, [diagnostic(4, 10, 0, 0, used)]);
        assert_eq!(lowered.trace.numbers, [1; 5]);
    }
}
