//! Names, generics, constants and bodies beyond the proving runs, and the trace.

use super::*;

/// The type of newtype 20 lowered at the end of the book.
fn newtype_of(mut book: Maker, child: u16) -> Lowered {
    book.newtype(20, child);
    book.lower()
}

#[test]
fn steps_of_a_name() {
    // An ambiguous name is poison even as a generic alias; a declared one is not asked.
    let mut book = Maker { wildcards: true, ..Maker::default() };
    let target = book.primitive(U8);
    book.alias(10, target);
    book.parameter(1);
    book.message(11);
    for name in [10, 11, 12] {
        book.ambiguous(name);
    }
    let (generic, message) = (book.named(10), book.named(11));
    let left = book.map(generic, message);
    let (ambiguous, stub) = (book.named(12), book.named(13));
    let right = book.map(ambiguous, stub);
    let all = book.map(left, right);
    let lowered = newtype_of(book, all);
    let leaves: Vec<u64> = lowered.results.iter().filter(|it| it.kind == 4).map(|it| it.v).collect();
    // Numbers: 11 is 0, 20 is 1, 10 is 2, the stub 3.
    assert_eq!(leaves, [u64::from(u32::MAX), 0, u64::from(u32::MAX), 3]);
    assert_eq!(lowered.diagnostics, [diagnostic(0, 10, 0, 0, generic), diagnostic(0, 12, 0, 0, ambiguous)]);
    assert_eq!(lowered.trace.numbers, [2, 3, 3, 3, 4]);
}

#[test]
fn a_plain_alias_is_copied_without_its_diagnostics() {
    let mut book = Maker::default();
    let unknown = book.named(1);
    let array = book.array(unknown);
    let declared = book.alias(10, array);
    let used = book.named(10);
    let twice = book.add(7, 0, used, 0, 0, 0);
    let lowered = newtype_of(book, twice);
    let expected = [
        poison(),
        record(7, 1, 0, 0, 0, 0),
        spanned(record(40, 0, 10, 1, 0, 0), declared),
        poison(),
        record(7, 1, 3, 0, 0, 0),
        record(7, 0, 4, 0, 0, 0),
    ];
    assert_eq!(lowered.results[..6], expected);
    assert_eq!(lowered.diagnostics, [diagnostic(1, 1, 0, 0, unknown)]);
    assert_eq!(lowered.trace.results, [0, 0, 3, 3, 7]);
    assert_eq!(lowered.trace.diagnostics, [0, 0, 1, 1, 1]);
}

#[test]
fn a_stub_hides_a_later_plain_alias_from_the_lookup_only() {
    // 10 = 11 makes a stub for 11 (number 1); then 11 = u8; 11::5 has a namespace with a number.
    let mut book = Maker { wildcards: true, ..Maker::default() };
    let early = book.named(11);
    book.alias(10, early);
    let u8 = book.primitive(U8);
    book.alias(11, u8);
    let (bare, pair) = (book.named(11), book.qualified(11, 5));
    let left = book.map(bare, pair);
    let again = book.qualified(11, 5);
    let all = book.map(left, again);
    let lowered = newtype_of(book, all);
    assert_eq!(lowered.diagnostics, []);
    let kinds: Vec<(u8, u64)> = lowered.results[4..9].iter().map(|it| (it.kind, it.v)).collect();
    assert_eq!(kinds, [(1, 0), (4, 2), (8, 0), (4, 2), (8, 0)]);
}

#[test]
fn namespaces() {
    // A plain alias to poison counts as a number, one to u8 does not.
    let mut book = Maker::default();
    let (unknown, u8) = (book.named(1), book.primitive(U8));
    book.alias(10, unknown);
    book.alias(11, u8);
    let (poisoned, primitive) = (book.qualified(10, 5), book.qualified(11, 6));
    let both = book.map(poisoned, primitive);
    let lowered = newtype_of(book, both);
    assert_eq!(lowered.results[4..6], [number(1), poison()]);
    assert_eq!(lowered.diagnostics[1], diagnostic(2, 11, 6, 0, primitive));
}

#[test]
fn heads_of_generics() {
    // 30 is a plain alias to the generic alias 10; 20 is a newtype; 31 is nothing.
    let mut book = Maker::default();
    let t = book.named(1);
    let target = book.array(t);
    book.alias(10, target);
    book.parameter(1);
    let bare = book.named(10);
    book.alias(30, bare);
    let arguments: Vec<u16> = (0..3).map(|_| book.primitive(U8)).collect();
    let (through, newtype) = (book.generic(30, arguments[0]), book.generic(20, arguments[1]));
    let left = book.map(through, newtype);
    let nothing = book.generic(31, arguments[2]);
    let all = book.map(left, nothing);
    let lowered = newtype_of(book, all);
    let expected = [record(1, U8, 0, 0, 0, 0), record(7, 1, 2, 0, 0, 0), poison(), record(8, 0, 3, 4, 0, 0), poison()];
    assert_eq!(lowered.results[2..7], expected);
    assert_eq!(lowered.diagnostics, [diagnostic(3, 20, 0, 1, newtype), diagnostic(4, 31, 0, 0, nothing)]);
}

#[test]
fn spans_and_messages_inside_a_substitution() {
    // 10 of T = 40 of T (a head that is nothing): message 1 with the span of the use.
    let mut book = Maker::default();
    let t = book.named(1);
    let target = book.generic(40, t);
    book.alias(10, target);
    book.parameter(1);
    // 11 of T = T: the argument 41 of u8 is outside the target, so message 4, with the span of the use.
    let whole = book.named(1);
    book.alias(11, whole);
    book.parameter(1);
    let u8 = book.primitive(U8);
    let first = book.generic(10, u8);
    let u8 = book.primitive(U8);
    let unknown = book.generic(41, u8);
    let second = book.generic(11, unknown);
    // 11 of array of unknown 42: a part of the argument keeps its span.
    let part = book.named(42);
    let array = book.array(part);
    let third = book.generic(11, array);
    let left = book.map(first, second);
    let all = book.map(left, third);
    let lowered = newtype_of(book, all);
    let expected = [diagnostic(1, 40, 0, 0, first), diagnostic(4, 41, 0, 0, second), diagnostic(1, 42, 0, 0, part)];
    assert_eq!(lowered.diagnostics, expected);
}

#[test]
fn the_order_of_constants() {
    // 1 = 2 + 3, 2 = 4, 3 = 5, 4 = undeclared 99: done are 3, 4, 2, 1; only 3 is stored.
    let mut book = Maker::default();
    let (two, three) = (book.reference(2), book.reference(3));
    let sum = book.operation(0, two, three);
    book.constant(1, sum);
    let four = book.reference(4);
    book.constant(2, four);
    let five = book.int(5);
    book.constant(3, five);
    let undeclared = book.reference(99);
    book.constant(4, undeclared);
    let lowered = book.lower();
    assert_eq!(lowered.reply, accepted(8, 3, 1));
    let done: Vec<(u16, u8, u64)> =
        lowered.results.iter().filter(|it| it.kind == 41).map(|it| (it.a, it.sub, it.v)).collect();
    assert_eq!(done, [(3, 1, 5), (4, 0, 0), (2, 0, 0), (1, 0, 0)]);
    let expected = [diagnostic(5, 4, 0, 2, undeclared), diagnostic(5, 2, 0, 2, four), diagnostic(5, 1, 0, 2, sum)];
    assert_eq!(lowered.diagnostics, expected);
}

#[test]
fn unreached_constants_say_nothing() {
    // 1 names itself, 2 names 1; an undeclared name may come twice (3).
    let mut book = Maker::default();
    let one = book.reference(1);
    let unknown = book.named(50);
    book.add(24, 0, 1, unknown, one, 0);
    let again = book.reference(1);
    book.constant(2, again);
    let (left, right) = (book.reference(99), book.reference(99));
    let sum = book.operation(0, left, right);
    book.constant(3, sum);
    let lowered = book.lower();
    assert_eq!(lowered.reply, accepted(2, 1, 0));
    assert_eq!(lowered.diagnostics, [diagnostic(5, 3, 0, 2, sum)]);
}

#[test]
fn values_that_are_none() {
    for (sub, v) in [(2, 1), (4, 1)] {
        let mut book = Maker::default();
        let literal = book.add(10, sub, 0, 0, 0, v);
        book.constant(1, literal);
        assert_eq!(book.lower().reply, accepted(2, 1, 0));
    }
    for sub in 4..10 {
        let mut book = Maker::default();
        let (left, right) = (book.int(1), book.int(1));
        let comparison = book.operation(sub, left, right);
        book.constant(1, comparison);
        assert_eq!(book.lower().reply, accepted(2, 1, 0));
    }
}

#[test]
fn a_constants_type_comes_before_message_5() {
    let mut book = Maker::default();
    let (child, expression) = (book.named(7), book.reference(99));
    book.add(24, 0, 1, child, expression, 0);
    let lowered = book.lower();
    assert_eq!(lowered.diagnostics, [diagnostic(1, 7, 0, 0, child), diagnostic(5, 1, 0, 2, expression)]);
    assert_eq!(lowered.trace.bare, [(2, 7)]);
}

#[test]
fn the_trace_of_constants() {
    let mut book = Maker { wildcards: true, ..Maker::default() };
    let known = book.named(5);
    book.alias(6, known);
    let mut constant = |name, make: &dyn Fn(&mut Maker) -> u16| {
        let child = make(&mut book);
        let one = book.int(1);
        book.add(24, 0, name, child, one, 0)
    };
    // 5 had a number (a stub), 6 is a plain alias to one; 7 and 8 had none.
    let first = constant(1, &|book| {
        let (five, seven) = (book.named(5), book.named(7));
        book.map(five, seven)
    });
    let second = constant(2, &|book| {
        let (six, seven) = (book.qualified(6, 9), book.qualified(7, 9));
        book.map(six, seven)
    });
    constant(3, &|book| book.qualified(7, 9));
    let fourth = constant(4, &|book| {
        let argument = book.named(7);
        book.generic(8, argument)
    });
    book.message(40);
    let outside = book.named(77);
    book.field(1, outside, 0);
    let lowered = book.lower();
    let (first, second, fourth) = (u32::from(first), u32::from(second), u32::from(fourth));
    assert_eq!(lowered.trace.bare, [(first, 7)]);
    assert_eq!(lowered.trace.asked, [(second, 7), (fourth, 8)]);
    assert_eq!(lowered.trace.numbers, [1, 1, 2, 5, 6]);
}

#[test]
fn a_body_with_everything() {
    let mut book = Maker::default();
    let message = book.message(1);
    let child = book.primitive(U16);
    let low = book.add(16, 0, 0, 0, 0, 3);
    let high = book.add(16, 4, 0, 0, 0, 99);
    let range = book.add(15, 1, low, high, 1, 0);
    let text = book.add(16, 2, 600, 0, 0, 0);
    let equal = book.add(14, 0, text, 0, 0, 0);
    let not = book.add(13, 2, equal, 0, 0, 0);
    let and = book.add(13, 0, range, not, 0, 0);
    let field = book.add(31, 0, 2, child, and, 4_294_967_295);
    let gone = book.add(3, 2, 0, 0, 0, 0);
    let tombstone = book.add(32, 0, 0, 0, gone, 6);
    for (sub, a) in [(2, 1), (1, NONE), (0, NONE), (1, 9), (0, 8), (0, 7)] {
        book.add(36, sub, a, 0, 0, 0);
    }
    let union = book.union(3);
    let of_union = book.add(32, 1, 0, 0, NONE, 7);
    let variant = book.variant(4, 8);
    let lowered = book.lower();
    let expected = [
        spanned(record(42, 0, 1, 0, 0, 0), message),
        record(1, U16, 0, 0, 0, 0),
        record(16, 0, 0, 0, 0, 3),
        record(16, 0, 0, 0, 0, 0),
        record(15, 1, 2, 3, 1, 0),
        record(16, 2, 600, 0, 0, 0),
        record(14, 0, 5, 0, 0, 0),
        record(13, 2, 6, 0, 0, 0),
        record(13, 0, 4, 7, 0, 0),
        spanned(record(45, 0, 2, 1, 8, 4_294_967_295), field),
        record(46, 0, 0, 0, 0, 0),
        record(3, 2, 0, 0, 0, 0),
        spanned(record(47, 0, 8, 9, 11, 6), tombstone),
        spanned(record(43, 0, 3, 0, 0, 0), union),
        spanned(record(47, 1, NONE, NONE, NONE, 7), of_union),
        spanned(record(44, 0, 4, 0, 0, 8), variant),
    ];
    assert_eq!(lowered.results, expected);
}

#[test]
fn carried_through() {
    let mut book = Maker::default();
    let (bits, list) = (book.add(2, 1, 255, 0, 0, 0), book.add(9, 0, 65_535, 0, 0, 0));
    let fixed = book.add(7, 2, bits, 0, 0, u64::MAX);
    let both = book.add(8, 1, fixed, list, 0, 0);
    let expected = [
        record(2, 1, 255, 0, 0, 0),
        record(7, 2, 0, 0, 0, u64::MAX),
        record(9, 0, 65_535, 0, 0, 0),
        record(8, 1, 1, 2, 0, 0),
    ];
    assert_eq!(newtype_of(book, both).results[..4], expected);
}
