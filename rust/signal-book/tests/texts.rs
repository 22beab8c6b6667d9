//! What is printed: exact texts of sample books and answers, of every type and constraint, and in words.

mod common;

use common::made::{alias_of, constraint_texts, field_with};
use common::tables::{ANNOTATIONS, BIN_OPS, CMP_OPS, ENCODINGS, PRIMITIVES, SEMANTICS};
use common::Plain;
use signal_book::{
    lower, Accepted, Encoding, FieldEncoding, Name, Record, Results, Span, Text, TypeId, Words, DIAGNOSTICS_LIMIT,
    NONE, POISON_TYPE_ID, RESULTS_LIMIT,
};
use std::fmt::Debug;

/// Lowers a book with slices of the full limits.
fn lowered<T>(book: &[u8], look: impl FnOnce(Accepted) -> T) -> T {
    let (mut results, mut diagnostics) = (vec![0; RESULTS_LIMIT], vec![0; DIAGNOSTICS_LIMIT]);
    look(lower(book, &mut results, &mut diagnostics).unwrap())
}

/// Each view on a line of its own.
fn lines<T: Debug>(views: impl Iterator<Item = T>) -> Vec<String> {
    views.map(|view| format!("{view:?}")).collect()
}

#[test]
fn the_station() {
    let station = common::file("books/station.book");
    let expected = [
        "Constant { name: N13, ty: u16, value: Some(5), span: 120+3 }",
        "Constant { name: N14, ty: u32, value: Some(327675), span: 170+8 }",
        "Constant { name: N23, ty: u16, value: Some(10), span: 250+16 }",
        "Constant { name: N24, ty: u16, value: Some(10), span: 280+19 }",
        "Constant { name: N25, ty: u16, value: Some(3600), span: 330+24 }",
        "Constant { name: N32, ty: u8, value: Some(4), span: 440+35 }",
        "Constant { name: N33, ty: u8, value: Some(3), span: 490+40 }",
        "Message { name: N10, items: [\
         Field { name: N11, ordinal: 0, ty: u16, constraint: None, encoding: default, span: 200+11 }, \
         Field { name: N12, ordinal: 1, ty: u32, constraint: None, encoding: default, span: 220+13 }], span: 180+9 }",
        "Message { name: N20, items: [\
         Field { name: N21, ordinal: 0, ty: u16, constraint: None, encoding: default, span: 360+27 }, \
         Field { name: N22, ordinal: 1, ty: u16, constraint: Some(0 <= value < N25), encoding: default, span: 410+32 }], \
         span: 340+25 }",
        "Message { name: N30, items: [\
         Field { name: N31, ordinal: 0, ty: u8, constraint: Some(value <= N33), encoding: default, span: 540+45 }], \
         span: 500+41 }",
        "Message { name: N40, items: [\
         Field { name: N41, ordinal: 0, ty: array<type 2>, constraint: None, encoding: default, limit 24, span: 580+49 }], \
         span: 550+46 }",
        "Message { name: N50, items: [\
         Field { name: N51, ordinal: 0, ty: u16, constraint: None, encoding: delta over varint, span: 640+55 }, \
         Field { name: N52, ordinal: 1, ty: u32, constraint: None, encoding: delta over varint, span: 670+58 }, \
         Field { name: N53, ordinal: 2, ty: bool, constraint: None, encoding: default, span: 690+60 }], span: 610+52 }",
    ];
    lowered(&station, |accepted| {
        assert_eq!(lines(accepted.results().declarations()), expected);
        let whole = format!("Accepted {{ results: [{}], diagnostics: [], stored: 7 }}", expected.join(", "));
        assert_eq!(format!("{accepted:?}"), whole);
    });
}

#[test]
fn a_page_of_many_lines() {
    let log = common::file("books/log.book");
    let page = lowered(&log, |accepted| format!("{:#?}", accepted.results()));
    let first: Vec<&str> = page.lines().take(12).collect();
    let expected = [
        "[",
        "    Message {",
        "        name: N50,",
        "        items: [",
        "            Field {",
        "                name: N51,",
        "                ordinal: 0,",
        "                ty: u16,",
        "                constraint: None,",
        "                encoding: delta over varint,",
        "                span: 130+4,",
        "            },",
    ];
    assert_eq!(first, expected);
}

#[test]
fn a_book_with_a_record_of_every_sort() {
    let expected = [
        "Alias { name: N1, ty: map<u8, poison>, span: 140+5 }",
        "Alias { name: N2, ty: map<u8, poison>, span: 160+7 }",
        "Constant { name: N1, ty: rgb, value: None, span: 350+8 }",
        "Constant { name: N2, ty: poison, value: Some(7), span: 380+2 }",
        "Constant { name: N3, ty: type 9, value: Some(8), span: 410+5 }",
        "Constant { name: N4, ty: type 9, value: Some(9), span: 440+8 }",
        "Message { name: N10, items: [\
         Field { name: N0, ordinal: 0, ty: result<5-bit, array<5-bit>>, \
         constraint: Some((1 <= value <= 9 and not value < 7)), encoding: default, span: 550+1 }, \
         Tombstone { ordinal: 1, reason: None, since: None, ty: Some(poison), span: 570+3 }], span: 450+9 }",
        "Union { name: N11, items: [Variant { name: N0, ordinal: 0, items: [\
         Field { name: N0, ordinal: 0, ty: bits of list 3, constraint: None, encoding: default, span: 610+7 }], \
         span: 590+5 }, \
         Tombstone { ordinal: 2, reason: None, since: None, ty: None, span: 620+8 }], span: 580+4 }",
        "Newtype { name: N12, ty: poison, span: 650+2 }",
        "Newtype { name: N13, ty: poison, span: 680+5 }",
        "Newtype { name: N14, ty: poison, span: 710+8 }",
        "Newtype { name: N15, ty: poison, span: 740+2 }",
    ];
    lowered(&common::answer_of("cut-told-8").book, |accepted| {
        assert_eq!(lines(accepted.results().declarations()), expected);
    });
}

#[test]
fn its_diagnostics() {
    let expected = [
        ("UnresolvedType at 120+3", "the type N50 is not known"),
        ("ConstRefNotFound at 330+6", "the constant N1 has no value"),
        ("UnresolvedType at 360+9", "the type N60.N61 is not known"),
        ("UnresolvedType at 560+2", "the type N90 is in more than one wildcard import"),
        ("AliasTargetNotFound at 640+1", "N10 is no generic alias"),
        ("UnresolvedType at 670+4", "the generic type N70 is not known"),
        ("AliasTargetNotFound at 700+7", "N10 is no generic alias"),
        ("UnresolvedType at 730+1", "the type N71 is not known"),
    ];
    lowered(&common::answer_of("cut-told-8").book, |accepted| {
        let shown: Vec<String> = accepted.diagnostics().iter().map(|diagnostic| diagnostic.to_string()).collect();
        assert_eq!(shown, expected.map(|(_, text)| text));
        let debugged = expected.map(|(at, text)| format!("{at}: {text}"));
        assert_eq!(lines(accepted.diagnostics().iter()), debugged);
        assert_eq!(format!("{:?}", accepted.diagnostics()), format!("[{}]", debugged.join(", ")));
    });
}

#[test]
fn a_union_and_its_tombstones() {
    let union = "[Union { name: N1, items: [\
         Variant { name: N2, ordinal: 4294967295, items: [\
         Tombstone { ordinal: 3, reason: None, since: None, ty: None, span: 120+3 }], span: 110+2 }, \
         Tombstone { ordinal: 4, reason: None, since: None, ty: None, span: 130+4 }, \
         Variant { name: N3, ordinal: 5, items: [\
         Field { name: N4, ordinal: 4, ty: u8, constraint: None, encoding: default, span: 160+7 }], span: 140+5 }], \
         span: 100+1 }]";
    let shown = |name: &str| lowered(&common::answer_of(name).book, |accepted| format!("{:?}", accepted.results()));
    assert_eq!(shown("union"), union);
    let tombstones = "[Message { name: N1, items: [\
         Tombstone { ordinal: 0, reason: None, since: None, ty: Some(u8), span: 120+3 }, \
         Tombstone { ordinal: 1, reason: Some(S5), since: None, ty: None, span: 130+4 }, \
         Tombstone { ordinal: 2, reason: Some(S65534), since: Some(S7), ty: Some(u8), span: 180+9 }, \
         Tombstone { ordinal: 3, reason: None, since: None, ty: None, span: 220+4 }, \
         Tombstone { ordinal: 4, reason: None, since: None, ty: Some(u8), span: 260+8 }, \
         Tombstone { ordinal: 5, reason: Some(S0), since: Some(S0), ty: None, span: 290+2 }], span: 100+1 }]";
    assert_eq!(shown("tombstones"), tombstones);
}

/// A type as it is printed, and what it opens to.
fn type_texts(types: &[Plain]) -> (String, String) {
    let results = alias_of(types);
    let ty = Results::new(&results).unwrap().aliases().next().unwrap().ty();
    assert_eq!(format!("{ty:?}"), ty.to_string());
    (ty.to_string(), format!("{:?}", ty.resolved()))
}

/// What a type without parts must be printed as, and opened to.
fn assert_leaf(kind: u8, sub: u8, a: u16, v: u64, shown: &str, opened: &str) {
    let texts = type_texts(&[Plain::new(kind, sub, [a, 0, 0], v)]);
    assert_eq!(texts, (shown.to_string(), opened.to_string()));
}

#[test]
fn types_without_parts() {
    for (sub, (_, word)) in (0..).zip(PRIMITIVES) {
        assert_leaf(1, sub, 0, 0, word, &format!("Primitive({word})"));
    }
    for (sub, (_, word)) in (0..).zip(SEMANTICS) {
        assert_leaf(3, sub, 0, 0, word, &format!("Semantic({word})"));
    }
    assert_leaf(2, 0, 255, 0, "255-bit", "SubByte { signed: false, bits: 255 }");
    assert_leaf(2, 1, 3, 0, "signed 3-bit", "SubByte { signed: true, bits: 3 }");
    assert_leaf(4, 0, 0, 0, "type 0", "Named(type 0)");
    assert_leaf(4, 0, 0, 4_294_967_294, "type 4294967294", "Named(type 4294967294)");
    assert_leaf(4, 0, 0, 4_294_967_295, "poison", "Named(poison)");
    assert_leaf(9, 0, 65_535, 0, "bits of list 65535", "BitsInline(65535)");
}

#[test]
fn types_with_parts() {
    let (u8, bool) = (Plain::new(1, 1, [0; 3], 0), Plain::new(1, 0, [0; 3], 0));
    let one = [
        ("optional<u8>", "Optional(u8)"),
        ("array<u8>", "Array(u8)"),
        ("array[18446744073709551615]<u8>", "FixedArray(u8, 18446744073709551615)"),
        ("set<u8>", "Set(u8)"),
        ("vec2<u8>", "Vec2(u8)"),
        ("vec3<u8>", "Vec3(u8)"),
        ("vec4<u8>", "Vec4(u8)"),
        ("quat<u8>", "Quat(u8)"),
        ("mat3<u8>", "Mat3(u8)"),
        ("mat4<u8>", "Mat4(u8)"),
    ];
    for (sub, (shown, opened)) in (0..).zip(one) {
        let size = if sub == 2 { u64::MAX } else { 0 };
        let texts = type_texts(&[u8, Plain::new(7, sub, [0; 3], size)]);
        assert_eq!(texts, (shown.to_string(), opened.to_string()));
    }
    for (sub, (shown, opened)) in
        (0..).zip([("map<u8, bool>", "Map(u8, bool)"), ("result<u8, bool>", "Result(u8, bool)")])
    {
        let texts = type_texts(&[u8, bool, Plain::new(8, sub, [0, 1, 0], 0)]);
        assert_eq!(texts, (shown.to_string(), opened.to_string()));
    }
    let (array, set) = (Plain::new(7, 1, [0; 3], 0), Plain::new(7, 3, [2, 0, 0], 0));
    let (map, optional) = (Plain::new(8, 0, [1, 3, 0], 0), Plain::new(7, 0, [4, 0, 0], 0));
    assert_eq!(type_texts(&[u8, array, bool, set, map, optional]).0, "optional<map<array<u8>, set<bool>>>");
}

#[test]
fn operands_and_comparisons() {
    let operands = [
        (0, 0, u64::MAX, "-1", "Int(-1)"),
        (1, 0, 1.0_f64.to_bits(), "1.0", "Float(1.0)"),
        (1, 0, 0.1_f64.to_bits(), "0.1", "Float(0.1)"),
        (2, 65_534, 0, "S65534", "String(S65534)"),
        (3, 0, 0, "false", "Bool(false)"),
        (3, 0, 1, "true", "Bool(true)"),
        (5, 4095, 0, "N4095", "ConstRef(N4095)"),
    ];
    for (sub, a, v, shown, opened) in operands {
        let operand = Plain::new(16, sub, [a, 0, 0], v);
        for (op, (_, word)) in (0..).zip(CMP_OPS) {
            let texts = constraint_texts(&[operand, Plain::new(14, op, [2, 0, 0], 0)]);
            assert_eq!(texts, (format!("value {word} {shown}"), format!("Cmp {{ op: {word}, operand: {opened} }}")));
            let texts = constraint_texts(&[operand, Plain::new(14, op, [2, 0, 1], 0)]);
            assert_eq!(
                texts,
                (format!("length {word} {shown}"), format!("LenCmp {{ op: {word}, operand: {opened} }}"))
            );
        }
    }
}

#[test]
fn ranges() {
    let ends = [Plain::new(16, 0, [0; 3], 2), Plain::new(16, 5, [7, 0, 0], 0)];
    for (sub, length, shown, opened) in [
        (0, 0, "2 <= value <= N7", "Range { low: Int(2), high: ConstRef(N7), exclusive_high: false }"),
        (1, 0, "2 <= value < N7", "Range { low: Int(2), high: ConstRef(N7), exclusive_high: true }"),
        (0, 1, "2 <= length <= N7", "LenRange { low: Int(2), high: ConstRef(N7), exclusive_high: false }"),
        (1, 1, "2 <= length < N7", "LenRange { low: Int(2), high: ConstRef(N7), exclusive_high: true }"),
    ] {
        let texts = constraint_texts(&[ends[0], ends[1], Plain::new(15, sub, [2, 3, length], 0)]);
        assert_eq!(texts, (shown.to_string(), opened.to_string()));
    }
}

#[test]
fn logic() {
    let operand = |v| Plain::new(16, 0, [0; 3], v);
    let leaves = [operand(1), Plain::new(14, 3, [2, 0, 0], 0), operand(9), Plain::new(14, 2, [4, 0, 0], 0)];
    let with = |record: Plain| constraint_texts(&[&leaves[..], &[record]].concat());
    let texts = |shown: &str, opened: &str| (shown.to_string(), opened.to_string());
    let and = with(Plain::new(13, 0, [3, 5, 0], 0));
    assert_eq!(and, texts("(value > 1 and value < 9)", "And(value > 1, value < 9)"));
    let or = with(Plain::new(13, 1, [3, 5, 0], 0));
    assert_eq!(or, texts("(value > 1 or value < 9)", "Or(value > 1, value < 9)"));
    let not = constraint_texts(&[leaves[0], leaves[1], Plain::new(13, 2, [3, 0, 0], 0)]);
    assert_eq!(not, texts("not value > 1", "Not(value > 1)"));
}

#[test]
fn encodings() {
    let texts = [
        (Encoding::Default, false, None, "default"),
        (Encoding::Varint, false, None, "varint"),
        (Encoding::ZigZag, false, Some(0), "zigzag, limit 0"),
        (Encoding::Default, true, None, "delta"),
        (Encoding::Varint, true, None, "delta over varint"),
        (Encoding::ZigZag, true, Some(u64::MAX), "delta over zigzag, limit 18446744073709551615"),
    ];
    for (encoding, delta, limit, text) in texts {
        let encoding = FieldEncoding { encoding, delta, limit };
        assert_eq!((encoding.to_string(), format!("{encoding:?}")), (text.to_string(), text.to_string()));
    }
    assert_eq!(FieldEncoding::DEFAULT.to_string(), "default");
}

/// Each case of an enum of subs: its number, its word, and no more than these.
macro_rules! assert_subs {
    ($table:ident, $name:ident) => {
        for (sub, (case, word)) in (0..).zip($table) {
            assert_eq!((case.sub(), case.word()), (sub, word));
            assert_eq!((case.to_string(), format!("{case:?}")), (word.to_string(), word.to_string()));
            assert_eq!(signal_book::$name::from_sub(sub), Some(case));
        }
        assert_eq!(signal_book::$name::ALL, $table.map(|(case, _)| case));
        assert_eq!(signal_book::$name::from_sub($table.len() as u8), None);
        assert_eq!(signal_book::$name::from_sub(255), None);
    };
}

#[test]
fn subs_have_their_numbers_and_words() {
    assert_subs!(PRIMITIVES, PrimitiveType);
    assert_subs!(SEMANTICS, SemanticType);
    assert_subs!(BIN_OPS, BinOpKind);
    assert_subs!(CMP_OPS, CmpOp);
    assert_subs!(ANNOTATIONS, Annotation);
    assert_subs!(ENCODINGS, Encoding);
}

#[test]
fn names_strings_and_spans() {
    assert_eq!(Name::new(4095).map(|name| (name.number(), name.to_string())), Some((4095, "N4095".to_string())));
    assert_eq!((Name::new(4096), Name::new(NONE)), (None, None));
    assert_eq!(Text::new(65_534).map(|text| (text.number(), text.to_string())), Some((65_534, "S65534".to_string())));
    assert_eq!((Text::new(NONE), NONE), (None, 65_535));
    let span = Span::from((100, 1));
    assert_eq!((span.offset, span.length, span.to_string()), (100, 1, "100+1".to_string()));
    assert_eq!(Span::NONE, Span::from((0, 0)));
    assert_eq!((POISON_TYPE_ID.index(), POISON_TYPE_ID.to_string()), (u32::MAX, "poison".to_string()));
}

#[test]
fn records_of_a_book() {
    let book = common::file("books/station.book");
    let plain = common::book_records(&book);
    assert_eq!(plain.len(), 60);
    for (number, plain) in plain.iter().enumerate() {
        let fields = Record::of_book(&book, number).unwrap().fields();
        assert_eq!((fields.kind, fields.sub, fields.a, fields.b), (plain.kind, plain.sub, plain.a, plain.b));
        assert_eq!((fields.c, fields.v, fields.span), (plain.c, plain.v, plain.span.into()));
        assert_eq!(fields.bytes().to_vec(), plain.bytes());
    }
    assert!(Record::of_book(&book, 62).is_some(), "the last place of three blocks");
    assert!(Record::of_book(&book, 63).is_none());
    let shown = format!("{:?}", Record::of_book(&book, 48).unwrap());
    assert_eq!(shown, "kind 31 sub 0 a 41 b 47 c 65535 v 0 span 580+49");
}

/// The names of the sample books, and of what answers have.
struct Sample<'a> {
    results: Results<'a>,
}

impl Words for Sample<'_> {
    fn name(&self, name: Name) -> String {
        match name.number() {
            25 => "FULL_CIRCLE".to_string(),
            30 => "Door".to_string(),
            33 => "LAST_STATE".to_string(),
            number => format!("name {number}"),
        }
    }

    fn text(&self, text: Text) -> String {
        format!("{:?}", ["red", "green", "blue"][usize::from(text.number())])
    }

    fn type_id(&self, id: TypeId) -> String {
        self.results.declared(id).map_or("(unknown)".to_string(), |declaration| self.name(declaration.name()))
    }
}

#[test]
fn the_station_in_words() {
    lowered(&common::file("books/station.book"), |accepted| {
        let results = accepted.results();
        let words = Sample { results };
        let fields: Vec<_> = results.messages().flat_map(|message| message.fields()).collect();
        let constraints: Vec<String> =
            fields.iter().flat_map(|field| field.constraint()).map(|it| it.in_words(&words).to_string()).collect();
        assert_eq!(constraints, ["0 <= value < FULL_CIRCLE", "value <= LAST_STATE"]);
        let types: Vec<String> = fields.iter().map(|field| field.ty().in_words(&words).to_string()).collect();
        assert_eq!(types, ["u16", "u32", "u16", "u16", "u8", "array<Door>", "u16", "u32", "bool"]);
        assert_eq!(format!("{:?}", fields[5].ty().in_words(&words)), "array<Door>");
    });
}

#[test]
fn diagnostics_in_words() {
    lowered(&common::answer_of("cut-told-8").book, |accepted| {
        let words = Sample { results: accepted.results() };
        let told: Vec<String> = accepted.diagnostics().iter().map(|it| it.in_words(&words).to_string()).collect();
        let expected = [
            "the type name 50 is not known",
            "the constant name 1 has no value",
            "the type name 60.name 61 is not known",
            "the type name 90 is in more than one wildcard import",
            "name 10 is no generic alias",
            "the generic type name 70 is not known",
            "name 10 is no generic alias",
            "the type name 71 is not known",
        ];
        assert_eq!(told, expected);
        let ty = accepted.results().aliases().next().unwrap().ty();
        assert_eq!(ty.in_words(&words).to_string(), "map<u8, (unknown)>", "words go into both parts");
    });
}

#[test]
fn strings_in_words() {
    let operand = |sub, a| Plain::new(16, sub, [a, 0, 0], 0);
    let cmp = |op, a| Plain::new(14, op, [a, 0, 0], 0);
    let logic = |sub, a, b| Plain::new(13, sub, [a, b, 0], 0);
    let records = [
        operand(2, 1),
        cmp(0, 2),
        operand(2, 0),
        operand(2, 2),
        Plain::new(15, 1, [4, 5, 0], 0),
        logic(2, 6, 0),
        logic(1, 3, 7),
        operand(5, 33),
        cmp(2, 9),
        logic(0, 8, 10),
    ];
    let results = field_with(&records);
    let results = Results::new(&results).unwrap();
    let constraint = results.messages().next().unwrap().fields().next().unwrap().constraint().unwrap();
    let words = Sample { results };
    let text = r#"((value == "green" or not "red" <= value < "blue") and value < LAST_STATE)"#;
    assert_eq!(constraint.in_words(&words).to_string(), text);
}
