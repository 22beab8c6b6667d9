//! Books of the list written again by [`BookBuilder`], by its typed methods and record by record; and two by hand.

mod common;

use common::tables::{ANNOTATIONS, BIN_OPS, CMP_OPS, PRIMITIVES, SEMANTICS};
use common::{Answer, Plain};
use signal_book::{
    lower, Argument, BinOpKind, BookBuilder, ConstraintPart, ExprPart, Fields, Name, Of, Operand, OperandPart,
    PrimitiveType, Text, TombstoneKey, TypePart, WrongLength, NONE, RESULTS_LIMIT,
};
use std::collections::{BTreeSet, HashMap};

/// Writes the records of a book again by the typed methods. A part is kept under its record number until its parent is
/// written, which takes it.
#[derive(Default)]
struct Rewriter {
    book: BookBuilder,
    types: HashMap<u16, TypePart>,
    exprs: HashMap<u16, ExprPart>,
    constraints: HashMap<u16, ConstraintPart>,
    operands: HashMap<u16, OperandPart>,
}

fn take<T>(parts: &mut HashMap<u16, T>, number: u16) -> T {
    parts.remove(&number).expect("a child stands earlier and is used once")
}

fn name(number: u16) -> Name {
    Name::new(number).unwrap()
}

fn ordinal(record: Plain) -> u32 {
    record.v.try_into().unwrap()
}

/// Whether a sub, or the field *c*, says yes; a third value is a fault of the test.
fn yes(value: impl Into<u64>) -> bool {
    [false, true][value.into() as usize]
}

impl Rewriter {
    fn ty(&mut self, record: Plain) -> TypePart {
        let Plain { sub, a, b, v, span, .. } = record;
        match record.kind {
            1 => self.book.primitive(PRIMITIVES[usize::from(sub)].0, span),
            2 => self.book.sub_byte(yes(sub), a.try_into().unwrap(), span),
            3 => self.book.semantic(SEMANTICS[usize::from(sub)].0, span),
            4 => self.book.named(name(a), span),
            5 => self.book.qualified(name(a), name(b), span),
            6 => self.book.generic(name(a), take(&mut self.types, b), span),
            7 => self.of_one(sub, a, v, span),
            8 if sub == 0 => self.book.map(take(&mut self.types, a), take(&mut self.types, b), span),
            8 => self.book.result(take(&mut self.types, a), take(&mut self.types, b), span),
            _ => self.book.bits_inline(a, span),
        }
    }

    fn of_one(&mut self, sub: u8, inner: u16, size: u64, span: (u32, u32)) -> TypePart {
        let inner = take(&mut self.types, inner);
        match sub {
            0 => self.book.optional(inner, span),
            1 => self.book.array(inner, span),
            2 => self.book.fixed_array(inner, size, span),
            3 => self.book.set(inner, span),
            4 => self.book.vec2(inner, span),
            5 => self.book.vec3(inner, span),
            6 => self.book.vec4(inner, span),
            7 => self.book.quat(inner, span),
            8 => self.book.mat3(inner, span),
            _ => self.book.mat4(inner, span),
        }
    }

    fn expr(&mut self, record: Plain) -> ExprPart {
        let Plain { sub, a, b, v, span, .. } = record;
        match (record.kind, sub) {
            (10, 0) => self.book.int(v as i64, span),
            (10, 1) => self.book.uint(v, span),
            (10, 2) => self.book.float(f64::from_bits(v), span),
            (10, 3) => self.book.hex(v, span),
            (10, _) => self.book.bool(yes(v), span),
            (11, _) => self.book.const_ref(name(a), span),
            _ => {
                let (left, right) = (take(&mut self.exprs, a), take(&mut self.exprs, b));
                self.book.bin_op(BIN_OPS[usize::from(sub)].0, left, right, span)
            }
        }
    }

    fn constraint(&mut self, record: Plain) -> ConstraintPart {
        let Plain { sub, a, b, span, .. } = record;
        let of = if yes(record.c) { Of::Length } else { Of::Value };
        match (record.kind, sub) {
            (13, 0) => self.book.and(take(&mut self.constraints, a), take(&mut self.constraints, b), span),
            (13, 1) => self.book.or(take(&mut self.constraints, a), take(&mut self.constraints, b), span),
            (13, _) => self.book.not(take(&mut self.constraints, a), span),
            (14, _) => self.book.cmp(of, CMP_OPS[usize::from(sub)].0, take(&mut self.operands, a), span),
            _ => {
                let (low, high) = (take(&mut self.operands, a), take(&mut self.operands, b));
                self.book.range(of, low, high, yes(sub), span)
            }
        }
    }

    fn operand(&mut self, record: Plain) -> OperandPart {
        let operand = match record.sub {
            0 => Operand::Int(record.v as i64),
            1 => Operand::Float(f64::from_bits(record.v)),
            2 => Operand::String(Text::new(record.a).unwrap()),
            3 => Operand::Bool(yes(record.v)),
            4 => Operand::Value,
            _ => Operand::ConstRef(name(record.a)),
        };
        self.book.operand(operand, record.span)
    }

    fn declaration(&mut self, record: Plain) {
        let Plain { a, b, c, span, .. } = record;
        match record.kind {
            20 => self.book.message(name(a), span),
            21 => self.book.union(name(a), span),
            22 => self.book.newtype(name(a), take(&mut self.types, b), span),
            23 => self.book.alias(name(a), take(&mut self.types, b), span),
            24 => self.book.constant(name(a), take(&mut self.types, b), take(&mut self.exprs, c), span),
            _ => self.book.ambiguous(name(a), span),
        }
    }

    fn item(&mut self, record: Plain) {
        let Plain { sub, a, span, .. } = record;
        match record.kind {
            30 => self.book.type_param(name(a), span),
            31 => self.field(record),
            32 => self.tombstone(record),
            33 => self.book.variant(name(a), ordinal(record), span),
            34 => self.book.annotation(ANNOTATIONS[usize::from(sub)].0, span),
            35 => {
                let argument = [Argument::Int(record.v), Argument::Hex(record.v), Argument::Other][usize::from(sub)];
                self.book.argument((a != NONE).then(|| name(a)), argument, span)
            }
            _ => {
                let key = [TombstoneKey::Reason, TombstoneKey::Since, TombstoneKey::Other][usize::from(sub)];
                self.book.tombstone_argument(key, Text::new(a), span)
            }
        }
    }

    fn field(&mut self, record: Plain) {
        let ty = take(&mut self.types, record.b);
        let constraint = (record.c != NONE).then(|| take(&mut self.constraints, record.c));
        self.book.field(name(record.a), ty, constraint, ordinal(record), record.span);
    }

    fn tombstone(&mut self, record: Plain) {
        let ty = (record.c != NONE).then(|| take(&mut self.types, record.c));
        match record.sub {
            0 => self.book.tombstone(ty, ordinal(record), record.span),
            _ => self.book.union_tombstone(ty, ordinal(record), record.span),
        }
    }

    fn record(&mut self, record: Plain) {
        let number = self.book.len() as u16;
        match record.kind {
            1..=9 => {
                let part = self.ty(record);
                self.types.insert(number, part);
            }
            10..=12 => {
                let part = self.expr(record);
                self.exprs.insert(number, part);
            }
            13..=15 => {
                let part = self.constraint(record);
                self.constraints.insert(number, part);
            }
            16 => {
                let part = self.operand(record);
                self.operands.insert(number, part);
            }
            20..=25 => self.declaration(record),
            _ => self.item(record),
        }
        assert_eq!(self.book.len(), usize::from(number) + 1, "a method writes one record");
    }
}

/// The fields of a record.
fn fields(Plain { kind, sub, a, b, c, v, span }: Plain) -> Fields {
    Fields { kind, sub, a, b, c, v, span: span.into() }
}

/// The book with these records by the typed methods, and with more of them as they are.
fn by_typed_methods(records: &[Plain], behind: &[Plain], wildcards: bool) -> Vec<u8> {
    let mut rewriter = Rewriter::default();
    rewriter.book.wildcards(wildcards);
    records.iter().for_each(|&record| rewriter.record(record));
    for &record in behind {
        rewriter.book.record(fields(record));
    }
    rewriter.book.finish().unwrap()
}

/// The book with these records as they are.
fn by_fields(records: &[Plain], wildcards: bool) -> Vec<u8> {
    let mut book = BookBuilder::new();
    for (number, &record) in records.iter().enumerate() {
        assert_eq!(usize::from(book.record(fields(record))), number);
    }
    book.wildcards(wildcards);
    book.finish().unwrap()
}

/// The answers whose cause is none or in a range, with the records of their books.
fn answers_of(causes: std::ops::RangeInclusive<u32>) -> Vec<(Answer, Vec<Plain>)> {
    let wanted = |answer: &Answer| answer.accepted() || causes.contains(&answer.reply[0]);
    let answers = common::answers().into_iter().filter(wanted);
    answers
        .map(|answer| (common::book_records(&answer.book), answer))
        .map(|(records, answer)| (answer, records))
        .collect()
}

/// The operand that stands for the value itself. Its *v* is not carried: the typed method writes 0 there.
fn without_value(record: Plain) -> Plain {
    match (record.kind, record.sub) {
        (16, 4) => Plain { v: 0, ..record },
        _ => record,
    }
}

/// How many records at the front of a book are known to be right at causes 4 and 5: all of them; but where a record is
/// refused by 6 to 8, those behind it are not looked at.
fn right_front(answer: &Answer, records: &[Plain]) -> usize {
    match answer.reply {
        [6..=8, place, ..] => place as usize + 1,
        _ => records.len(),
    }
}

#[test]
fn books_are_written_again_by_typed_methods() {
    let (mut equal, mut seen) = (0, BTreeSet::new());
    for (answer, records) in answers_of(6..=10) {
        let (front, behind) = records.split_at(right_front(&answer, &records));
        let written = by_typed_methods(front, behind, answer.book[3] == 1);
        let typed: Vec<Plain> = front.iter().map(|&record| without_value(record)).collect();
        if typed == front {
            assert!(written == answer.book, "{}", answer.name);
            equal += 1;
        } else {
            // An operand Value whose v is not zero: the typed method writes zero.
            assert_eq!(common::book_records(&written), [&typed, behind].concat(), "{}", answer.name);
        }
        seen.extend(front.iter().map(|record| (record.kind, record.sub)));
    }
    assert_eq!(seen, every_record().collect::<BTreeSet<_>>(), "every kind and sub is in the list");
    assert!(equal >= 570, "{equal} books are equal");
}

/// Each kind and sub of section 2.
fn every_record() -> impl Iterator<Item = (u8, u8)> {
    let types = [(1, 13), (2, 1), (3, 5), (4, 0), (5, 0), (6, 0), (7, 9), (8, 1), (9, 0)];
    let others = [(10, 4), (11, 0), (12, 9), (13, 2), (14, 5), (15, 1), (16, 5)];
    let declarations = (20..=25).map(|kind| (kind, 0));
    let items = [(30, 0), (31, 0), (32, 1), (33, 0), (34, 4), (35, 2), (36, 2)];
    let all = types.into_iter().chain(others).chain(declarations).chain(items);
    all.flat_map(|(kind, last)| (0..=last).map(move |sub| (kind, sub)))
}

#[test]
fn books_are_written_again_record_by_record() {
    let books = answers_of(4..=10);
    for (answer, records) in &books {
        assert!(by_fields(records, answer.book[3] == 1) == answer.book, "{}", answer.name);
    }
    assert!(books.len() >= 980, "{} books", books.len());
    let wild = books.iter().filter(|(answer, _)| answer.book[3] == 1 && answer.book.len() > 512).count();
    assert!(wild >= 10, "{wild} books of several blocks have wildcards");
    let long = books.iter().filter(|(answer, _)| answer.book.len() == 32_768).count();
    assert!(long >= 2, "{long} books have 64 blocks");
}

#[test]
fn a_book_of_each_length() {
    let mut book = BookBuilder::new();
    assert!(book.is_empty());
    let mut lengths = Vec::new();
    for count in 1..=1345 {
        let _unused = book.primitive(PrimitiveType::U8, (count, 1));
        assert!(!book.is_empty() && book.len() == count as usize);
        if [1, 21, 22, 1344].contains(&count) {
            let bytes = book.finish().unwrap();
            assert_eq!(lower(&bytes, &mut [], &mut []).map(|accepted| accepted.stored()), Ok(0), "{count} records");
            lengths.push(bytes.len());
        }
    }
    assert_eq!(lengths, [512, 512, 1024, 32_768]);
    assert_eq!(book.finish(), Err(WrongLength(1345)));
}

#[test]
fn a_book_of_a_wrong_length_is_an_error() {
    assert_eq!(BookBuilder::new().finish(), Err(WrongLength(0)));
    assert_eq!(WrongLength(0).to_string(), "a book has at least one record");
    let mut book = BookBuilder::new();
    (0..70_000).for_each(|number| assert_eq!(book.record(Fields::default()), number.min(65_535) as u16));
    assert_eq!(book.finish(), Err(WrongLength(70_000)));
    let error: Box<dyn std::error::Error> = book.finish().unwrap_err().into();
    assert_eq!(error.to_string(), "a book has at most 1344 records, and this has 70000");
}

#[test]
fn checks_that_must_be_folded() {
    let with = |span: (u32, u32)| {
        let mut book = BookBuilder::new();
        let _unused = book.primitive(PrimitiveType::U8, span);
        book.finish().unwrap()[510..].to_vec()
    };
    // The blocks of section 1 of `docs/FORMAT.md`; the sum of the second is folded twice.
    assert_eq!(with((0, 0)), [0xFD, 0xFE]);
    assert_eq!(with((4_294_967_293, 4_294_967_295)), [0xFF, 0xFE]);
    assert_eq!(with((65_276, 1)), [0x00, 0x00]);
}

#[test]
fn wildcards_can_be_said_again() {
    let mut book = BookBuilder::new();
    let _unused = book.primitive(PrimitiveType::U8, (0, 0));
    let without = book.finish().unwrap();
    book.wildcards(true);
    let with = book.finish().unwrap();
    assert_eq!((without[3], with[3]), (0, 1));
    book.wildcards(false);
    assert_eq!(book.finish().unwrap(), without);
}

/// The constants of a book, by number and value.
fn constants(book: &[u8]) -> Vec<(u16, Option<i64>)> {
    let mut results = vec![0; RESULTS_LIMIT];
    let lowered = lower(book, &mut results, &mut []).unwrap();
    lowered.results().constants().map(|constant| (constant.name().number(), constant.value())).collect()
}

#[test]
fn k1_by_hand() {
    let mut book = BookBuilder::new();
    let six = book.int(6, (100, 1));
    let ty = book.primitive(PrimitiveType::U8, (110, 2));
    book.constant(name(1), ty, six, (120, 3));
    let n1 = book.const_ref(name(1), (130, 4));
    let seven = book.int(7, (140, 5));
    let product = book.bin_op(BinOpKind::Mul, n1, seven, (150, 6));
    let ty = book.primitive(PrimitiveType::U8, (160, 7));
    book.constant(name(2), ty, product, (170, 8));
    let book = book.finish().unwrap();
    assert_eq!(book, common::file("books/k1.book"));
    assert_eq!(constants(&book), [(1, Some(6)), (2, Some(42))]);
}

/// The rope of `tools/book-samples.txt`.
fn rope() -> Vec<u8> {
    // The span that the record of a number has.
    let at = |number: u32| (100 + 10 * number, number + 1);
    let mut book = BookBuilder::new();
    let five = book.int(5, at(0));
    let ty = book.primitive(PrimitiveType::U16, at(1));
    book.constant(name(13), ty, five, at(2));
    let newtons_per_step = book.const_ref(name(13), at(3));
    let steps = book.int(65_535, at(4));
    let product = book.bin_op(BinOpKind::Mul, newtons_per_step, steps, at(5));
    let ty = book.primitive(PrimitiveType::U32, at(6));
    book.constant(name(14), ty, product, at(7));
    book.message(name(10), at(8));
    let ty = book.primitive(PrimitiveType::U16, at(9));
    book.field(name(11), ty, None, 0, at(10));
    let ty = book.primitive(PrimitiveType::U32, at(11));
    book.field(name(12), ty, None, 1, at(12));
    book.finish().unwrap()
}

#[test]
fn the_rope_by_hand() {
    let book = rope();
    assert_eq!(book, common::file("books/rope.book"));
    assert_eq!(constants(&book), [(13, Some(5)), (14, Some(327_675))]);
    let mut results = vec![0; RESULTS_LIMIT];
    let lowered = lower(&book, &mut results, &mut []).unwrap();
    let message = lowered.results().messages().next().unwrap();
    let fields: Vec<_> = message.fields().map(|field| (field.name().number(), field.ty().to_string())).collect();
    assert_eq!((message.name(), fields), (name(10), vec![(11, "u16".to_string()), (12, "u32".to_string())]));
}
