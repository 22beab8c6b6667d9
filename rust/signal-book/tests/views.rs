//! The result and diagnostic records of every accepted answer, written again from the views alone.

mod common;

use common::tables::{sub, CMP_OPS, ENCODINGS, PRIMITIVES, SEMANTICS};
use common::{Answer, Plain};
use signal_book::{
    Constraint, ConstraintOperand, Declaration, Diagnostic, Diagnostics, ErrorClass, Field, FieldConstraint, Item,
    Message, Name, ResolvedType, Results, Span, Told, Tombstone, Type, Union, UnionItem, Variant, NONE, POISON_TYPE_ID,
};
use std::collections::BTreeSet;
use std::fmt::Debug;

/// Writes result records by section 6 of `docs/FORMAT.md`: children first, left before right, root last.
#[derive(Default)]
struct Writer {
    records: Vec<Plain>,
}

impl Writer {
    fn push(&mut self, kind: u8, sub: u8, fields: [u16; 3], v: u64, span: Span) -> u16 {
        let span = (span.offset, span.length);
        self.records.push(Plain { span, ..Plain::new(kind, sub, fields, v) });
        (self.records.len() - 1) as u16
    }

    /// A record of a tree, which has no span.
    fn part(&mut self, kind: u8, sub: u8, fields: [u16; 3], v: u64) -> u16 {
        self.push(kind, sub, fields, v, Span::NONE)
    }

    fn ty(&mut self, ty: Type) -> u16 {
        match ty.resolved() {
            ResolvedType::Primitive(primitive) => self.part(1, sub(&PRIMITIVES, primitive), [0; 3], 0),
            ResolvedType::SubByte { signed, bits } => self.part(2, signed.into(), [bits.into(), 0, 0], 0),
            ResolvedType::Semantic(semantic) => self.part(3, sub(&SEMANTICS, semantic), [0; 3], 0),
            ResolvedType::Named(id) => self.part(4, 0, [0; 3], id.index().into()),
            ResolvedType::Optional(inner) => self.one(0, inner, 0),
            ResolvedType::Array(inner) => self.one(1, inner, 0),
            ResolvedType::FixedArray(inner, size) => self.one(2, inner, size),
            ResolvedType::Set(inner) => self.one(3, inner, 0),
            ResolvedType::Vec2(inner) => self.one(4, inner, 0),
            ResolvedType::Vec3(inner) => self.one(5, inner, 0),
            ResolvedType::Vec4(inner) => self.one(6, inner, 0),
            ResolvedType::Quat(inner) => self.one(7, inner, 0),
            ResolvedType::Mat3(inner) => self.one(8, inner, 0),
            ResolvedType::Mat4(inner) => self.one(9, inner, 0),
            ResolvedType::Map(key, value) => self.two(0, key, value),
            ResolvedType::Result(ok, err) => self.two(1, ok, err),
            ResolvedType::BitsInline(list) => self.part(9, 0, [list, 0, 0], 0),
        }
    }

    fn one(&mut self, sub: u8, inner: Type, size: u64) -> u16 {
        let inner = self.ty(inner);
        self.part(7, sub, [inner, 0, 0], size)
    }

    fn two(&mut self, sub: u8, left: Type, right: Type) -> u16 {
        let (left, right) = (self.ty(left), self.ty(right));
        self.part(8, sub, [left, right, 0], 0)
    }

    fn constraint(&mut self, constraint: Constraint) -> u16 {
        match constraint.constraint() {
            FieldConstraint::And(left, right) => self.logic(0, left, right),
            FieldConstraint::Or(left, right) => self.logic(1, left, right),
            FieldConstraint::Not(inner) => {
                let inner = self.constraint(inner);
                self.part(13, 2, [inner, 0, 0], 0)
            }
            FieldConstraint::Cmp { op, operand } => self.cmp(sub(&CMP_OPS, op), operand, 0),
            FieldConstraint::LenCmp { op, operand } => self.cmp(sub(&CMP_OPS, op), operand, 1),
            FieldConstraint::Range { low, high, exclusive_high } => self.range(exclusive_high, [low, high], 0),
            FieldConstraint::LenRange { low, high, exclusive_high } => self.range(exclusive_high, [low, high], 1),
        }
    }

    fn logic(&mut self, sub: u8, left: Constraint, right: Constraint) -> u16 {
        let (left, right) = (self.constraint(left), self.constraint(right));
        self.part(13, sub, [left, right, 0], 0)
    }

    fn cmp(&mut self, sub: u8, operand: ConstraintOperand, length: u16) -> u16 {
        let operand = self.operand(operand);
        self.part(14, sub, [operand, 0, length], 0)
    }

    fn range(&mut self, exclusive_high: bool, ends: [ConstraintOperand; 2], length: u16) -> u16 {
        let [low, high] = ends.map(|end| self.operand(end));
        self.part(15, exclusive_high.into(), [low, high, length], 0)
    }

    fn operand(&mut self, operand: ConstraintOperand) -> u16 {
        let (sub, a, v) = match operand {
            ConstraintOperand::Int(value) => (0, 0, value as u64),
            ConstraintOperand::Float(value) => (1, 0, value.to_bits()),
            ConstraintOperand::String(text) => (2, text.number(), 0),
            ConstraintOperand::Bool(value) => (3, 0, value.into()),
            ConstraintOperand::ConstRef(name) => (5, name.number(), 0),
        };
        self.part(16, sub, [a, 0, 0], v)
    }

    fn field(&mut self, field: Field) {
        let ty = self.ty(field.ty());
        let constraint = field.constraint().map_or(NONE, |constraint| self.constraint(constraint));
        self.push(45, 0, [field.name().number(), ty, constraint], field.ordinal().into(), field.span());
        let encoding = field.encoding();
        let flags = [encoding.delta.into(), encoding.limit.is_some().into(), 0];
        self.part(46, sub(&ENCODINGS, encoding.encoding), flags, encoding.limit.unwrap_or(0));
    }

    /// A tombstone: the sub says whether it is of the union itself.
    fn tombstone(&mut self, tombstone: Tombstone, sub: u8) {
        let ty = tombstone.ty().map_or(NONE, |ty| self.ty(ty));
        let [reason, since] =
            [tombstone.reason(), tombstone.since()].map(|text| text.map_or(NONE, |text| text.number()));
        self.push(47, sub, [reason, since, ty], tombstone.ordinal().into(), tombstone.span());
    }

    fn item(&mut self, item: Item) {
        match item {
            Item::Field(field) => self.field(field),
            Item::Tombstone(tombstone) => self.tombstone(tombstone, 0),
        }
    }

    fn message(&mut self, message: Message) {
        self.push(42, 0, [message.name().number(), 0, 0], 0, message.span());
        message.items().for_each(|item| self.item(item));
    }

    fn variant(&mut self, variant: Variant) {
        self.push(44, 0, [variant.name().number(), 0, 0], variant.ordinal().into(), variant.span());
        variant.items().for_each(|item| self.item(item));
    }

    fn union(&mut self, union: Union) {
        self.push(43, 0, [union.name().number(), 0, 0], 0, union.span());
        union.items().for_each(|item| match item {
            UnionItem::Variant(variant) => self.variant(variant),
            UnionItem::Tombstone(tombstone) => self.tombstone(tombstone, 1),
        });
    }

    /// A declaration that is a type and its own record.
    fn typed(&mut self, kind: u8, name: Name, ty: Type, value: Option<i64>, span: Span) {
        let ty = self.ty(ty);
        self.push(kind, value.is_some().into(), [name.number(), ty, 0], value.unwrap_or(0) as u64, span);
    }

    fn declaration(&mut self, declaration: Declaration) {
        match declaration {
            Declaration::Alias(alias) => self.typed(40, alias.name(), alias.ty(), None, alias.span()),
            Declaration::Constant(it) => self.typed(41, it.name(), it.ty(), it.value(), it.span()),
            Declaration::Newtype(it) => self.typed(48, it.name(), it.ty(), None, it.span()),
            Declaration::Message(message) => self.message(message),
            Declaration::Union(union) => self.union(union),
        }
    }
}

/// The results, written again.
fn rewritten(results: Results) -> Vec<Plain> {
    let mut writer = Writer::default();
    results.declarations().for_each(|declaration| writer.declaration(declaration));
    writer.records
}

/// A diagnostic, written again.
fn told(diagnostic: Diagnostic) -> Plain {
    let (sub, name, member) = match diagnostic.told() {
        Told::Ambiguous(name) => (0, name, 0),
        Told::Unknown(name) => (1, name, 0),
        Told::UnknownPair { namespace, name } => (2, namespace, name.number()),
        Told::NotGeneric(name) => (3, name, 0),
        Told::UnknownHead(name) => (4, name, 0),
        Told::NoValue(name) => (5, name, 0),
    };
    let class = match diagnostic.class() {
        ErrorClass::UnresolvedType => 0,
        ErrorClass::AliasTargetNotFound => 1,
        ErrorClass::ConstRefNotFound => 2,
    };
    assert_eq!(diagnostic.message(), sub);
    let span = (diagnostic.span().offset, diagnostic.span().length);
    Plain { span, ..Plain::new(50, sub, [name.number(), member, 0], class) }
}

/// Every accepted answer with its results and diagnostics.
fn each_accepted(mut look: impl FnMut(&Answer, Results, Diagnostics)) {
    let answers = common::answers();
    for answer in answers.iter().filter(|answer| answer.accepted()) {
        let (mut results, mut diagnostics) = answer.lent();
        let lowered = signal_book::lower(&answer.book, &mut results, &mut diagnostics).unwrap();
        look(answer, lowered.results(), lowered.diagnostics());
    }
}

#[test]
fn results_are_written_again_from_the_views() {
    let mut seen = BTreeSet::new();
    each_accepted(|answer, results, _| {
        let expected = common::records(answer.written().0);
        assert_eq!(rewritten(results), expected, "{}", answer.name);
        seen.extend(expected.iter().map(|record| (record.kind, record.sub)));
    });
    let every: BTreeSet<(u8, u8)> = every_result().collect();
    assert_eq!(seen, every, "every kind and sub is in the list");
}

/// Each kind and sub of section 6.
fn every_result() -> impl Iterator<Item = (u8, u8)> {
    let last = [(1, 13), (2, 1), (3, 5), (4, 0), (7, 9), (8, 1), (9, 0), (13, 2), (14, 5), (15, 1), (16, 5)];
    let declared = [(40, 0), (41, 1), (42, 0), (43, 0), (44, 0), (45, 0), (46, 2), (47, 1), (48, 0)];
    let all = last.into_iter().chain(declared).flat_map(|(kind, last)| (0..=last).map(move |sub| (kind, sub)));
    all.filter(|&one| one != (16, 4))
}

#[test]
fn diagnostics_are_written_again_from_the_views() {
    let mut seen = BTreeSet::new();
    each_accepted(|answer, _, diagnostics| {
        let expected = common::records(answer.written().1);
        assert_eq!(diagnostics.iter().map(told).collect::<Vec<_>>(), expected, "{}", answer.name);
        seen.extend(expected.iter().map(|record| (record.sub, record.v)));
    });
    assert_eq!(seen, BTreeSet::from([(0, 0), (1, 0), (2, 0), (3, 1), (4, 0), (5, 2)]));
}

#[test]
fn what_was_kept_is_read_again() {
    each_accepted(|answer, results, diagnostics| {
        let (kept, told) = answer.written();
        let again = Results::new(kept).unwrap_or_else(|| panic!("{}: results", answer.name));
        assert_eq!(format!("{again:?}"), format!("{results:?}"), "{}", answer.name);
        assert_eq!((again.bytes(), again.is_empty()), (kept, kept.is_empty()));
        let again = Diagnostics::new(told).unwrap_or_else(|| panic!("{}: diagnostics", answer.name));
        assert_eq!(format!("{again:?}"), format!("{diagnostics:?}"), "{}", answer.name);
        assert_eq!((again.bytes(), again.is_empty()), (told, told.is_empty()));
    });
}

#[test]
fn records_are_as_they_lie() {
    each_accepted(|answer, results, diagnostics| {
        let (kept, told) = answer.written();
        let by_number: Vec<_> = (0..results.len()).map(|number| results.record(number).unwrap()).collect();
        assert_eq!(results.records().collect::<Vec<_>>(), by_number);
        assert!(results.record(results.len()).is_none() && results.record(usize::MAX).is_none());
        let bytes = |records: Vec<signal_book::Record>| -> Vec<u8> {
            records.into_iter().flat_map(|record| record.fields().bytes()).collect()
        };
        assert!(bytes(by_number) == kept, "{}: results", answer.name);
        assert!(bytes(diagnostics.records().collect()) == told, "{}: diagnostics", answer.name);
    });
}

/// A list of views as it is printed, to compare views.
fn printed<T: Debug>(views: impl Iterator<Item = T>) -> String {
    format!("{:?}", views.collect::<Vec<_>>())
}

#[test]
fn each_list_is_its_part_of_the_declarations() {
    each_accepted(|answer, results, _| {
        let all: Vec<Declaration> = results.declarations().collect();
        let of = |wanted: fn(&Declaration) -> bool| printed(all.iter().filter(|one| wanted(one)));
        let name = &answer.name;
        assert_eq!(printed(results.aliases()), of(|one| matches!(one, Declaration::Alias(_))), "{name}");
        assert_eq!(printed(results.constants()), of(|one| matches!(one, Declaration::Constant(_))), "{name}");
        assert_eq!(printed(results.messages()), of(|one| matches!(one, Declaration::Message(_))), "{name}");
        assert_eq!(printed(results.unions()), of(|one| matches!(one, Declaration::Union(_))), "{name}");
        assert_eq!(printed(results.newtypes()), of(|one| matches!(one, Declaration::Newtype(_))), "{name}");
    });
}

/// The name, by the case of the declaration.
fn name_of(declaration: Declaration) -> Name {
    match declaration {
        Declaration::Alias(alias) => alias.name(),
        Declaration::Constant(constant) => constant.name(),
        Declaration::Message(message) => message.name(),
        Declaration::Union(union) => union.name(),
        Declaration::Newtype(newtype) => newtype.name(),
    }
}

#[test]
fn declarations_have_their_names() {
    each_accepted(|_, results, _| {
        assert!(results.declarations().all(|declaration| declaration.name() == name_of(declaration)));
    });
}

/// The items of messages and variants.
fn bodies(results: Results) -> Vec<(Vec<Item>, Vec<Field>, Vec<Tombstone>)> {
    let messages =
        results.messages().map(|it| (it.items().collect(), it.fields().collect(), it.tombstones().collect()));
    let variants = results.unions().flat_map(Union::variants);
    let variants = variants.map(|it| (it.items().collect(), it.fields().collect(), it.tombstones().collect()));
    messages.chain(variants).collect()
}

#[test]
fn fields_and_tombstones_are_the_items() {
    let (mut fields_seen, mut tombstones_seen) = (0, 0);
    each_accepted(|answer, results, _| {
        for (items, fields, tombstones) in bodies(results) {
            let of = |wanted: fn(&Item) -> bool| printed(items.iter().filter(|item| wanted(item)));
            assert_eq!(printed(fields.iter()), of(|item| matches!(item, Item::Field(_))), "{}", answer.name);
            assert_eq!(printed(tombstones.iter()), of(|item| matches!(item, Item::Tombstone(_))), "{}", answer.name);
            (fields_seen, tombstones_seen) = (fields_seen + fields.len(), tombstones_seen + tombstones.len());
        }
    });
    assert!(fields_seen > 100 && tombstones_seen > 20, "{fields_seen} fields, {tombstones_seen} tombstones");
}

#[test]
fn variants_and_tombstones_are_the_items_of_a_union() {
    let (mut variants_seen, mut tombstones_seen) = (0, 0);
    each_accepted(|answer, results, _| {
        for union in results.unions() {
            let of = |wanted: fn(&UnionItem) -> bool| printed(union.items().filter(wanted));
            let (variants, tombstones) = (printed(union.variants()), printed(union.tombstones()));
            assert_eq!(variants, of(|item| matches!(item, UnionItem::Variant(_))), "{}", answer.name);
            assert_eq!(tombstones, of(|item| matches!(item, UnionItem::Tombstone(_))), "{}", answer.name);
            variants_seen += union.variants().count();
            tombstones_seen += union.tombstones().count();
        }
    });
    assert!(variants_seen > 20 && tombstones_seen > 10, "{variants_seen} variants, {tombstones_seen} tombstones");
}

/// The type numbers of all names that are types, in the results of an answer.
fn ids(results: Results) -> Vec<signal_book::TypeId> {
    let types = results.aliases().map(|alias| alias.ty()).chain(results.newtypes().map(|newtype| newtype.ty()));
    let named = types.filter_map(|ty| match ty.resolved() {
        ResolvedType::Named(id) => Some(id),
        _ => None,
    });
    named.collect()
}

#[test]
fn a_type_number_leads_to_its_declaration() {
    let mut found = 0;
    each_accepted(|answer, results, _| {
        let records = common::book_records(&answer.book);
        let declared: Vec<u16> = records.iter().filter(|it| (20..=22).contains(&it.kind)).map(|it| it.a).collect();
        for id in ids(results) {
            let name = results.declared(id).map(|declaration| declaration.name().number());
            let number = usize::try_from(id.index()).unwrap();
            assert_eq!(name, declared.get(number).copied(), "{}", answer.name);
            found += usize::from(name.is_some());
        }
        assert!(results.declared(POISON_TYPE_ID).is_none());
    });
    assert!(found > 20, "{found} numbers");
}

#[test]
fn a_body_ends_at_the_next_declaration() {
    // No lowering writes a field behind a newtype, and none belongs to the message or the union before it.
    let (ty, encoding) = (Plain::new(1, 1, [0; 3], 0), Plain::new(46, 0, [0; 3], 0));
    for (head, kind) in [42, 43].into_iter().flat_map(|head| [42, 43, 48].map(|kind| (head, kind))) {
        let next = Plain::new(kind, 0, [2, 0, 0], 0);
        let behind = [ty, Plain::new(45, 0, [3, 3, NONE], 0), encoding, Plain::new(44, 0, [4, 0, 0], 0)];
        let tombstone = Plain::new(47, 1, [NONE; 3], 0);
        let records = [&[ty, Plain::new(head, 0, [1, 0, 0], 0), next], &behind[..], &[tombstone]].concat();
        let bytes = common::bytes(&records);
        let results = Results::new(&bytes).unwrap();
        let first = results.declarations().next();
        match first {
            Some(Declaration::Message(message)) => assert_eq!(message.items().count(), 0),
            Some(Declaration::Union(union)) => {
                assert_eq!((union.variants().count(), union.tombstones().count()), (0, 0));
            }
            other => panic!("{other:?}"),
        }
    }
}

/// Prints a view in both ways; the page must not be empty.
fn print<T: Debug>(view: T) {
    assert!(!format!("{view:?}").is_empty());
    assert!(!format!("{view:#?}").is_empty());
}

fn print_type(ty: Type) {
    print(ty);
    print(ty.resolved());
    assert!(!ty.to_string().is_empty());
}

fn print_constraint(constraint: Constraint) {
    print(constraint);
    print(constraint.constraint());
    assert!(!constraint.to_string().is_empty());
}

fn print_item(item: Item) {
    print(item);
    match item {
        Item::Field(field) => {
            print(field);
            print_type(field.ty());
            print(field.encoding());
            field.constraint().into_iter().for_each(print_constraint);
        }
        Item::Tombstone(tombstone) => {
            print(tombstone);
            tombstone.ty().into_iter().for_each(print_type);
        }
    }
}

fn print_declaration(declaration: Declaration) {
    print(declaration);
    match declaration {
        Declaration::Alias(alias) => print_type(alias.ty()),
        Declaration::Constant(constant) => print_type(constant.ty()),
        Declaration::Newtype(newtype) => print_type(newtype.ty()),
        Declaration::Message(message) => message.items().for_each(print_item),
        Declaration::Union(union) => {
            union.variants().for_each(print);
            union.variants().flat_map(Variant::items).for_each(print_item);
            union.tombstones().for_each(|tombstone| print_item(Item::Tombstone(tombstone)));
        }
    }
}

#[test]
fn every_view_is_printed() {
    each_accepted(|_, results, diagnostics| {
        print(results);
        results.records().for_each(print);
        results.declarations().for_each(print_declaration);
        print(diagnostics);
        diagnostics.iter().for_each(|diagnostic| {
            print(diagnostic);
            assert!(!diagnostic.to_string().is_empty());
        });
    });
}
