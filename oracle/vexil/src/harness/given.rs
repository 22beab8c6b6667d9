//! What the lowering gave, read off its own types. Anything that the format has no word for stops the run.

use super::*;
use crate::facts::{Body, Constant, Constraint, Field, Operand, Stub, Type, Variant};

/// The number behind a letter, as 17 of `N17`.
fn number(text: &str, letter: char) -> u16 {
    text.strip_prefix(letter)
        .and_then(|n| n.parse().ok())
        .unwrap_or_else(|| panic!("{text} has no number behind {letter}"))
}

fn name(text: &SmolStr) -> u16 {
    number(text.as_str(), 'N')
}

fn span(s: Span) -> facts::Span {
    (s.offset, s.len)
}

/// Numbers, stubs, aliases and constants, as they stand at the end.
pub(super) fn registry(schema: &Schema, ids: &[TypeId], ctx: &LowerCtx, given: &mut Lowered) {
    given.declared = ids.iter().map(|id| id.index()).collect();
    for id in &ctx.generic_alias_ids {
        match ctx.registry.get(*id) {
            Some(TypeDef::GenericAlias(g)) => given.generics.push((name(&g.name), id.index())),
            other => panic!("no generic alias: {other:?}"),
        }
    }
    for text in ctx.registry.iter_names() {
        let id = ctx.registry.lookup(text).expect("a number for each name");
        if ctx.registry.is_stub(id) {
            given.stubs.push((stub(text), id.index()));
        }
    }
    given.stubs.sort_by_key(|s| s.1);
    for alias in aliases(schema).filter(|a| a.type_params.is_empty()) {
        let target = ctx.registry.lookup_alias(alias.name.node.as_str());
        let target = target.expect("a result for each plain alias");
        given.aliases.push((name(&alias.name.node), resolved(target)));
    }
    given.constants = ctx.constants.iter().map(constant).collect();
    given.constants.sort();
}

fn stub(text: &str) -> Stub {
    match text.split_once('.') {
        Some((namespace, own)) => Stub::Pair(number(namespace, 'N'), number(own, 'N')),
        None => Stub::Bare(number(text, 'N')),
    }
}

fn constant((text, value): (&SmolStr, &ConstValue)) -> Constant {
    Constant { name: name(text), value: value.value, resolved: resolved(&value.ty), span: span(value.span) }
}

pub(super) fn diagnostics(all: impl Iterator<Item = Diagnostic>) -> Vec<facts::Diagnostic> {
    all.map(|d| diagnostic(&d)).collect()
}

/// Class and message number, by the words that the source gives.
fn diagnostic(d: &Diagnostic) -> facts::Diagnostic {
    let class = match d.class {
        ErrorClass::UnresolvedType => 0,
        ErrorClass::AliasTargetNotFound => 1,
        ErrorClass::ConstRefNotFound => 2,
        _ => panic!("another class: {d:?}"),
    };
    let mut parts = d.message.split('`');
    let (before, named, after) = (parts.next(), parts.next(), parts.next());
    let message = match (before, after) {
        (Some("ambiguous type "), Some(_)) => 0,
        (Some("unresolved type "), Some("")) => 1,
        (Some("unresolved qualified type "), Some("")) => 2,
        (Some(""), Some(" is not a generic alias")) => 3,
        (Some("unresolved generic type "), Some("")) => 4,
        (Some("could not evaluate constant "), Some("")) => 5,
        _ => panic!("another message: {d:?}"),
    };
    let (name, second) = match stub(named.expect("a name in each message")) {
        Stub::Bare(name) => (name, 0),
        Stub::Pair(namespace, name) => (namespace, name),
    };
    facts::Diagnostic { message, class, name, second, span: span(d.span) }
}

pub(super) fn body(definition: &TypeDef) -> Body {
    match definition {
        TypeDef::Message(m) => Body::Message {
            name: name(&m.name),
            span: span(m.span),
            fields: fields(&m.fields),
            tombstones: tombstones(&m.tombstones),
        },
        TypeDef::Union(u) => Body::Union {
            name: name(&u.name),
            span: span(u.span),
            variants: u.variants.iter().map(variant).collect(),
            tombstones: tombstones(&u.tombstones),
        },
        TypeDef::Newtype(n) => {
            assert_eq!(n.inner_type, n.terminal_type);
            Body::Newtype { name: name(&n.name), span: span(n.span), inner: resolved(&n.inner_type) }
        }
        other => panic!("no body: {other:?}"),
    }
}

fn variant(v: &UnionVariantDef) -> Variant {
    Variant {
        name: name(&v.name),
        span: span(v.span),
        ordinal: v.ordinal,
        fields: fields(&v.fields),
        tombstones: tombstones(&v.tombstones),
    }
}

fn fields(all: &[FieldDef]) -> Vec<Field> {
    all.iter()
        .map(|f| Field {
            name: name(&f.name),
            span: span(f.span),
            ordinal: f.ordinal,
            resolved: resolved(&f.resolved_type),
            encoding: encoding(&f.encoding),
            constraint: f.constraint.as_ref().map(constraint),
        })
        .collect()
}

fn tombstones(all: &[TombstoneDef]) -> Vec<facts::Tombstone> {
    all.iter()
        .map(|t| facts::Tombstone {
            span: span(t.span),
            ordinal: t.ordinal,
            reason: (t.reason != "(no reason)").then(|| number(t.reason.as_str(), 'S')),
            since: t.since.as_ref().map(|s| number(s.as_str(), 'S')),
            original: t.original_type.as_ref().map(resolved),
        })
        .collect()
}

fn encoding(e: &FieldEncoding) -> facts::Encoding {
    let base = |e: &Encoding| match e {
        Encoding::Default => 0,
        Encoding::Varint => 1,
        Encoding::ZigZag => 2,
        other => panic!("no base encoding: {other:?}"),
    };
    let (base, delta) = match &e.encoding {
        Encoding::Delta(inner) => (base(inner), true),
        other => (base(other), false),
    };
    facts::Encoding { base, delta, limit: e.limit }
}

pub(super) fn resolved(t: &ResolvedType) -> Type {
    let one = |sub: u8, size: u64, child: &ResolvedType| Type::One { sub, size, child: Box::new(resolved(child)) };
    let two = |sub: u8, left: &ResolvedType, right: &ResolvedType| Type::Two {
        sub,
        left: Box::new(resolved(left)),
        right: Box::new(resolved(right)),
    };
    match t {
        ResolvedType::Primitive(p) => Type::Primitive(*p as u8),
        ResolvedType::SubByte(s) => Type::SubByte { signed: s.signed, bits: s.bits },
        ResolvedType::Semantic(s) => Type::Semantic(*s as u8),
        ResolvedType::Named(id) => Type::Named(id.index()),
        ResolvedType::Optional(t) => one(0, 0, t),
        ResolvedType::Array(t) => one(1, 0, t),
        ResolvedType::FixedArray(t, size) => one(2, *size, t),
        ResolvedType::Set(t) => one(3, 0, t),
        ResolvedType::Vec2(t) => one(4, 0, t),
        ResolvedType::Vec3(t) => one(5, 0, t),
        ResolvedType::Vec4(t) => one(6, 0, t),
        ResolvedType::Quat(t) => one(7, 0, t),
        ResolvedType::Mat3(t) => one(8, 0, t),
        ResolvedType::Mat4(t) => one(9, 0, t),
        ResolvedType::Map(k, v) => two(0, k, v),
        ResolvedType::Result(k, v) => two(1, k, v),
        ResolvedType::BitsInline(names) => {
            assert_eq!(names.len(), 1);
            Type::Bits(number(names[0].as_str(), 'L'))
        }
    }
}

fn constraint(c: &FieldConstraint) -> Constraint {
    let both = |l: &FieldConstraint, r: &FieldConstraint| (Box::new(constraint(l)), Box::new(constraint(r)));
    let compared = |op: IrCmpOp, length: bool, o: &ConstraintOperand| Constraint::Comparison {
        op: op as u8,
        length,
        operand: operand(o),
    };
    let range = |exclusive: bool, length: bool, l: &ConstraintOperand, h: &ConstraintOperand| Constraint::Range {
        exclusive,
        length,
        low: operand(l),
        high: operand(h),
    };
    match c {
        FieldConstraint::And(l, r) => {
            let (l, r) = both(l, r);
            Constraint::And(l, r)
        }
        FieldConstraint::Or(l, r) => {
            let (l, r) = both(l, r);
            Constraint::Or(l, r)
        }
        FieldConstraint::Not(inner) => Constraint::Not(Box::new(constraint(inner))),
        FieldConstraint::Cmp { op, operand } => compared(*op, false, operand),
        FieldConstraint::LenCmp { op, operand } => compared(*op, true, operand),
        FieldConstraint::Range { low, high, exclusive_high } => range(*exclusive_high, false, low, high),
        FieldConstraint::LenRange { low, high, exclusive_high } => range(*exclusive_high, true, low, high),
    }
}

fn operand(o: &ConstraintOperand) -> Operand {
    match o {
        ConstraintOperand::Int(v) => Operand::Int(*v),
        ConstraintOperand::Float(v) => Operand::Float(v.to_bits()),
        ConstraintOperand::String(s) => Operand::String(number(s, 'S')),
        ConstraintOperand::Bool(b) => Operand::Bool(*b),
        ConstraintOperand::ConstRef(s) => Operand::Reference(name(s)),
    }
}
