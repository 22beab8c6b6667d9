//! From records to declarations, as a parser would have made them.

use super::*;

pub(super) const PRIMITIVES: [PrimitiveType; 14] = [
    PrimitiveType::Bool,
    PrimitiveType::U8,
    PrimitiveType::U16,
    PrimitiveType::U32,
    PrimitiveType::U64,
    PrimitiveType::I8,
    PrimitiveType::I16,
    PrimitiveType::I32,
    PrimitiveType::I64,
    PrimitiveType::F32,
    PrimitiveType::F64,
    PrimitiveType::Fixed32,
    PrimitiveType::Fixed64,
    PrimitiveType::Void,
];

const SEMANTICS: [SemanticType; 6] = [
    SemanticType::String,
    SemanticType::Bytes,
    SemanticType::Rgb,
    SemanticType::Uuid,
    SemanticType::Timestamp,
    SemanticType::Hash,
];

const OPERATORS: [BinOpKind; 10] = [
    BinOpKind::Add,
    BinOpKind::Sub,
    BinOpKind::Mul,
    BinOpKind::Div,
    BinOpKind::Eq,
    BinOpKind::Ne,
    BinOpKind::Lt,
    BinOpKind::Le,
    BinOpKind::Gt,
    BinOpKind::Ge,
];

const COMPARISONS: [CmpOp; 6] = [CmpOp::Eq, CmpOp::Ne, CmpOp::Lt, CmpOp::Gt, CmpOp::Le, CmpOp::Ge];

const ANNOTATIONS: [&str; 5] = ["varint", "zigzag", "delta", "limit", "other"];

const KEYS: [&str; 3] = ["reason", "since", "other"];

/// The declarations of a book, in its order.
pub(super) fn schema(records: &[Record]) -> Schema {
    let mut declarations = Vec::new();
    let mut items: Vec<Record> = Vec::new();
    for r in records.iter().rev().filter(|r| r.kind >= 20) {
        if r.kind < 30 {
            items.reverse();
            declarations.extend(declaration(records, *r, &items).map(|d| Spanned::new(d, r.span)));
            items.clear();
        } else {
            items.push(*r);
        }
    }
    declarations.reverse();
    Schema { span: Span::empty(0), annotations: Vec::new(), namespace: None, imports: Vec::new(), declarations }
}

/// A declaration with its items. A name that is ambiguous between imports declares nothing.
fn declaration(records: &[Record], r: Record, items: &[Record]) -> Option<Decl> {
    let annotations = Vec::new();
    let name = spanned_name(r);
    Some(match r.kind {
        20 => Decl::Message(message(records, r, items)),
        21 => Decl::Union(UnionDecl { annotations, name, body: variants(records, items) }),
        22 => Decl::Newtype(NewtypeDecl { annotations, name, inner_type: type_at(records, r.b) }),
        23 => Decl::Alias(AliasDecl {
            annotations,
            name,
            type_params: items.iter().map(|p| parameter(*p)).collect(),
            target: type_at(records, r.b),
        }),
        24 => Decl::Const(ConstDecl {
            annotations,
            name,
            ty: type_at(records, r.b),
            value: Spanned::new(expression(records, r.c), records[r.c as usize].span),
        }),
        _ => return None,
    })
}

fn spanned_name(r: Record) -> Spanned<SmolStr> {
    Spanned::new(name(r.a), r.span)
}

fn parameter(r: Record) -> TypeParam {
    TypeParam { name: spanned_name(r), bounds: Vec::new() }
}

/// A message: annotations of its own stand before every other item.
fn message(records: &[Record], r: Record, items: &[Record]) -> MessageDecl {
    let own = items.iter().take_while(|i| i.kind == 34 || i.kind == 35).count();
    MessageDecl { annotations: annotations(&items[..own]), name: spanned_name(r), body: body(records, &items[own..]) }
}

/// The items from one that `starts` a part up to the next such one.
fn parts(items: &[Record], starts: fn(&Record) -> bool) -> Vec<&[Record]> {
    let mut firsts: Vec<usize> = (0..items.len()).filter(|i| starts(&items[*i])).collect();
    firsts.push(items.len());
    firsts.windows(2).map(|w| &items[w[0]..w[1]]).collect()
}

/// Fields and tombstones, each with what belongs to it.
fn body(records: &[Record], items: &[Record]) -> Vec<MessageBodyItem> {
    parts(items, |i| i.kind == 31 || i.kind == 32)
        .into_iter()
        .map(|part| match part[0].kind {
            31 => MessageBodyItem::Field(Spanned::new(field(records, part), part[0].span)),
            _ => MessageBodyItem::Tombstone(Spanned::new(tombstone(records, part), part[0].span)),
        })
        .collect()
}

/// Variants, each with its fields and tombstones, and the tombstones of the union itself.
fn variants(records: &[Record], items: &[Record]) -> Vec<UnionBodyItem> {
    parts(items, |i| i.kind == 33 || (i.kind == 32 && i.sub == 1))
        .into_iter()
        .map(|part| match part[0].kind {
            33 => UnionBodyItem::Variant(Spanned::new(variant(records, part), part[0].span)),
            _ => UnionBodyItem::Tombstone(Spanned::new(tombstone(records, part), part[0].span)),
        })
        .collect()
}

fn variant(records: &[Record], part: &[Record]) -> UnionVariant {
    UnionVariant {
        annotations: Vec::new(),
        name: spanned_name(part[0]),
        ordinal: ordinal(part[0]),
        fields: body(records, &part[1..]),
    }
}

fn ordinal(r: Record) -> Spanned<u32> {
    Spanned::new(r.v as u32, r.span)
}

/// A field. Its annotations may stand in three places; they are spread over these in their order.
fn field(records: &[Record], part: &[Record]) -> MessageField {
    let mut first = annotations(&part[1..]);
    let mut second = first.split_off(first.len() / 3);
    let third = second.split_off(second.len() / 2);
    MessageField {
        pre_annotations: first,
        name: spanned_name(part[0]),
        ordinal: ordinal(part[0]),
        post_ordinal_annotations: second,
        ty: type_at(records, part[0].b),
        post_type_annotations: third,
        where_clause: (part[0].c != NONE).then(|| constraint(records, part[0].c)),
    }
}

fn annotations(items: &[Record]) -> Vec<Annotation> {
    parts(items, |i| i.kind == 34)
        .into_iter()
        .map(|part| Annotation {
            span: part[0].span,
            name: Spanned::new(SmolStr::new(ANNOTATIONS[part[0].sub as usize]), part[0].span),
            args: (part.len() > 1).then(|| part[1..].iter().map(|r| argument(*r)).collect()),
        })
        .collect()
}

fn argument(r: Record) -> AnnotationArg {
    let value = match r.sub {
        0 => AnnotationValue::Int(r.v),
        1 => AnnotationValue::Hex(r.v),
        _ => AnnotationValue::Str("s".to_string()),
    };
    AnnotationArg { span: r.span, key: (r.a != NONE).then(|| spanned_name(r)), value: Spanned::new(value, r.span) }
}

fn tombstone(records: &[Record], part: &[Record]) -> Tombstone {
    Tombstone {
        ordinal: ordinal(part[0]),
        args: part[1..].iter().map(|r| tombstone_argument(*r)).collect(),
        original_type: (part[0].c != NONE).then(|| type_at(records, part[0].c)),
    }
}

fn tombstone_argument(r: Record) -> TombstoneArg {
    let value = match r.a {
        NONE => AnnotationValue::Bool(true),
        s => AnnotationValue::Str(format!("S{s}")),
    };
    TombstoneArg {
        span: r.span,
        key: Spanned::new(SmolStr::new(KEYS[r.sub as usize]), r.span),
        value: Spanned::new(value, r.span),
    }
}

fn type_at(records: &[Record], at: u16) -> Spanned<TypeExpr> {
    let r = records[at as usize];
    let child = |at: u16| Box::new(type_at(records, at));
    let node = match r.kind {
        1 => TypeExpr::Primitive(PRIMITIVES[r.sub as usize]),
        2 => TypeExpr::SubByte(SubByteType { signed: r.sub == 1, bits: r.a as u8 }),
        3 => TypeExpr::Semantic(SEMANTICS[r.sub as usize]),
        4 => TypeExpr::Named(name(r.a)),
        5 => TypeExpr::Qualified(name(r.a), name(r.b)),
        6 => TypeExpr::Generic(name(r.a), child(r.b)),
        7 => one_child(r, child(r.a)),
        8 if r.sub == 0 => TypeExpr::Map(child(r.a), child(r.b)),
        8 => TypeExpr::Result(child(r.a), child(r.b)),
        9 => TypeExpr::BitsInline(vec![SmolStr::new(format!("L{}", r.a))]),
        kind => panic!("kind {kind} is no type"),
    };
    Spanned::new(node, r.span)
}

fn one_child(r: Record, child: Box<Spanned<TypeExpr>>) -> TypeExpr {
    match r.sub {
        0 => TypeExpr::Optional(child),
        1 => TypeExpr::Array(child),
        2 => TypeExpr::FixedArray(child, r.v),
        3 => TypeExpr::Set(child),
        4 => TypeExpr::Vec2(child),
        5 => TypeExpr::Vec3(child),
        6 => TypeExpr::Vec4(child),
        7 => TypeExpr::Quat(child),
        8 => TypeExpr::Mat3(child),
        _ => TypeExpr::Mat4(child),
    }
}

fn expression(records: &[Record], at: u16) -> ConstExpr {
    let r = records[at as usize];
    match (r.kind, r.sub) {
        (10, 0) => ConstExpr::Int(r.v as i64),
        (10, 1) => ConstExpr::UInt(r.v),
        (10, 2) => ConstExpr::Float(f64::from_bits(r.v)),
        (10, 3) => ConstExpr::Hex(r.v),
        (10, _) => ConstExpr::Bool(r.v == 1),
        (11, _) => ConstExpr::ConstRef(name(r.a)),
        (12, op) => ConstExpr::BinOp {
            op: OPERATORS[op as usize],
            left: Box::new(expression(records, r.a)),
            right: Box::new(expression(records, r.b)),
        },
        (kind, _) => panic!("kind {kind} is no expression"),
    }
}

fn constraint(records: &[Record], at: u16) -> Spanned<WhereExpr> {
    let r = records[at as usize];
    let child = |at: u16| Box::new(constraint(records, at));
    let (low, op) = (|| operand(records, r.a), COMPARISONS[r.sub as usize % 6]);
    let exclusive_high = r.sub == 1;
    let node = match (r.kind, r.sub, r.c) {
        (13, 0, _) => WhereExpr::And(child(r.a), child(r.b)),
        (13, 1, _) => WhereExpr::Or(child(r.a), child(r.b)),
        (13, _, _) => WhereExpr::Not(child(r.a)),
        (14, _, 0) => WhereExpr::Cmp { op, operand: low() },
        (14, _, _) => WhereExpr::LenCmp { op, operand: low() },
        (15, _, 0) => WhereExpr::Range { low: low(), high: operand(records, r.b), exclusive_high },
        (15, _, _) => WhereExpr::LenRange { low: low(), high: operand(records, r.b), exclusive_high },
        (kind, _, _) => panic!("kind {kind} is no constraint"),
    };
    Spanned::new(node, r.span)
}

fn operand(records: &[Record], at: u16) -> Box<Spanned<WhereOperand>> {
    let r = records[at as usize];
    let node = match r.sub {
        0 => WhereOperand::Int(r.v as i64),
        1 => WhereOperand::Float(f64::from_bits(r.v)),
        2 => WhereOperand::String(format!("S{}", r.a)),
        3 => WhereOperand::Bool(r.v == 1),
        4 => WhereOperand::Value,
        _ => WhereOperand::ConstRef(name(r.a)),
    };
    Box::new(Spanned::new(node, r.span))
}

#[cfg(test)]
mod tests {
    use super::*;

    /// The numbers that the format gives by the order of an enum are the places of its cases in the source.
    #[test]
    fn enums_in_their_order() {
        assert!(PRIMITIVES.iter().enumerate().all(|(i, x)| *x as usize == i));
        assert!(SEMANTICS.iter().enumerate().all(|(i, x)| *x as usize == i));
        assert!(OPERATORS.iter().enumerate().all(|(i, x)| *x as usize == i));
        assert!(COMPARISONS.iter().enumerate().all(|(i, x)| *x as usize == i));
        assert_eq!(PrimitiveType::Void as usize, 13);
        assert_eq!(SemanticType::Hash as usize, 5);
        assert_eq!(BinOpKind::Ge as usize, 9);
        assert_eq!(CmpOp::Ge as usize, 5);
    }
}
