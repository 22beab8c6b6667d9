//! The subs of each kind in the order of `docs/FORMAT.md`, with the words that they are printed as.

use signal_book::{Annotation, BinOpKind, CmpOp, Encoding, PrimitiveType, SemanticType};

pub const PRIMITIVES: [(PrimitiveType, &str); 14] = [
    (PrimitiveType::Bool, "bool"),
    (PrimitiveType::U8, "u8"),
    (PrimitiveType::U16, "u16"),
    (PrimitiveType::U32, "u32"),
    (PrimitiveType::U64, "u64"),
    (PrimitiveType::I8, "i8"),
    (PrimitiveType::I16, "i16"),
    (PrimitiveType::I32, "i32"),
    (PrimitiveType::I64, "i64"),
    (PrimitiveType::F32, "f32"),
    (PrimitiveType::F64, "f64"),
    (PrimitiveType::Fixed32, "fixed32"),
    (PrimitiveType::Fixed64, "fixed64"),
    (PrimitiveType::Void, "void"),
];

pub const SEMANTICS: [(SemanticType, &str); 6] = [
    (SemanticType::String, "string"),
    (SemanticType::Bytes, "bytes"),
    (SemanticType::Rgb, "rgb"),
    (SemanticType::Uuid, "uuid"),
    (SemanticType::Timestamp, "timestamp"),
    (SemanticType::Hash, "hash"),
];

pub const BIN_OPS: [(BinOpKind, &str); 10] = [
    (BinOpKind::Add, "add"),
    (BinOpKind::Sub, "sub"),
    (BinOpKind::Mul, "mul"),
    (BinOpKind::Div, "div"),
    (BinOpKind::Eq, "eq"),
    (BinOpKind::Ne, "ne"),
    (BinOpKind::Lt, "lt"),
    (BinOpKind::Le, "le"),
    (BinOpKind::Gt, "gt"),
    (BinOpKind::Ge, "ge"),
];

pub const CMP_OPS: [(CmpOp, &str); 6] =
    [(CmpOp::Eq, "=="), (CmpOp::Ne, "!="), (CmpOp::Lt, "<"), (CmpOp::Gt, ">"), (CmpOp::Le, "<="), (CmpOp::Ge, ">=")];

pub const ANNOTATIONS: [(Annotation, &str); 5] = [
    (Annotation::Varint, "varint"),
    (Annotation::ZigZag, "zigzag"),
    (Annotation::Delta, "delta"),
    (Annotation::Limit, "limit"),
    (Annotation::Other, "other"),
];

pub const ENCODINGS: [(Encoding, &str); 3] =
    [(Encoding::Default, "default"), (Encoding::Varint, "varint"), (Encoding::ZigZag, "zigzag")];

/// The sub of a case.
pub fn sub<T: PartialEq>(table: &[(T, &str)], case: T) -> u8 {
    table.iter().position(|(other, _)| *other == case).expect("every case is in its table") as u8
}
