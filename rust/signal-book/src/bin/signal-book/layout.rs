//! Where the fields of a message lie, if that is fixed.
//!
//! Lowering gives types and encodings and no offsets. A message has them here if nothing is left open: it has no tombstone,
//! its ordinals rise, and every field is as it is (default encoding, no limit) and of a type whose name tells how many bytes
//! it has. Booleans and integers of some bits share bytes with others, so they have none here (docs/DECISIONS.md).

use signal_book::{Declaration, Field, FieldEncoding, Message, PrimitiveType, ResolvedType, Results, Type};

/// The offset of each field, and the length of the whole, in bytes.
pub struct Layout {
    pub offsets: Vec<u64>,
    pub bytes: u64,
}

/// Why a message has no fixed layout.
pub enum Open<'a> {
    Tombstone,
    Order(Field<'a>),
    Encoding(Field<'a>),
    Width(Field<'a>),
}

/// The messages, unions and newtypes of a book, by their numbers.
pub struct Declared<'a> {
    results: Results<'a>,
    numbered: Vec<Declaration<'a>>,
}

impl<'a> Declared<'a> {
    pub fn of(results: Results<'a>) -> Declared<'a> {
        Declared { results, numbered: results.numbered().collect() }
    }

    pub fn layout(&self, message: Message<'a>) -> Result<Layout, Open<'a>> {
        if message.tombstones().next().is_some() {
            return Err(Open::Tombstone);
        }
        let mut layout = Layout { offsets: Vec::new(), bytes: 0 };
        let mut before = None;
        for field in message.fields() {
            if before >= Some(field.ordinal()) {
                return Err(Open::Order(field));
            }
            let end = self.width(field.ty()).and_then(|width| layout.bytes.checked_add(width));
            let end = end.ok_or(Open::Width(field))?;
            if field.encoding() != FieldEncoding::DEFAULT {
                return Err(Open::Encoding(field));
            }
            layout.offsets.push(layout.bytes);
            layout.bytes = end;
            before = Some(field.ordinal());
        }
        Ok(layout)
    }

    /// How many bytes a value of a type has, if the type alone tells.
    pub fn width(&self, mut ty: Type<'a>) -> Option<u64> {
        let mut count: u64 = 1;
        // A type that does not lead back to itself goes through each record once.
        for _ in 0..self.results.len() {
            let (times, inner) = match ty.resolved() {
                ResolvedType::Primitive(primitive) => return primitive_width(primitive)?.checked_mul(count),
                ResolvedType::FixedArray(inner, size) => (size, inner),
                ResolvedType::Vec2(inner) => (2, inner),
                ResolvedType::Vec3(inner) => (3, inner),
                ResolvedType::Vec4(inner) | ResolvedType::Quat(inner) => (4, inner),
                ResolvedType::Mat3(inner) => (9, inner),
                ResolvedType::Mat4(inner) => (16, inner),
                ResolvedType::Named(id) => match self.numbered.get(id.index() as usize)? {
                    Declaration::Newtype(newtype) => (1, newtype.ty()),
                    _ => return None,
                },
                _ => return None,
            };
            (count, ty) = (count.checked_mul(times)?, inner);
        }
        None
    }
}

fn primitive_width(primitive: PrimitiveType) -> Option<u64> {
    match primitive {
        PrimitiveType::Void => Some(0),
        PrimitiveType::U8 | PrimitiveType::I8 => Some(1),
        PrimitiveType::U16 | PrimitiveType::I16 => Some(2),
        PrimitiveType::U32 | PrimitiveType::I32 | PrimitiveType::F32 | PrimitiveType::Fixed32 => Some(4),
        PrimitiveType::U64 | PrimitiveType::I64 | PrimitiveType::F64 | PrimitiveType::Fixed64 => Some(8),
        PrimitiveType::Bool => None,
    }
}
