//! What a record's sub stands for, kind by kind, with the names of the original.

use crate::record::debug_as_display;
use std::fmt;

/// An enum whose cases are the subs of a kind from 0, each with its word.
macro_rules! subs {
    ($(#[$about:meta])* $name:ident: $($case:ident $word:literal,)*) => {
        $(#[$about])*
        #[derive(Clone, Copy, PartialEq, Eq, Hash)]
        #[allow(missing_docs)]
        #[repr(u8)]
        pub enum $name { $($case),* }

        impl $name {
            /// All cases, by sub.
            pub const ALL: &'static [$name] = &[$($name::$case),*];
            /// Their words, by sub.
            pub const WORDS: &'static [&'static str] = &[$($word),*];

            /// Its number in a record.
            pub fn sub(self) -> u8 {
                self as u8
            }

            /// The case of a sub.
            pub fn from_sub(sub: u8) -> Option<$name> {
                $name::ALL.get(usize::from(sub)).copied()
            }

            /// Its word.
            pub fn word(self) -> &'static str {
                $name::WORDS[usize::from(self.sub())]
            }
        }

        impl fmt::Display for $name {
            fn fmt(&self, f: &mut fmt::Formatter) -> fmt::Result {
                f.write_str(self.word())
            }
        }

        debug_as_display!($name);
    };
}

subs! {
    /// Kind 1.
    PrimitiveType:
    Bool "bool",
    U8 "u8",
    U16 "u16",
    U32 "u32",
    U64 "u64",
    I8 "i8",
    I16 "i16",
    I32 "i32",
    I64 "i64",
    F32 "f32",
    F64 "f64",
    Fixed32 "fixed32",
    Fixed64 "fixed64",
    Void "void",
}

subs! {
    /// Kind 3.
    SemanticType:
    String "string",
    Bytes "bytes",
    Rgb "rgb",
    Uuid "uuid",
    Timestamp "timestamp",
    Hash "hash",
}

subs! {
    /// Kind 12: what an expression of constants does with its two sides.
    BinOpKind:
    Add "add",
    Sub "sub",
    Mul "mul",
    Div "div",
    Eq "eq",
    Ne "ne",
    Lt "lt",
    Le "le",
    Gt "gt",
    Ge "ge",
}

subs! {
    /// Kind 14: how a constraint compares. The order is not that of kind 12.
    CmpOp:
    Eq "==",
    Ne "!=",
    Lt "<",
    Gt ">",
    Le "<=",
    Ge ">=",
}

subs! {
    /// Kind 34: the annotations that lowering knows, and all others.
    Annotation:
    Varint "varint",
    ZigZag "zigzag",
    Delta "delta",
    Limit "limit",
    Other "other",
}

subs! {
    /// Kind 46: how a field is encoded, below its delta if it has one.
    Encoding:
    Default "default",
    Varint "varint",
    ZigZag "zigzag",
}
