//! "Record: byte 0 kind; 1 sub; 2-3 a; 4-5 b; 6-7 c; 8-15 v; 16-19 span offset; 20-23 span length."
//! "Numbers are little-endian." Results and diagnostics have the same layout (a decision).

/// Bytes of a record.
pub const RECORD: usize = 24;
/// "65,535 means none where 'or none' is said."
pub const NONE: u16 = 65_535;

#[derive(Clone, Copy, Debug, Default, PartialEq, Eq)]
pub struct Span {
    pub offset: u32,
    pub length: u32,
}

#[derive(Clone, Copy, Debug, Default, PartialEq, Eq)]
pub struct Record {
    pub kind: u8,
    pub sub: u8,
    pub a: u16,
    pub b: u16,
    pub c: u16,
    pub v: u64,
    pub span: Span,
}

impl Record {
    pub fn from_bytes(bytes: &[u8; RECORD]) -> Record {
        let two = |at: usize| u16::from_le_bytes([bytes[at], bytes[at + 1]]);
        let four = |at: usize| u32::from(two(at)) | u32::from(two(at + 2)) << 16;
        let eight = |at: usize| u64::from(four(at)) | u64::from(four(at + 4)) << 32;
        Record {
            kind: bytes[0],
            sub: bytes[1],
            a: two(2),
            b: two(4),
            c: two(6),
            v: eight(8),
            span: Span { offset: four(16), length: four(20) },
        }
    }

    pub fn to_bytes(self) -> [u8; RECORD] {
        let mut bytes = [0; RECORD];
        bytes[0] = self.kind;
        bytes[1] = self.sub;
        bytes[2..4].copy_from_slice(&self.a.to_le_bytes());
        bytes[4..6].copy_from_slice(&self.b.to_le_bytes());
        bytes[6..8].copy_from_slice(&self.c.to_le_bytes());
        bytes[8..16].copy_from_slice(&self.v.to_le_bytes());
        bytes[16..20].copy_from_slice(&self.span.offset.to_le_bytes());
        bytes[20..24].copy_from_slice(&self.span.length.to_le_bytes());
        bytes
    }

    /// The same record without its span: "the rest have 0".
    pub fn without_span(self) -> Record {
        Record { span: Span::default(), ..self }
    }
}
