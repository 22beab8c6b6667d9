//! Cause 6, the follow rule. It makes two kinds of demand: on the record before (kinds 1-16
//! passed over), and on the latest declaration with its variants.

use crate::record::Record;

/// What stands before the record at hand, as far as the follow rule asks.
#[derive(Default)]
pub struct Follow {
    /// The kind of the record before; "passes over kinds 1-16". 0 where there is none.
    before: u8,
    /// The kind of the latest declaration, "the one meant"; 0 where there is none.
    declaration: u8,
    /// The declaration has "a variant before" the record at hand "and no 32 sub 1 since the last one".
    in_variant: bool,
}

impl Follow {
    /// Whether the record may stand here; if so it becomes the record before.
    pub fn admits(&mut self, record: &Record) -> bool {
        if record.kind <= 16 {
            return true;
        }
        if !follows(self.before, record.kind) || !self.has_place(record) {
            return false;
        }
        self.pass(record);
        true
    }

    /// The demand on the latest declaration.
    fn has_place(&self, record: &Record) -> bool {
        let (message, union) = (self.declaration == 20, self.declaration == 21);
        match (record.kind, record.sub) {
            // "31 and 32 sub 0 need a message, or a union with a variant before them and no 32 sub 1
            // since the last one."
            (31, _) | (32, 0) => message || union && self.in_variant,
            // "32 sub 1 and 33 need a union."
            (32, _) | (33, _) => union,
            _ => true,
        }
    }

    fn pass(&mut self, record: &Record) {
        match (record.kind, record.sub) {
            // Every declaration ends the body before it, 25 included (a decision).
            (20..=25, _) => {
                self.declaration = record.kind;
                self.in_variant = false;
            }
            (32, 1) => self.in_variant = false,
            (33, _) => self.in_variant = true,
            _ => {}
        }
        self.before = record.kind;
    }
}

/// The demand on the record before. 31 to 33 have none of this kind: what they need is a declaration.
fn follows(before: u8, kind: u8) -> bool {
    match kind {
        30 => matches!(before, 23 | 30),
        34 => matches!(before, 20 | 31 | 34 | 35),
        35 => matches!(before, 34 | 35),
        36 => matches!(before, 32 | 36),
        // "Declarations stand anywhere."
        _ => true,
    }
}
