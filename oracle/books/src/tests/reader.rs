//! Causes 1 to 8, written from the format alone and apart from the generator.

use crate::layout::Record;

/// The first cause of 1 to 8 and its place, or the records.
pub fn verdict(bytes: &[u8]) -> Result<(bool, Vec<Record>), (u8, u32)> {
    if bytes.is_empty() || bytes.len() > 32_768 || !bytes.len().is_multiple_of(512) {
        return Err((1, 0));
    }
    let blocks = bytes.len() / 512;
    let mut records = Vec::new();
    for number in 0..blocks {
        let block = &bytes[512 * number..512 * (number + 1)];
        if !sum_holds(block) {
            return Err((2, number as u32));
        }
        if !block_holds(block, number, blocks) {
            return Err((3, number as u32));
        }
        for place in 0..usize::from(block[2]) {
            records.push(Record::read(&block[4 + 24 * place..]));
        }
    }
    let mut seen = Seen::default();
    for number in 0..records.len() {
        seen.look(&records, number).map_err(|cause| (cause, number as u32))?;
    }
    Ok((bytes[3] == 1, records))
}

/// The check by ones' complement addition, the carry folded at each word.
pub fn sum_holds(block: &[u8]) -> bool {
    let mut sum: u16 = 0;
    for word in 0..255 {
        let next = u16::from_be_bytes([block[2 * word], block[2 * word + 1]]);
        let (low, carry) = sum.overflowing_add(next);
        sum = low + u16::from(carry);
    }
    let stored = u16::from_be_bytes([block[510], block[511]]);
    stored == 0xFFFF - sum
}

/// The other rules of a block.
pub fn block_holds(block: &[u8], number: usize, blocks: usize) -> bool {
    let count = usize::from(block[2]);
    let right = if number + 1 == blocks { (1..=21).contains(&count) } else { count == 21 };
    right
        && block[0] == number as u8
        && block[1] == (number >> 8) as u8
        && block[3] <= u8::from(number == 0)
        && block[508..510] == [0, 0]
        && block[4 + 24 * count..508].iter().all(|&byte| byte == 0)
}

/// Groups of children.
#[derive(Clone, Copy, PartialEq)]
enum Group {
    Type,
    Constant,
    Constraint,
    Operand,
    Other,
}

fn group(kind: u8) -> Group {
    match kind {
        1..=9 => Group::Type,
        10..=12 => Group::Constant,
        13..=15 => Group::Constraint,
        16 => Group::Operand,
        _ => Group::Other,
    }
}

fn subs(kind: u8) -> Option<u8> {
    Some(match kind {
        1 => 14,
        2 => 2,
        3 => 6,
        4 | 5 | 6 | 9 | 11 | 20..=25 | 30 | 31 | 33 => 1,
        7 => 10,
        8 => 2,
        10 => 5,
        12 => 10,
        13 => 3,
        14 => 6,
        15 => 2,
        16 => 6,
        32 => 2,
        34 => 5,
        35 | 36 => 3,
        _ => return None,
    })
}

fn fields_hold(r: &Record) -> bool {
    let name = |x: u16| x < 4_096;
    let ordinal = r.v < 1 << 32;
    let (a, b, c, v) = (r.a == 0, r.b == 0, r.c == 0, r.v == 0);
    match r.kind {
        1 | 3 | 34 => a && b && c && v,
        2 => r.a < 256 && b && c && v,
        4 | 11 | 20 | 21 | 25 | 30 => name(r.a) && b && c && v,
        5 => name(r.a) && name(r.b) && c && v,
        6 | 22 | 23 => name(r.a) && c && v,
        7 => b && c && (v || r.sub == 2),
        8 | 12 => c && v,
        9 => b && c && v,
        10 => a && b && c && (r.sub != 4 || r.v < 2),
        13 => c && v && (b || r.sub < 2),
        14 => b && v && r.c < 2,
        15 => v && r.c < 2,
        16 => {
            let text = match r.sub {
                2 => r.a < 65_535 && v,
                5 => name(r.a) && v,
                3 => a && r.v < 2,
                _ => a,
            };
            text && b && c
        }
        24 => name(r.a) && v,
        31 => name(r.a) && ordinal,
        32 => a && b && ordinal,
        33 => name(r.a) && b && c && ordinal,
        35 => (name(r.a) || r.a == 65_535) && b && c && (v || r.sub < 2),
        36 => b && c && v,
        _ => false,
    }
}

/// The children of a record: number and group.
fn children(r: &Record) -> Vec<(u16, Group)> {
    use Group::*;
    match r.kind {
        6 | 22 | 23 => vec![(r.b, Type)],
        7 => vec![(r.a, Type)],
        8 => vec![(r.a, Type), (r.b, Type)],
        12 => vec![(r.a, Constant), (r.b, Constant)],
        13 if r.sub == 2 => vec![(r.a, Constraint)],
        13 => vec![(r.a, Constraint), (r.b, Constraint)],
        14 => vec![(r.a, Operand)],
        15 => vec![(r.a, Operand), (r.b, Operand)],
        24 => vec![(r.b, Type), (r.c, Constant)],
        31 if r.c == 65_535 => vec![(r.b, Type)],
        31 => vec![(r.b, Type), (r.c, Constraint)],
        32 if r.c != 65_535 => vec![(r.c, Type)],
        _ => vec![],
    }
}

/// What was seen before a record.
#[derive(Default)]
struct Seen {
    used: Vec<bool>,
    depth: Vec<u32>,
    /// The kind before, kinds 1 to 16 passed over.
    before: u8,
    /// The latest declaration.
    declaration: u8,
    /// In a union: fields may stand here.
    open: bool,
    names: [Vec<u16>; 3],
}

impl Seen {
    fn look(&mut self, records: &[Record], number: usize) -> Result<(), u8> {
        let r = &records[number];
        self.used.push(false);
        self.depth.push(1);
        if subs(r.kind).is_none_or(|count| r.sub >= count) || !fields_hold(r) {
            return Err(4);
        }
        for (child, wanted) in children(r) {
            let child = usize::from(child);
            if child >= number || group(records[child].kind) != wanted || self.used[child] {
                return Err(5);
            }
            self.used[child] = true;
            self.depth[number] = self.depth[number].max(1 + self.depth[child]);
        }
        if r.kind <= 16 {
            return if self.depth[number] > 64 { Err(8) } else { Ok(()) };
        }
        if !self.follows(r) {
            return Err(6);
        }
        self.step(r);
        let set = match r.kind {
            20..=23 => 0,
            24 => 1,
            25 => 2,
            _ => return Ok(()),
        };
        if self.names[set].contains(&r.a) {
            return Err(7);
        }
        self.names[set].push(r.a);
        Ok(())
    }

    fn follows(&self, r: &Record) -> bool {
        let before = self.before;
        match (r.kind, r.sub) {
            (20..=25, _) => true,
            (30, _) => before == 23 || before == 30,
            (31, _) | (32, 0) => self.declaration == 20 || (self.declaration == 21 && self.open),
            (32, _) | (33, _) => self.declaration == 21,
            (34, _) => matches!(before, 20 | 31 | 34 | 35),
            (35, _) => matches!(before, 34 | 35),
            _ => matches!(before, 32 | 36),
        }
    }

    fn step(&mut self, r: &Record) {
        self.before = r.kind;
        match (r.kind, r.sub) {
            (20..=25, _) => {
                self.declaration = r.kind;
                self.open = false;
            }
            (33, _) => self.open = true,
            (32, 1) => self.open = false,
            _ => {}
        }
    }
}
