//! A readable book into which readable pieces are put, one of whose records is then broken.

use crate::layout::{Book, Record, MOST_RECORDS, NONE};
use crate::random::{sized, themed, FIRST_EDGE, THEMES};
use crate::rng::Rng;
use crate::shape::{field, group, shape, Field, Group, Value};

/// A book with the place of the record to be broken.
pub struct Scene {
    pub book: Book,
    pub place: usize,
}

/// A piece of a book. Children are numbered from the start of the piece.
#[derive(Default)]
pub struct Piece {
    pub records: Vec<Record>,
}

impl Piece {
    /// Adds a record with right fields, its children before it. Gives its number.
    pub fn push(&mut self, rng: &mut Rng, kind: u8, sub: u8) -> usize {
        let mut record =
            Record { kind, sub, offset: rng.next() as u32, len: rng.below(99) as u32, ..Record::default() };
        if let Some(shape) = shape(kind, sub) {
            for (index, &what) in shape.fields.iter().enumerate() {
                *field(&mut record, index) = self.fitting(rng, what);
            }
            record.v = fitting_value(rng, shape.v);
        }
        self.records.push(record);
        self.records.len() - 1
    }

    /// A right field; a child is made first.
    fn fitting(&mut self, rng: &mut Rng, what: Field) -> u16 {
        match what {
            Field::Unused => 0,
            Field::NameOrNone | Field::TextOrNone | Field::ChildOrNone(_) if rng.chance(2) => NONE,
            Field::Name | Field::NameOrNone => rng.below(4_096) as u16,
            Field::Text | Field::TextOrNone => rng.below(65_535) as u16,
            Field::Bits => rng.below(256) as u16,
            Field::Any => rng.next() as u16,
            Field::Flag => rng.below(2) as u16,
            Field::Child(group) | Field::ChildOrNone(group) => self.small(rng, group) as u16,
        }
    }

    /// A small tree of that group. Gives its number.
    pub fn small(&mut self, rng: &mut Rng, group: Group) -> usize {
        let (kind, subs) = *match group {
            Group::Type => rng.pick(&[(1, 14), (2, 2), (3, 6), (4, 1), (5, 1), (9, 1)]),
            Group::Constant => rng.pick(&[(10, 5), (11, 1)]),
            Group::Constraint => rng.pick(&[(14, 6), (15, 2)]),
            Group::Operand => &(16, 6),
        };
        let sub = rng.below(subs) as u8;
        self.push(rng, kind, sub)
    }

    /// Adds all of these, each with its children before it. Gives the number of the last.
    pub fn push_all(&mut self, rng: &mut Rng, all: &[(u8, u8)]) -> usize {
        let mut last = 0;
        for &(kind, sub) in all {
            last = self.push(rng, kind, sub);
        }
        last
    }
}

/// A right value.
fn fitting_value(rng: &mut Rng, what: Value) -> u64 {
    match what {
        Value::Unused => 0,
        Value::Any => rng.next(),
        Value::Bool => rng.below(2),
        Value::Ordinal => rng.next() >> 32,
    }
}

/// What must stand before a record of that kind and sub.
pub fn stand(rng: &mut Rng, kind: u8, sub: u8) -> Vec<(u8, u8)> {
    let in_body: &[(u8, u8)] = if rng.chance(2) { &[(20, 0)] } else { &[(21, 0), (33, 0)] };
    match (kind, sub) {
        (30, _) => vec![(23, 0)],
        (31, _) | (32, 0) => in_body.to_vec(),
        (32, _) | (33, _) => vec![(21, 0)],
        (34, _) if rng.chance(2) => vec![(20, 0)],
        (34, _) => [in_body, &[(31, 0)]].concat(),
        (35, _) => [in_body, &[(31, 0), (34, 3)]].concat(),
        (36, _) if rng.chance(3) => vec![(21, 0), (32, 1)],
        (36, _) => [in_body, &[(32, 0)]].concat(),
        _ => Vec::new(),
    }
}

/// The set in which a declaration's name must be alone.
pub fn set(kind: u8) -> Option<u8> {
    match kind {
        20..=23 => Some(0),
        24 => Some(1),
        25 => Some(2),
        _ => None,
    }
}

impl Scene {
    /// Mostly a small book, sometimes any.
    pub fn new(rng: &mut Rng) -> Scene {
        let book = if rng.chance(12) {
            let theme = rng.pick(&THEMES);
            themed(rng, theme)
        } else {
            let theme = rng.pick(&THEMES[..FIRST_EDGE]);
            let room = rng.between(1, 50);
            sized(rng, theme, room)
        };
        Scene { book, place: 0 }
    }

    /// The book's records.
    pub fn records(&mut self) -> &mut Vec<Record> {
        &mut self.book.records
    }

    /// The record to be broken.
    pub fn target(&mut self) -> &mut Record {
        let place = self.place;
        &mut self.book.records[place]
    }

    /// Places from `from` on where a piece with declarations may stand: before declarations and at the end.
    fn slots(&self, from: usize) -> Vec<usize> {
        let records = &self.book.records;
        let mut all: Vec<usize> = (from..records.len()).filter(|&at| set(records[at].kind).is_some()).collect();
        all.push(records.len());
        all
    }

    /// Puts a piece somewhere at or after `from`. A piece of kinds 1 to 16 only may stand anywhere. The record with
    /// the number `target` of the piece is then the one to be broken.
    pub fn put(&mut self, rng: &mut Rng, piece: Piece, target: usize, from: usize) {
        let trees = piece.records.iter().all(|r| group(r.kind).is_some());
        let at = if trees { rng.between(from, self.book.records.len()) } else { *rng.pick(&self.slots(from)) };
        self.put_at(rng, piece, target, at);
    }

    /// Puts a piece before the record with that number.
    pub fn put_at(&mut self, rng: &mut Rng, mut piece: Piece, target: usize, at: usize) {
        let count = piece.records.len();
        let at = at.min(MOST_RECORDS - count);
        self.book.records.truncate(MOST_RECORDS - count);
        self.rename(rng, &mut piece);
        shift(&mut piece.records, 0, at);
        let mut rest = self.book.records.split_off(at);
        shift(&mut rest, at, count);
        self.book.records.append(&mut piece.records);
        self.book.records.append(&mut rest);
        self.place = at + target;
    }

    /// Gives the declarations of a piece names that are new in their sets.
    fn rename(&self, rng: &mut Rng, piece: &mut Piece) {
        for at in 0..piece.records.len() {
            let Some(of) = set(piece.records[at].kind) else {
                continue;
            };
            let all = self.book.records.iter().chain(&piece.records[..at]);
            let taken: Vec<u16> = all.filter(|r| set(r.kind) == Some(of)).map(|r| r.a).collect();
            while taken.contains(&piece.records[at].a) {
                piece.records[at].a = rng.below(4_096) as u16;
            }
        }
    }

    /// A scene whose target is a sound record of that kind and sub: one of the book's own, or a new one.
    pub fn with(rng: &mut Rng, kind: u8, sub: u8) -> Scene {
        let mut scene = Scene::new(rng);
        let records = &scene.book.records;
        let own: Vec<usize> =
            (0..records.len()).filter(|&at| (records[at].kind, records[at].sub) == (kind, sub)).collect();
        if !own.is_empty() && rng.chance(2) {
            scene.place = *rng.pick(&own);
            return scene;
        }
        let mut piece = Piece::default();
        let before = stand(rng, kind, sub);
        piece.push_all(rng, &before);
        let target = piece.push(rng, kind, sub);
        scene.put(rng, piece, target, 0);
        scene
    }
}

/// Moves child numbers from `from` on by `by`.
fn shift(records: &mut [Record], from: usize, by: usize) {
    for record in records {
        let Some(shape) = shape(record.kind, record.sub) else {
            continue;
        };
        for (index, what) in shape.fields.into_iter().enumerate() {
            let place = field(record, index);
            let child = match what {
                Field::Child(_) => true,
                Field::ChildOrNone(_) => *place != NONE,
                _ => false,
            };
            if child && usize::from(*place) >= from {
                *place += by as u16;
            }
        }
    }
}

/// Breaks one to three records behind the place, or adds broken ones at the end.
pub fn spoil(rng: &mut Rng, records: &mut Vec<Record>, place: usize) {
    for _ in 0..1 + rng.below(3) {
        if records.len() == place + 1 || rng.chance(4) {
            if records.len() == MOST_RECORDS {
                return;
            }
            let record = *rng.pick(records);
            records.push(record);
        }
        if records.len() <= place + 1 {
            return;
        }
        let at = if rng.chance(2) { place + 1 } else { rng.between(place + 1, records.len() - 1) };
        wreck(rng, &mut records[at]);
    }
}

/// Changes a record at random.
pub fn wreck(rng: &mut Rng, record: &mut Record) {
    match rng.below(8) {
        0 => record.kind = *rng.pick(&[0, 17, 29, 37, 255]),
        1 => record.sub = *rng.pick(&[1, 2, 14, 255]),
        2 => record.a = *rng.pick(&[4_096, NONE]),
        3 => record.b = *rng.pick(&[0, 1, 4_096, NONE]),
        4 => record.c = *rng.pick(&[0, 1, 2, NONE]),
        5 => record.v = *rng.pick(&[1, 2, 1 << 32, u64::MAX]),
        6 => record.kind = *rng.pick(&[30, 31, 32, 33, 34, 35, 36]),
        _ => *record = Record { kind: rng.below(40) as u8, a: rng.below(20) as u16, ..*record },
    }
}
