//! Short slices, and that no input makes a lowering fail.

use super::*;

/// Lowers with slices of so many bytes and returns them as they are left.
fn lend(book: &[u8], results: usize, diagnostics: usize) -> (Reply, Vec<u8>, Vec<u8>) {
    let (mut results, mut diagnostics) = (vec![LENT; results], vec![LENT; diagnostics]);
    let (reply, _) = lower_book(book, &mut results, &mut diagnostics);
    (reply, results, diagnostics)
}

/// Whole records of the slice zero, odd bytes at its end as they were.
fn cleared(length: usize) -> Vec<u8> {
    let whole = length / 24 * 24;
    [vec![0; whole], vec![LENT; length - whole]].concat()
}

#[test]
fn slices_of_few_bytes() {
    // An empty message is one result: it needs 24 bytes.
    let mut book = Maker::default();
    let at = book.message(1);
    let bytes = book.bytes();
    for length in [0, 23] {
        assert_eq!(lend(&bytes, length, 47), (refused(10, u32::from(at)), cleared(length), cleared(47)));
    }
    for length in [24, 47] {
        let (reply, results, diagnostics) = lend(&bytes, length, 23);
        assert_eq!(reply, accepted(1, 0, 0));
        assert_eq!(results[..24], spanned(record(42, 0, 1, 0, 0, 0), at).to_bytes());
        assert_eq!(results[24..], vec![LENT; length - 24]);
        assert_eq!(diagnostics, [LENT; 23]);
    }
}

#[test]
fn diagnostics_of_few_bytes() {
    let mut book = Maker::default();
    let unknown = book.named(5);
    let at = book.newtype(1, unknown);
    let bytes = book.bytes();
    for length in [0, 23] {
        assert_eq!(lend(&bytes, 100, length), (refused(10, u32::from(at)), cleared(100), cleared(length)));
    }
    for length in [24, 47] {
        let (reply, results, diagnostics) = lend(&bytes, 48, length);
        assert_eq!(reply, accepted(2, 1, 0));
        assert_eq!(results[..24], poison().to_bytes());
        assert_eq!(diagnostics[..24], diagnostic(1, 5, 0, 0, unknown).to_bytes());
        assert_eq!(diagnostics[24..], vec![LENT; length - 24]);
    }
    assert_eq!(lend(&bytes, 47, 24), (refused(10, u32::from(at)), cleared(47), cleared(24)));
}

#[test]
fn the_place_of_10_in_a_body() {
    // 42; type, 45, 46; 47 with a type; then 43, 44.
    let mut book = Maker::default();
    let message = book.message(1);
    let (child, gone) = (book.primitive(U8), book.primitive(U8));
    let field = book.field(2, child, 0);
    let tombstone = book.add(32, 0, 0, 0, gone, 1);
    let union = book.union(3);
    let variant = book.variant(4, 0);
    let places = [message, field, field, field, tombstone, tombstone, union, variant];
    for (room, place) in places.into_iter().enumerate() {
        assert_eq!(book.reply_with(24 * room, 0), refused(10, u32::from(place)));
    }
    assert_eq!(book.reply_with(24 * places.len(), 0), accepted(8, 0, 0));
}

#[test]
fn the_place_of_10_elsewhere() {
    let mut book = Maker::default();
    let child = book.primitive(U8);
    let alias = book.alias(1, child);
    let expression = book.reference(9);
    let constant = book.constant(1, expression);
    for (room, place) in [alias, alias, constant, constant].into_iter().enumerate() {
        assert_eq!(book.reply_with(24 * room, 24), refused(10, u32::from(place)));
    }
    assert_eq!(book.reply_with(96, 0), refused(10, u32::from(constant)));
    assert_eq!(book.reply_with(96, 24), accepted(4, 1, 0));
}

/// A small generator of numbers, the same at every run.
struct Dice(u64);

impl Dice {
    fn below(&mut self, bound: u64) -> u64 {
        self.0 = self.0.wrapping_mul(6_364_136_223_846_793_005).wrapping_add(1_442_695_040_888_963_407);
        (self.0 >> 33) % bound
    }
}

#[test]
fn any_bytes_at_all() {
    let mut dice = Dice(1);
    for _ in 0..300 {
        let mut bytes: Vec<u8> = (0..512 * (1 + dice.below(3))).map(|_| dice.below(256) as u8).collect();
        lower(&bytes);
        seal(&mut bytes);
        lower(&bytes);
    }
    // Books with a few bytes changed.
    for _ in 0..3_000 {
        let mut bytes = by_chance(&mut dice).bytes();
        for _ in 0..1 + dice.below(3) {
            let at = dice.below(bytes.len() as u64) as usize;
            bytes[at] = dice.below(40) as u8;
        }
        seal(&mut bytes);
        lower(&bytes);
    }
}

/// Books of random records that mostly hold together: how many are accepted, and refused by each cause.
#[test]
fn books_by_chance() {
    let mut dice = Dice(2);
    let mut met = [0u32; 11];
    for _ in 0..4_000 {
        let book = by_chance(&mut dice);
        let lowered = book.lower();
        match lowered.reply {
            Reply::Accepted { results, diagnostics, constants } => {
                met[0] += 1;
                check_accepted(&lowered, constants);
                // One record less of room in either slice is 10.
                if results > 0 {
                    let short = book.reply_with(24 * results as usize - 1, 6_144);
                    assert!(matches!(short, Reply::Refused { number: 10, .. }));
                }
                if diagnostics > 0 {
                    let short = book.reply_with(49_152, 24 * diagnostics as usize - 1);
                    assert!(matches!(short, Reply::Refused { number: 10, .. }));
                }
            }
            Reply::Refused { number, .. } => met[usize::from(number)] += 1,
        }
    }
    assert!(met[0] > 200 && met[4] > 0 && met[5] > 0 && met[6] > 0 && met[7] > 0 && met[9] > 0, "{met:?}");
}

/// What every accepted lowering has: stored 41s as counted, every child earlier and used once.
fn check_accepted(lowered: &Lowered, constants: u32) {
    let stored = lowered.results.iter().filter(|it| it.kind == 41 && it.sub == 1).count();
    assert_eq!(stored, constants as usize);
    let mut used = vec![false; lowered.results.len()];
    for (number, it) in lowered.results.iter().enumerate() {
        let children = match (it.kind, it.sub) {
            (7, _) | (14, _) | (13, 2) => vec![it.a],
            (8, _) | (15, _) | (13, _) => vec![it.a, it.b],
            (40 | 41 | 48, _) => vec![it.b],
            (45, _) => vec![it.b, it.c],
            (47, _) => vec![it.c],
            _ => vec![],
        };
        for child in children.into_iter().filter(|&child| child != NONE).map(usize::from) {
            assert!(child < number && !used[child]);
            used[child] = true;
        }
    }
}

/// A book of a few blocks, whose records mostly take children that are free.
fn by_chance(dice: &mut Dice) -> Maker {
    let mut book = Chance { book: Maker::default(), free: Default::default() };
    book.book.wildcards = dice.below(2) == 0;
    for _ in 0..1 + dice.below(40) {
        book.add(dice);
    }
    book.book
}

/// A book in the making, and its records without a parent: types, constants, operands.
struct Chance {
    book: Maker,
    free: [Vec<u16>; 3],
}

impl Chance {
    /// A child of a group: a free record, a fresh leaf, or now and then one that may not be.
    fn child(&mut self, group: usize, dice: &mut Dice) -> u16 {
        let many = self.free[group].len() as u64;
        if dice.below(400) == 0 {
            dice.below(40) as u16
        } else if many > 0 && dice.below(8) > 0 {
            self.free[group].swap_remove(dice.below(many) as usize)
        } else {
            self.leaf(group, dice)
        }
    }

    fn leaf(&mut self, group: usize, dice: &mut Dice) -> u16 {
        let (name, v) = (dice.below(12) as u16, dice.below(4));
        match group {
            0 if v == 0 => self.book.primitive(name as u8),
            0 if v == 1 => self.book.qualified(name, 3),
            0 => self.book.named(name),
            1 if v == 0 => self.book.reference(name),
            1 => self.book.add(10, v as u8, 0, 0, 0, name.into()),
            _ => self.book.add(16, 0, 0, 0, 0, v),
        }
    }

    fn add(&mut self, dice: &mut Dice) {
        let (x, y, v) = (dice.below(12) as u16, dice.below(12) as u16, dice.below(4));
        let fresh = 20 + self.book.records.len() as u16;
        match dice.below(16) {
            group @ 0..=2 => {
                let leaf = self.leaf(group as usize, dice);
                self.free[group as usize].push(leaf);
            }
            3 | 4 => {
                let argument = self.child(0, dice);
                let used = self.book.generic(x, argument);
                self.free[0].push(used);
            }
            5 => {
                let (left, right) = (self.child(0, dice), self.child(0, dice));
                let both = self.book.map(left, right);
                self.free[0].push(both);
            }
            6 => {
                let (left, right) = (self.child(1, dice), self.child(1, dice));
                let both = self.book.operation(v as u8, left, right);
                self.free[1].push(both);
            }
            7 => {
                let part = self.child(0, dice);
                self.book.newtype(fresh, part);
            }
            8 | 9 => {
                let part = self.child(0, dice);
                let name = if dice.below(4) == 0 { x } else { fresh };
                self.book.alias(name, part);
                if v < 2 {
                    self.book.parameter(y);
                }
            }
            10 | 11 => {
                let (part, expression) = (self.child(0, dice), self.child(1, dice));
                let name = if dice.below(4) == 0 { x } else { fresh };
                self.book.add(24, 0, name, part, expression, 0);
            }
            12 => {
                self.book.ambiguous(fresh - v as u16);
            }
            13 | 14 => self.add_message(fresh, x, v, dice),
            _ if dice.below(10) == 0 => {
                self.book.add(34, 4 + v.min(1) as u8, 0, 0, 0, 0);
            }
            _ => {
                self.book.union(fresh);
                self.book.variant(x, v);
                self.book.add(32, v.min(1) as u8, 0, 0, NONE, 0);
            }
        }
    }

    fn add_message(&mut self, name: u16, field: u16, v: u64, dice: &mut Dice) {
        self.book.message(name);
        let part = self.child(0, dice);
        let operand = self.child(2, dice);
        let constraint = self.book.add(14, v as u8, operand, 0, 0, 0);
        self.book.add(31, 0, field, part, constraint, v);
        self.book.annotation(v as u8);
    }
}
