//! One book that writes a record and gives a message of every sort, with slices that end behind each of its records.

use super::draft::NONE;
use super::{accepted, refused, Books, Draft};

/// A declaration or an item: how many results it writes, and whether it gives a message. All of it is by hand.
type Part = (u16, usize, bool);

/// Plain aliases. N1 = map of u8 and N50, which is unknown: three records of a type and a 40. N2 = N1: the three copied.
/// Then generic ones: N3<N4> = result of N4 and an array of N4; N5<N6> over a message, N7<N8> over an unknown name.
fn aliases(d: &mut Draft) -> Vec<Part> {
    let (l, r) = (d.u8(), d.named(50));
    let t = d.map(l, r);
    let first = d.alias(1, t, &[]);
    let t = d.named(1);
    let second = d.alias(2, t, &[]);
    let (l, r) = (d.named(4), d.named(4));
    let r = d.one(1, r);
    let t = d.put(8, 1, [l, r, 0], 0);
    d.alias(3, t, &[4]);
    for (name, head) in [(5, 10), (7, 71)] {
        let t = d.generic_u8(head);
        d.alias(name, t, &[name + 1]);
    }
    vec![(first, 4, !d.book.wildcards), (second, 4, false)]
}

/// Constants, with a type and a 41 each: 1 ÷ 0, one whose type has an unknown namespace, two whose type is one pair.
fn constants(d: &mut Draft) -> Vec<Part> {
    let (l, r) = (d.int(1), d.int(0));
    let e = d.operation(3, l, r);
    let t = d.put(3, 2, [0; 3], 0);
    let none = d.put(24, 0, [1, t, e], 0);
    let (t, e) = (d.qualified(60, 61), d.int(7));
    let unknown = d.put(24, 0, [2, t, e], 0);
    let (t, e) = (d.qualified(10, 61), d.int(8));
    let pair = d.put(24, 0, [3, t, e], 0);
    let (t, e) = (d.qualified(10, 61), d.int(9));
    let again = d.put(24, 0, [4, t, e], 0);
    vec![(none, 2, true), (unknown, 2, true), (pair, 2, false), (again, 2, false)]
}

/// A message: a field of N3 of a sub-byte, so of sub-byte, sub-byte, array, result, under a constraint of seven records;
/// its 45 and 46; and a tombstone of the ambiguous name N90.
fn message(d: &mut Draft) -> Vec<Part> {
    let at = d.message(10);
    let argument = d.put(2, 0, [5, 0, 0], 0);
    let t = d.generic(3, argument);
    let (low, high) = (d.operand(1), d.operand(9));
    let range = d.put(15, 0, [low, high, 0], 0);
    let seven = d.operand(7);
    let less = d.put(14, 2, [seven, 0, 0], 0);
    let not = d.put(13, 2, [less, 0, 0], 0);
    let and = d.put(13, 0, [range, not, 0], 0);
    let field = d.field(0, t, and);
    let t = d.named(90);
    let tombstone = d.tombstone(0, t, 1);
    vec![(at, 1, false), (field, 4 + 7 + 2, false), (tombstone, 2, true)]
}

/// A union: a variant, a field of inline bits, a tombstone of its own without a type.
fn union(d: &mut Draft) -> Vec<Part> {
    let at = d.union(11);
    let variant = d.variant(0, 0);
    let t = d.put(9, 0, [3, 0, 0], 0);
    let field = d.field(0, t, NONE);
    let tombstone = d.tombstone(1, NONE, 2);
    vec![(at, 1, false), (variant, 1, false), (field, 3, false), (tombstone, 1, false)]
}

/// Newtypes, with a type and a 48 each: over a generic of a message and of an unknown name, and over the generic aliases
/// of these.
fn newtypes(d: &mut Draft) -> Vec<Part> {
    let newtype = |d: &mut Draft, name, head| {
        let t = d.generic_u8(head);
        (d.newtype(name, t), 2, true)
    };
    [10, 70, 5, 7].into_iter().zip(12..).map(|(head, name)| newtype(d, name, head)).collect()
}

/// The book with its parts in the order of lowering.
fn whole(wildcards: bool) -> (Draft, Vec<Part>) {
    let mut d = Draft::default();
    d.book.wildcards = wildcards;
    d.ambiguous(90);
    let make: [fn(&mut Draft) -> Vec<Part>; 5] = [aliases, constants, message, union, newtypes];
    let parts = make.into_iter().flat_map(|make| make(&mut d)).collect();
    (d, parts)
}

/// Each slice in turn with room for every number of records, up to all: refused at the part whose record has no room.
pub fn cuts(to: &mut Books) {
    for (name, wildcards) in [("cut", false), ("wild-cut", true)] {
        let (d, parts) = whole(wildcards);
        let results: Vec<u16> = parts.iter().flat_map(|p| vec![p.0; p.1]).collect();
        let told: Vec<u16> = parts.iter().filter(|p| p.2).map(|p| p.0).collect();
        let all = accepted(results.len() as u32, told.len() as u32, 3);
        for room in 0..=results.len() {
            let reply = results.get(room).map_or(all, |at| refused(10, *at));
            to.lend(format!("{name}-results-{room}"), &d, (24 * room + room % 24, 6_144), reply);
        }
        for room in 0..=told.len() {
            let reply = told.get(room).map_or(all, |at| refused(10, *at));
            to.lend(format!("{name}-told-{room}"), &d, (49_152, 24 * room + room % 24), reply);
        }
    }
}
