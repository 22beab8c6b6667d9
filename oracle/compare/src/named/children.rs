//! Children: for each field that has one, a child of a wrong group, one that is used already, one that is not earlier.

use super::faults::{comparison, put_sound, range, sound_expression, sound_type};
use super::{Books, Draft};
use crate::rows;

/// The groups of children, and declarations, in the order of their kinds.
#[derive(Clone, Copy, PartialEq, PartialOrd)]
enum Group {
    Type,
    Expression,
    Constraint,
    Operand,
    Declaration,
}
use Group::{Constraint, Declaration, Expression, Operand, Type};

const GROUPS: [(&str, Group); 5] = [
    ("type", Type),
    ("expression", Expression),
    ("constraint", Constraint),
    ("operand", Operand),
    ("declaration", Declaration),
];

/// Each field that has a child: its kind, its letter, and the child's group.
const FIELDS: [(u8, char, Group); 18] = [
    (6, 'b', Type),
    (7, 'a', Type),
    (8, 'a', Type),
    (8, 'b', Type),
    (12, 'a', Expression),
    (12, 'b', Expression),
    (13, 'a', Constraint),
    (13, 'b', Constraint),
    (14, 'a', Operand),
    (15, 'a', Operand),
    (15, 'b', Operand),
    (22, 'b', Type),
    (23, 'b', Type),
    (24, 'b', Type),
    (24, 'c', Expression),
    (31, 'b', Type),
    (31, 'c', Constraint),
    (32, 'c', Type),
];

/// Cause 5, by each field and by each rule.
pub fn children(to: &mut Books) {
    for (kind, letter, wanted) in FIELDS {
        for (name, given) in GROUPS.into_iter().filter(|g| g.1 != wanted) {
            to.refuse(format!("5-{kind}-{letter}-{name}"), 5, |d| {
                let child = next_to(d, given, wanted);
                over(d, kind, letter, child)
            });
        }
    }
    for (kind, letter, wanted) in FIELDS {
        to.refuse(format!("5-used-{kind}-{letter}"), 5, |d| {
            let child = used(d, wanted);
            over(d, kind, letter, child)
        });
    }
    used_before(to);
    not_earlier(to);
    // A name outside its values, and the record itself as its child: 4 goes first.
    to.refuse("4-name-before-5-child", 4, |d| d.put(6, 0, [4_096, 0, 0], 0));
}

/// A record of a group, of the kind that is next to another group.
fn next_to(d: &mut Draft, given: Group, other: Group) -> u16 {
    match given {
        Type => sound_type(d, 9, 0),
        Expression => sound_expression(d, if other < given { 10 } else { 12 }, 0),
        Constraint if other < given => {
            let inner = comparison(d, 0);
            d.put(13, 2, [inner, 0, 0], 0)
        }
        Constraint => range(d, 0),
        Operand => d.operand(1),
        Declaration => d.message(1),
    }
}

/// A record of a group that another record uses.
fn used(d: &mut Draft, group: Group) -> u16 {
    let child = next_to(d, group, Type);
    match group {
        Type => d.newtype(1, child),
        Expression => d.constant(1, child),
        Constraint => {
            d.message(1);
            let t = d.u8();
            d.field(2, t, child)
        }
        _ => d.put(14, 0, [child, 0, 0], 0),
    };
    child
}

/// Puts a record that is sound but for this child.
fn over(d: &mut Draft, kind: u8, letter: char, child: u16) -> u16 {
    let at = put_sound(d, kind, 0);
    assert_eq!(rows::first(&d.book.bytes()), None);
    let r = &mut d.book.records[at as usize];
    assert_eq!(r.kind, kind);
    match letter {
        'a' => r.a = child,
        'b' => r.b = child,
        _ => r.c = child,
    }
    at
}

/// A child that is used already, also by the same record.
fn used_before(to: &mut Books) {
    to.refuse("5-child-named-twice", 5, |d| {
        let t = d.u8();
        d.map(t, t)
    });
    to.refuse("5-operand-named-twice", 5, |d| {
        let e = d.int(1);
        d.operation(0, e, e)
    });
    to.refuse("5-twice-13", 5, |d| {
        let c = comparison(d, 0);
        d.put(13, 0, [c, c, 0], 0)
    });
    to.refuse("5-twice-15", 5, |d| {
        let o = d.operand(1);
        d.put(15, 0, [o, o, 0], 0)
    });
    to.refuse("5-child-used-before", 5, |d| {
        let t = d.u8();
        d.newtype(1, t);
        d.newtype(2, t)
    });
    to.refuse("5-used-by-unused", 5, |d| {
        let t = d.u8();
        d.one(0, t);
        d.one(0, t)
    });
}

/// A child that is the record itself, one behind it, and one that is a declaration.
fn not_earlier(to: &mut Books) {
    to.refuse("5-child-is-itself", 5, |d| d.one(0, 0));
    to.refuse("5-child-later", 5, |d| {
        let at = d.one(0, 1);
        d.u8();
        at
    });
    to.refuse("5-declaration-as-child", 5, |d| {
        d.message(1);
        d.newtype(2, 0)
    });
}
