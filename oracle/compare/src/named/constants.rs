//! Constants: K1 to K7, every operator at its corners, constants in other orders, types that are unknown.

use super::{accepted, Books, Draft};
use model::Reply;

const MIN: i64 = i64::MIN;
const MAX: i64 = i64::MAX;

/// A constant N1 of one operation on two literals.
pub fn of(op: u8, left: i64, right: i64) -> Draft {
    let mut d = Draft::default();
    let (l, r) = (d.int(left), d.int(right));
    let e = d.operation(op, l, r);
    d.constant(1, e);
    d
}

/// A constant of one literal Int.
fn int(d: &mut Draft, name: u16, v: i64) {
    let e = d.int(v);
    d.constant(name, e);
}

/// A constant that is another one.
fn same(d: &mut Draft, name: u16, other: u16) {
    let e = d.reference(other);
    d.constant(name, e);
}

/// A constant of one operation on two others.
fn both(d: &mut Draft, name: u16, op: u8, others: [u16; 2]) {
    let (l, r) = (d.reference(others[0]), d.reference(others[1]));
    let e = d.operation(op, l, r);
    d.constant(name, e);
}

pub fn k1() -> Draft {
    let mut d = Draft::default();
    int(&mut d, 1, 6);
    let (n1, seven) = (d.reference(1), d.int(7));
    let product = d.operation(2, n1, seven);
    d.constant(2, product);
    d
}

fn k3() -> Draft {
    let mut d = Draft::default();
    let e = d.literal(1, 1 << 63);
    d.constant(1, e);
    d
}

fn k6() -> Draft {
    let mut d = Draft::default();
    int(&mut d, 1, 3);
    both(&mut d, 2, 2, [1, 1]);
    d
}

pub fn k7() -> Draft {
    let mut d = Draft::default();
    same(&mut d, 1, 2);
    same(&mut d, 2, 1);
    d
}

/// 1 ÷ 0.
fn none(d: &mut Draft) -> u16 {
    let (l, r) = (d.int(1), d.int(0));
    d.operation(3, l, r)
}

/// A constant of some type.
fn typed(d: &mut Draft, name: u16, t: u16, e: u16) {
    d.put(24, 0, [name, t, e], 0);
}

/// "Proving runs".
pub fn proving_runs(to: &mut Books) {
    to.add("K1", &k1(), accepted(4, 0, 2));
    to.add("K2", &of(0, MAX, 1), accepted(2, 1, 0));
    to.add("K3", &k3(), accepted(2, 0, 1));
    to.add("K4", &of(3, MIN, -1), accepted(2, 1, 0));
    to.add("K5", &of(3, -7, 2), accepted(2, 0, 1));
    to.add("K6", &k6(), accepted(2, 0, 1));
    to.add("K7", &k7(), accepted(0, 0, 0));
}

/// Two literals, and whether an operator gives them a value.
type Pair = (i64, i64, bool);

/// Each operator's name and pairs.
const CORNERS: [(&str, &[Pair]); 4] = [
    ("add", &[(MAX, 0, true), (MIN, -1, false), (MIN, MAX, true), (-1, 1, true), (MIN, MIN, false)]),
    ("sub", &[(MIN, 1, false), (0, MIN, false), (-1, MIN, true), (MAX, -1, false)]),
    (
        "mul",
        &[
            (MIN, -1, false),
            (MIN, 1, true),
            (1 << 32, 1 << 31, false),
            (-(1 << 32), 1 << 31, true),
            (3_037_000_500, 3_037_000_500, false),
            (0, 5, true),
            (MIN, 0, true),
        ],
    ),
    (
        "div",
        &[
            (7, -2, true),
            (-7, -2, true),
            (7, 0, false),
            (0, 0, false),
            (MIN, 1, true),
            (MIN, 2, true),
            (MAX, MIN, true),
        ],
    ),
];

/// Literals with whether they give a value.
const LITERALS: [(u8, u64, bool); 6] = [
    (0, u64::MAX, true),
    (1, u64::MAX, true),
    (2, 0x3ff0_0000_0000_0000, false),
    (3, u64::MAX, true),
    (4, 1, false),
    (4, 0, false),
];

/// The reply for one constant, with or without a value.
fn value(some: bool) -> Option<Reply> {
    if some {
        accepted(2, 0, 1)
    } else {
        accepted(2, 1, 0)
    }
}

/// Every operator at the corners of i64, and every literal.
pub fn arithmetic(to: &mut Books) {
    for (op, (name, cases)) in CORNERS.iter().enumerate() {
        for (i, (l, r, some)) in cases.iter().enumerate() {
            to.add(format!("{name}-{i}"), &of(op as u8, *l, *r), value(*some));
        }
    }
    for op in 4..10 {
        to.add(format!("comparison-{op}"), &of(op, 1, 1), value(false));
    }
    for (i, (sub, v, some)) in LITERALS.iter().enumerate() {
        let mut d = Draft::default();
        let e = d.literal(*sub, *v);
        d.constant(1, e);
        to.add(format!("literal-{sub}-{i}"), &d, value(*some));
    }
    let mut d = Draft::default();
    let (l, r) = (d.int(0), none(&mut d));
    let e = d.operation(2, l, r);
    d.constant(1, e);
    to.add("zero-times-none", &d, value(false));
}

/// Constants in other orders, rings, repeats.
pub fn orders(to: &mut Books) {
    let mut late = Draft::default();
    let (n2, one) = (late.reference(2), late.int(1));
    let sum = late.operation(0, n2, one);
    late.constant(1, sum);
    int(&mut late, 3, 3);
    int(&mut late, 2, 2);
    to.add("used-before-declared", &late, accepted(6, 0, 3));
    let mut into = k7();
    same(&mut into, 3, 1);
    to.add("leads-into-a-ring", &into, accepted(0, 0, 0));
    let mut own = Draft::default();
    same(&mut own, 1, 1);
    to.add("refers-to-itself", &own, accepted(0, 0, 0));
    let mut unknown = Draft::default();
    same(&mut unknown, 1, 9);
    to.add("undeclared", &unknown, accepted(2, 1, 0));
    let mut twice = Draft::default();
    both(&mut twice, 1, 0, [9, 9]);
    to.add("undeclared-twice", &twice, accepted(2, 1, 0));
    let mut without = of(3, 1, 0);
    same(&mut without, 2, 1);
    to.add("refers-to-unstored", &without, accepted(4, 2, 0));
    let mut diamond = k1();
    both(&mut diamond, 3, 0, [1, 2]);
    to.add("diamond", &diamond, accepted(6, 0, 3));
    to.add("constants-17", &every_third_without(17), accepted(34, 6, 11));
    to.add("constants-20", &every_third_without(20), accepted(40, 7, 13));
}

/// So many constants, of which the first and every third behind it have no value.
fn every_third_without(count: u16) -> Draft {
    let mut d = Draft::default();
    for name in 0..count {
        let (l, r) = (d.int(1), d.int(i64::from(name % 3)));
        let e = d.operation(3, l, r);
        d.constant(name, e);
    }
    d
}

/// Puts a type and gives its number.
type Make = fn(&mut Draft) -> u16;

const STUB: Make = |d| d.named(5);
const NAMESPACE: Make = |d| d.qualified(5, 6);
const HEAD: Make = |d| d.generic_u8(5);

/// The types of two constants with wildcards, and how many diagnostics. N5 has a number once it is met alone, and is no
/// generic alias: messages 2, 3 and 4 in the last three.
const STUBS: [(&str, [Make; 2], u32); 4] = [
    ("stub-then-namespace", [STUB, NAMESPACE], 0),
    ("namespace-then-stub", [NAMESPACE, STUB], 1),
    ("stub-then-head", [STUB, HEAD], 1),
    ("head-then-stub", [HEAD, STUB], 1),
];

/// Constants' types that are unknown, in the order in which the constants are done.
pub fn types(to: &mut Books) {
    for (name, types, told) in STUBS {
        let mut d = Draft::default();
        for (n, make) in types.iter().enumerate() {
            let (t, e) = (make(&mut d), d.int(1));
            typed(&mut d, n as u16 + 1, t, e);
        }
        to.add(name, &d.wild(), accepted(4, told, 2));
    }
    let stubs = second_first(|d| d.int(1));
    to.add("stubs-of-constants", &stubs.wild(), accepted(4, 0, 2));
    to.add("told-by-two-constants", &second_first(none), accepted(4, 4, 0));
    let mut d = Draft::default();
    let (t, e) = (d.named(5), none(&mut d));
    typed(&mut d, 1, t, e);
    to.add("unstored-with-stub-type", &d.wild(), accepted(2, 1, 0));
}

/// A constant N1 of the unknown type N5, which is N2; and N2 of the unknown type N6, which is done first.
fn second_first(value: Make) -> Draft {
    let mut d = Draft::default();
    let (t, e) = (d.named(5), d.reference(2));
    typed(&mut d, 1, t, e);
    let (t, e) = (d.named(6), value(&mut d));
    typed(&mut d, 2, t, e);
    d
}
