//! Bodies: K8 and K9, messages and unions, constraints, encodings, limit arguments, tombstones.

use super::draft::NONE;
use super::{accepted, refused, Books, Draft};

fn k8() -> Draft {
    let mut d = Draft::default();
    d.message(1);
    d.annotation(2);
    let t = d.primitive(2);
    d.field(2, t, NONE);
    d.annotation(1);
    d
}

fn k9() -> Draft {
    let mut d = Draft::default();
    d.message(1);
    let t = d.primitive(2);
    d.field(2, t, NONE);
    d.annotation(3);
    d.argument(2, NONE, 0);
    d.annotation(3);
    d.argument(0, 5, 3);
    d.annotation(3);
    d.argument(0, NONE, 7);
    d.argument(0, NONE, 9);
    d
}

/// "Proving runs".
pub fn proving_runs(to: &mut Books) {
    to.add("K8", &k8(), accepted(4, 0, 0));
    to.add("K9", &k9(), accepted(4, 0, 0));
}

/// "Slips we've seen proposed": "applying a message's delta to Bool or to a union's fields".
pub fn slips(to: &mut Books) {
    let mut delta = Draft::default();
    delta.message(1);
    delta.annotation(2);
    let t = delta.primitive(0);
    delta.field(2, t, NONE);
    to.add("delta-on-bool", &delta, accepted(4, 0, 0));
    let mut union = Draft::default();
    union.union(1);
    union.variant(2, 4);
    let t = union.primitive(2);
    union.field(3, t, NONE);
    to.add("field-of-a-union", &union, accepted(5, 0, 0));
}

/// Messages and unions with every item, and each follow rule that they meet.
pub fn bodies(to: &mut Books) {
    let mut d = Draft::default();
    d.message(1);
    to.add("message-empty", &d, accepted(1, 0, 0));
    let mut d = Draft::default();
    d.union(1);
    d.variant(2, u32::MAX as u64);
    d.tombstone(0, NONE, 3);
    d.tombstone(1, NONE, 4);
    d.variant(3, 5);
    d.field_u8(4);
    to.add("union", &d, accepted(8, 0, 0));
    fields_refused(to);
    names_again(to);
    constraints(to);
}

/// A field that does not follow.
fn fields_refused(to: &mut Books) {
    to.refuse("field-behind-32-sub-1", 6, |d| {
        d.union(1);
        d.variant(2, 0);
        d.tombstone(1, NONE, 4);
        d.field_u8(4)
    });
    to.refuse("field-before-variant", 6, |d| {
        d.union(1);
        d.field_u8(4)
    });
    to.refuse("body-ended-by-25", 6, |d| {
        d.message(1);
        d.ambiguous(2);
        d.field_u8(4)
    });
}

/// "20-23 share one set, 24 and 25 have one each".
fn names_again(to: &mut Books) {
    let mut d = Draft::default();
    d.message(1);
    d.ambiguous(1);
    let e = d.int(1);
    d.constant(1, e);
    to.add("name-in-three-sets", &d, accepted(3, 0, 1));
    let at = d.alias_u8(1);
    to.add("name-again", &d, refused(7, at));
}

/// Constraints with every operand.
fn constraints(to: &mut Books) {
    let operands =
        [(0, 0, u64::MAX), (1, 0, 0x7ff8_0000_0000_0001), (2, 65_534, 0), (3, 0, 1), (4, 0, 99), (5, 4_095, 0)];
    for (sub, a, v) in operands {
        let mut d = Draft::default();
        let o = d.put(16, sub, [a, 0, 0], v);
        let first = d.put(14, 3, [o, 0, 1], 0);
        let (l, r) = (d.put(16, sub, [a, 0, 0], v), d.operand(5));
        let second = d.put(15, 1, [l, r, 0], 0);
        let both = d.put(13, sub % 2, [first, second, 0], 0);
        d.message(1);
        let t = d.u8();
        d.field(2, t, both);
        to.add(format!("operand-{sub}"), &d, accepted(10, 0, 0));
    }
    let mut d = Draft::default();
    let (l, r) = (d.put(16, 4, [0; 3], 0), d.put(16, 4, [0; 3], 8));
    let range = d.put(15, 1, [l, r, 1], 0);
    d.message(1);
    let t = d.u8();
    d.field(2, t, range);
    to.add("value-in-a-range", &d, accepted(7, 0, 0));
}

/// A message's delta over every primitive and sub-byte, with each encoding of the field's own.
pub fn encodings(to: &mut Books) {
    for (name, own) in [("default", &[][..]), ("varint", &[0]), ("zigzag", &[1]), ("delta", &[2])] {
        let mut d = Draft::default();
        d.message(1);
        d.annotation(2);
        for sub in 0..16 {
            let t = if sub < 14 { d.primitive(sub) } else { d.put(2, sub - 14, [3, 0, 0], 0) };
            annotated(&mut d, sub as u16, t, own);
        }
        to.add(format!("delta-over-{name}"), &d, accepted(49, 0, 0));
    }
    let mut d = Draft::default();
    d.message(1);
    for all in [&[0, 1][..], &[1, 0], &[1, 2], &[2, 0], &[0, 1, 2, 3, 4], &[4]] {
        let t = d.put(3, 0, [0; 3], 0);
        annotated(&mut d, 2, t, all);
    }
    to.add("annotations-together", &d, accepted(19, 0, 0));
    delta_through_alias(to);
    message_not_delta(to);
}

/// What the type is resolved to counts: u16 by a plain alias, u8 by a generic one.
fn delta_through_alias(to: &mut Books) {
    let mut d = Draft::default();
    let t = d.primitive(2);
    d.alias(5, t, &[]);
    let t = d.named(10);
    d.alias(6, t, &[10]);
    d.message(1);
    d.annotation(2);
    let t = d.named(5);
    d.field(2, t, NONE);
    let t = d.generic_u8(6);
    d.field(3, t, NONE);
    to.add("delta-through-alias", &d, accepted(9, 0, 0));
}

/// Of a message's own annotations only delta reaches its fields.
fn message_not_delta(to: &mut Books) {
    let mut d = Draft::default();
    d.message(1);
    for sub in [0, 1, 3, 4] {
        d.annotation(sub);
        if sub == 3 {
            d.argument(0, NONE, 7);
        }
    }
    let t = d.primitive(2);
    d.field(2, t, NONE);
    to.add("message-not-delta", &d, accepted(4, 0, 0));
}

/// A field with its annotations.
fn annotated(d: &mut Draft, name: u16, t: u16, annotations: &[u8]) {
    d.field(name, t, NONE);
    annotations.iter().for_each(|a| {
        d.annotation(*a);
    });
}

/// Limits: the first keyless Int or Hex in the first limit annotation having one.
pub fn limit_arguments(to: &mut Books) {
    let mut d = Draft::default();
    d.message(1);
    let cases: [&[(u8, u16, u64)]; 6] = [
        &[(1, NONE, 0), (0, NONE, 9)],
        &[(0, 0, 1), (1, NONE, u64::MAX)],
        &[(2, NONE, 0), (2, 5, 0)],
        &[(0, 4_095, 3), (1, 7, 4)],
        &[],
        &[(2, NONE, 0), (0, NONE, 0)],
    ];
    for arguments in cases {
        d.field_u8(2);
        d.annotation(4);
        d.argument(0, NONE, 77);
        d.annotation(3);
        arguments.iter().for_each(|(sub, key, v)| {
            d.argument(*sub, *key, *v);
        });
        d.annotation(3);
        d.argument(0, NONE, 5);
    }
    to.add("limit-arguments", &d, accepted(19, 0, 0));
}

/// Reason and since: the first string under each key.
pub fn tombstones(to: &mut Books) {
    let mut d = Draft::default();
    d.message(1);
    let cases: [&[(u8, u16)]; 6] = [
        &[],
        &[(0, NONE), (0, 5), (0, 6)],
        &[(1, 7), (0, 65_534), (1, 8)],
        &[(2, 9), (1, NONE)],
        &[(0, NONE), (1, NONE)],
        &[(1, 0), (0, 0)],
    ];
    for (n, arguments) in cases.iter().enumerate() {
        let t = if n % 2 == 0 { d.u8() } else { NONE };
        d.tombstone(0, t, n as u64);
        arguments.iter().for_each(|(key, text)| {
            d.put(36, *key, [*text, 0, 0], 0);
        });
    }
    to.add("tombstones", &d, accepted(10, 0, 0));
    tombstones_of_both(to);
}

/// A union with a tombstone of a variant, then one of its own, then a variant that opens it again.
fn tombstones_of_both(to: &mut Books) {
    let mut d = Draft::default();
    d.union(1);
    d.variant(2, 4);
    let t = d.u8();
    d.tombstone(0, t, 6);
    d.put(36, 0, [7, 0, 0], 0);
    d.tombstone(1, NONE, 8);
    d.put(36, 1, [9, 0, 0], 0);
    d.variant(3, 5);
    d.field_u8(4);
    to.add("tombstones-of-both", &d, accepted(9, 0, 0));
}
