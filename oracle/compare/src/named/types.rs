//! Types: K10 to K12, the steps of a name, plain aliases, generic aliases.

use super::{accepted, Books, Draft};

/// Puts a type and gives its number.
type Make = fn(&mut Draft) -> u16;

/// A newtype N3 over a type.
fn newtype(make: Make) -> Draft {
    let mut d = Draft::default();
    let t = make(&mut d);
    d.newtype(3, t);
    d
}

pub fn k10() -> Draft {
    let mut d = Draft::default();
    let t = d.named(10);
    let inner = d.generic(2, t);
    d.alias(1, inner, &[10]);
    let u = d.named(11);
    let array = d.one(1, u);
    d.alias(2, array, &[11]);
    let outer = d.generic_u8(1);
    d.newtype(3, outer);
    d
}

fn k11() -> Draft {
    let mut d = Draft::default();
    let (t, u) = (d.named(10), d.named(11));
    let map = d.map(t, u);
    d.alias(1, map, &[10, 11]);
    let pair = d.generic_u8(1);
    d.newtype(2, pair);
    d
}

fn k12() -> Draft {
    let mut d = Draft::default();
    let t = d.named(10);
    d.alias(1, t, &[10]);
    let bare = d.named(1);
    d.newtype(2, bare);
    d
}

/// "Proving runs".
pub fn proving_runs(to: &mut Books) {
    to.add("K10", &k10(), accepted(3, 1, 0));
    to.add("K11", &k11(), accepted(4, 1, 0));
    to.add("K12", &k12(), accepted(2, 0, 0));
}

/// K10 and K11 with wildcards: the parameter that is not replaced becomes a stub.
pub fn wild_runs(to: &mut Books) {
    to.add("K10-wild", &k10().wild(), accepted(3, 0, 0));
    to.add("K11-wild", &k11().wild(), accepted(4, 0, 0));
}

/// "Slips we've seen proposed": "making a stub for an unknown generic head". K5, K6 and K10 are proving runs.
pub fn slips(to: &mut Books) {
    let mut head = Draft::default();
    let g = head.generic_u8(9);
    head.newtype(1, g);
    to.add("unknown-head-wild", &head.wild(), accepted(2, 1, 0));
}

/// A book with its results, and its diagnostics without and with wildcards.
type Name = (&'static str, fn() -> Draft, u32, [u32; 2]);

const NAMES: [Name; 7] = [
    ("unknown", || newtype(|d| d.named(9)), 2, [1, 0]),
    ("ambiguous", || newtype(|d| ambiguous(d, 9)), 2, [1, 1]),
    ("ambiguous-declared", || newtype(|d| ambiguous(d, 3)), 2, [0, 0]),
    ("ambiguous-generic", ambiguous_generic, 2, [1, 1]),
    ("qualified-unknown", || newtype(|d| d.qualified(8, 9)), 2, [1, 1]),
    ("qualified-twice", || newtype(qualified_twice), 4, [0, 0]),
    ("stub-as-namespace", || newtype(stub_as_namespace), 4, [2, 0]),
];

fn ambiguous(d: &mut Draft, name: u16) -> u16 {
    d.ambiguous(name);
    d.named(name)
}

fn ambiguous_generic() -> Draft {
    let mut d = k12();
    d.ambiguous(1);
    d
}

fn qualified_twice(d: &mut Draft) -> u16 {
    let (l, r) = (d.qualified(3, 9), d.qualified(3, 9));
    d.map(l, r)
}

fn stub_as_namespace(d: &mut Draft) -> u16 {
    let (l, r) = (d.named(8), d.qualified(8, 9));
    d.map(l, r)
}

/// The steps of a name, in order.
pub fn names(to: &mut Books) {
    for (name, make, results, told) in NAMES {
        to.add(format!("{name}-alone"), &make(), accepted(results, told[0], 0));
    }
    for (name, make, results, told) in NAMES {
        to.add(format!("{name}-wild"), &make().wild(), accepted(results, told[1], 0));
    }
    to.add("ambiguous-name-0", &newtype(|d| ambiguous(d, 0)), accepted(2, 1, 0));
    to.add("ambiguous-namespace", &newtype(|d| ambiguous_namespace(d, 8)), accepted(2, 1, 0));
    to.add("ambiguous-declared-ns", &newtype(|d| ambiguous_namespace(d, 3)), accepted(2, 0, 0));
    plain_aliases(to);
    copies(to);
}

/// A namespace name that is ambiguous: one without a number gives message 2, not 0, and one with a number a stub.
fn ambiguous_namespace(d: &mut Draft, namespace: u16) -> u16 {
    d.ambiguous(namespace);
    d.qualified(namespace, 9)
}

/// A target of a plain alias, and how many results it has.
const COPIES: [(&str, Make, u32); 3] = [
    ("alias-of-bits", |d| d.put(9, 0, [77, 0, 0], 0), 1),
    ("alias-of-sub-byte", |d| d.put(2, 1, [5, 0, 0], 0), 1),
    ("alias-of-fixed-array", fixed_array, 2),
];

/// A FixedArray of nine u8.
fn fixed_array(d: &mut Draft) -> u16 {
    let t = d.u8();
    d.put(7, 2, [t, 0, 0], 9)
}

/// A plain alias N1 of each target and a newtype over it: the target's fields are copied too.
fn copies(to: &mut Books) {
    for (name, target, results) in COPIES {
        let mut d = Draft::default();
        let t = target(&mut d);
        d.alias(1, t, &[]);
        let t = d.named(1);
        d.newtype(3, t);
        to.add(name, &d, accepted(2 * (results + 1), 0, 0));
    }
}

/// Plain aliases: chains, used before they are there, as namespace, to poison.
fn plain_aliases(to: &mut Books) {
    let mut forward = Draft::default();
    forward.alias_u8(1);
    let t = forward.named(1);
    forward.alias(2, t, &[]);
    let t = forward.named(2);
    forward.newtype(3, t);
    to.add("alias-chain", &forward, accepted(6, 0, 0));
    early_aliases(to);
    let mut plain = Draft::default();
    plain.alias_u8(1);
    let t = plain.qualified(1, 2);
    plain.newtype(3, t);
    to.add("alias-to-u8-as-ns", &plain, accepted(4, 1, 0));
    let mut both = Draft::default();
    both.alias_u8(1);
    let t = ambiguous(&mut both, 1);
    both.newtype(3, t);
    to.add("alias-and-ambiguous", &both, accepted(4, 0, 0));
}

/// A plain alias N1 of N2, which is a plain alias behind it.
fn early_aliases(to: &mut Books) {
    let mut early = Draft::default();
    let t = early.named(2);
    early.alias(1, t, &[]);
    early.alias_u8(2);
    to.add("alias-too-early", &early, accepted(4, 1, 0));
    to.add("alias-too-early-wild", &early.clone().wild(), accepted(4, 0, 0));
    let t = early.qualified(1, 9);
    early.newtype(3, t);
    to.add("alias-to-poison-as-ns", &early, accepted(6, 1, 0));
    let mut poison = early.clone();
    let t = poison.generic_u8(1);
    poison.newtype(4, t);
    to.add("alias-to-poison-as-head", &poison, accepted(8, 2, 0));
    let mut hidden = early.clone().wild();
    let (l, r) = (hidden.named(2), hidden.generic_u8(2));
    let t = hidden.map(l, r);
    hidden.newtype(4, t);
    to.add("stub-hides-alias-as-head", &hidden, accepted(10, 1, 0));
    // The alias is to a generic alias here, so that it would be a head if the stub did not hide it.
    let mut hidden = Draft::default().wild();
    let t = hidden.named(2);
    hidden.alias(1, t, &[]);
    let t = hidden.u8();
    hidden.alias(3, t, &[5]);
    let t = hidden.named(3);
    hidden.alias(2, t, &[]);
    let t = hidden.generic_u8(2);
    hidden.newtype(4, t);
    to.add("stub-hides-generic-alias", &hidden, accepted(6, 1, 0));
}

/// A target of a generic alias N1, the alias's parameters, and the counts of results and diagnostics.
type Target = (&'static str, Make, &'static [u16], [u32; 2]);

const TARGETS: [Target; 10] = [
    ("head-unknown-in-target", |d| d.generic_u8(9), &[10], [2, 1]),
    ("head-declared-in-target", |d| d.generic_u8(2), &[10], [2, 1]),
    ("second-parameter", |d| d.named(11), &[10, 11], [2, 1]),
    ("same-parameter-twice", |d| d.named(10), &[10, 10], [2, 0]),
    ("parameter-named-as-alias", |d| d.named(1), &[1], [2, 0]),
    ("parameter-is-newtype", |d| d.named(2), &[2], [2, 0]),
    ("parameter-unused", |d| d.u8(), &[10], [2, 0]),
    ("parameter-as-namespace", |d| d.qualified(10, 9), &[10], [2, 1]),
    ("parameter-as-head", |d| d.generic_u8(10), &[10], [2, 1]),
    ("parameter-twice", parameter_twice, &[10], [4, 0]),
];

fn parameter_twice(d: &mut Draft) -> u16 {
    let (l, r) = (d.named(10), d.named(10));
    d.map(l, r)
}

fn array_of_parameter(d: &mut Draft) -> u16 {
    let t = d.named(10);
    d.one(1, t)
}

/// A generic alias N1 with that target, and a newtype N2 over a use of it.
fn used(target: Make, parameters: &[u16]) -> Draft {
    let mut d = Draft::default();
    let t = target(&mut d);
    d.alias(1, t, parameters);
    let argument = d.primitive(2);
    let t = d.generic(1, argument);
    d.newtype(2, t);
    d
}

/// Messages 1, 3 and 4, parameters, heads.
pub fn generics(to: &mut Books) {
    for (name, target, parameters, [results, told]) in TARGETS {
        to.add(name, &used(target, parameters), accepted(results, told, 0));
    }
    arguments(to);
    heads(to);
}

/// An argument is resolved where the target has the parameter, and only there.
fn arguments(to: &mut Books) {
    let mut d = used(|d| d.named(10), &[10]);
    let inner = d.generic_u8(9);
    let t = d.generic(1, inner);
    d.newtype(3, t);
    to.add("head-unknown-in-argument", &d, accepted(4, 1, 0));
    let mut d = used(|d| d.u8(), &[10]);
    let unknown = d.named(9);
    let t = d.generic(1, unknown);
    d.newtype(3, t);
    to.add("argument-never-resolved", &d, accepted(4, 0, 0));
    argument_parts(to);
}

/// A part of an argument keeps its own span; an argument is resolved at each place of the parameter.
fn argument_parts(to: &mut Books) {
    let mut d = Draft::default();
    let t = d.named(10);
    d.alias(1, t, &[10]);
    let unknown = d.named(9);
    let array = d.one(1, unknown);
    let t = d.generic(1, array);
    d.newtype(3, t);
    to.add("span-of-argument-part", &d, accepted(3, 1, 0));
    let mut d = used(parameter_twice, &[10]);
    let l = d.generic_u8(1);
    let unknown = d.named(9);
    let r = d.generic(1, unknown);
    let t = d.map(l, r);
    d.newtype(3, t);
    to.add("generic-twice-in-a-map", &d, accepted(12, 2, 0));
}

/// A head that is a plain alias of a generic one, or of u8 inside a substitution; and a generic alias behind the plain
/// one that uses it.
fn heads(to: &mut Books) {
    let mut d = used(array_of_parameter, &[10]);
    let t = d.named(1);
    d.alias(5, t, &[]);
    let t = d.generic_u8(5);
    d.newtype(3, t);
    to.add("head-by-plain-alias", &d, accepted(8, 0, 0));
    let mut d = Draft::default();
    let t = d.generic_u8(2);
    d.alias(1, t, &[10]);
    d.alias_u8(2);
    let t = d.generic_u8(1);
    d.newtype(3, t);
    to.add("inner-head-plain-u8", &d, accepted(4, 1, 0));
    let mut d = Draft::default();
    let t = d.generic_u8(2);
    d.alias(1, t, &[]);
    let t = d.named(10);
    d.alias(2, t, &[10]);
    to.add("plain-before-generic", &d, accepted(2, 0, 0));
}
