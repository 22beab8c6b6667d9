//! Whether an answer to an accepted book says what the Rust says, "up to the order it fixes".

use crate::results::{self, Results};
use books::{Book, Record};
use model::Trace;
use std::collections::{HashMap, HashSet};
use vexil::facts::{Body, Constant, Diagnostic, Lowered, Type};

type Found = Result<(), String>;

fn same<T: PartialEq + std::fmt::Debug>(what: &str, ours: &T, theirs: &T) -> Found {
    if ours == theirs {
        return Ok(());
    }
    Err(format!("{what}\n  answer: {ours:?}\n  Rust:   {theirs:?}"))
}

/// The format: "Wildcard books where one constant's type stubs a name that another's uses as namespace or generic head
/// aren't compared".
pub fn compared(wildcards: bool, trace: &Trace) -> bool {
    let stubbed = |(by, name): &(u32, u16)| trace.bare.iter().any(|(other, n)| n == name && other != by);
    !(wildcards && trace.asked.iter().any(stubbed))
}

/// Holds the records of an accepted book to the Rust's lowering with all constants handed over together: constants and
/// their diagnostics as collections, their stubs up to renumbering.
pub fn agree(book: &Book, results: &[Record], diagnostics: &[Record], trace: &Trace, mut rust: Lowered) -> Found {
    let ours = results::read(results)?;
    renumber(&ours, &mut rust, trace.numbers[2]..trace.numbers[3])?;
    parts(book, &ours, trace, &rust)?;
    let told = results::diagnostics(diagnostics)?;
    messages(&told, trace, &rust, ours.reached.len() == 1)
}

/// Holds them to the Rust's lowering with constants handed over one at a time in the format's order: everything
/// exactly, types of constants without a value too.
pub fn agree_in_order(book: &Book, results: &[Record], diagnostics: &[Record], trace: &Trace, rust: &Lowered) -> Found {
    let ours = results::read(results)?;
    in_book_order(book, results)?;
    parts(book, &ours, trace, rust)?;
    let reached: Vec<_> = order(book).into_iter().map(|r| (r.a, (r.offset, r.len))).collect();
    same("order and spans of constants", &ours.reached.iter().map(|c| (c.name, c.span)).collect(), &reached)?;
    let mut unstored: Vec<_> =
        ours.reached.iter().filter(|c| !c.stored).map(|c| (c.name, c.resolved.clone())).collect();
    unstored.sort();
    same("reached constants without a value", &unstored, &rust.unstored)?;
    messages(&results::diagnostics(diagnostics)?, trace, rust, true)
}

/// All but diagnostics.
fn parts(book: &Book, ours: &Results, trace: &Trace, rust: &Lowered) -> Found {
    same("registry length after each part", &trace.numbers, &rust.lengths)?;
    numbers(book, rust)?;
    aliases(book, ours, rust)?;
    constants(ours, rust)?;
    same("bodies", &ours.bodies, &rust.bodies)
}

/// Bodies and their items stand in book order, each with the span of its own record. The Rust keeps fields and
/// tombstones in lists of their own, so it cannot tell this.
fn in_book_order(book: &Book, results: &[Record]) -> Found {
    let given: Vec<_> =
        results.iter().filter(|r| matches!(r.kind, 42..=45 | 47 | 48)).map(|r| (r.kind, r.offset, r.len)).collect();
    let kinds = [(20, 42), (21, 43), (33, 44), (31, 45), (32, 47), (22, 48)];
    let items = book.records.iter().filter_map(|r| {
        let of = kinds.iter().find(|k| k.0 == r.kind)?;
        Some((of.1, r.offset, r.len))
    });
    same("bodies and items in book order", &given, &items.collect())
}

/// "20-22 numbered from 0, then generic aliases, then stubs as met".
fn numbers(book: &Book, rust: &Lowered) -> Found {
    let declared = book.records.iter().filter(|r| (20..=22).contains(&r.kind)).count() as u32;
    same("numbers of 20 to 22", &(0..declared).collect(), &rust.declared)?;
    let generics: Vec<u16> = aliases_of(book, true).iter().map(|r| r.a).collect();
    same("numbers of generic aliases", &generics.into_iter().zip(declared..).collect(), &rust.generics)?;
    let first = declared + rust.generics.len() as u32;
    let stubs: Vec<u32> = rust.stubs.iter().map(|s| s.1).collect();
    same("numbers of stubs", &(first..rust.lengths[4]).collect(), &stubs)
}

/// The generic aliases of a book, or the plain ones.
fn aliases_of(book: &Book, generic: bool) -> Vec<Record> {
    let items: Vec<&Record> = book.records.iter().filter(|r| r.kind >= 20).collect();
    let parameter = |i: usize| items.get(i + 1).is_some_and(|r| r.kind == 30);
    let chosen = items.iter().enumerate().filter(|(i, r)| r.kind == 23 && parameter(*i) == generic);
    chosen.map(|(_, r)| **r).collect()
}

fn aliases(book: &Book, ours: &Results, rust: &Lowered) -> Found {
    let theirs: Vec<_> = rust.aliases.iter().map(|(name, t)| (*name, t)).collect();
    same("plain aliases", &ours.aliases.iter().map(|a| (a.name, &a.resolved)).collect(), &theirs)?;
    let spans: Vec<_> = aliases_of(book, false).iter().map(|r| (r.offset, r.len)).collect();
    same("spans of plain aliases", &ours.aliases.iter().map(|a| a.span).collect(), &spans)
}

/// Stored constants; those that are reached without a value are those of message 5.
fn constants(ours: &Results, rust: &Lowered) -> Found {
    let mut stored: Vec<Constant> = ours.reached.iter().filter(|c| c.stored).map(constant).collect();
    stored.sort();
    same("stored constants", &stored, &rust.constants)?;
    let mut without: Vec<u16> = ours.reached.iter().filter(|c| !c.stored).map(|c| c.name).collect();
    without.sort();
    let mut told: Vec<u16> = rust.diagnostics[1].iter().filter(|d| d.message == 5).map(|d| d.name).collect();
    told.sort();
    same("names of reached constants without a value", &without, &told)
}

fn constant(c: &results::Reached) -> Constant {
    Constant { name: c.name, value: c.value, resolved: c.resolved.clone(), span: c.span }
}

/// "always the earliest reached one whose declared references are done", with "names no declared constant twice".
pub fn order(book: &Book) -> Vec<Record> {
    let declared: Vec<Record> = book.records.iter().filter(|r| r.kind == 24).copied().collect();
    let names: HashSet<u16> = declared.iter().map(|r| r.a).collect();
    let named: Vec<Vec<u16>> = declared.iter().map(|r| references(book, r.c, &names)).collect();
    let mut done = HashSet::new();
    let mut order = Vec::new();
    let twice = |refs: &Vec<u16>| refs.iter().collect::<HashSet<_>>().len() < refs.len();
    while let Some(i) = (0..declared.len())
        .find(|i| !done.contains(&declared[*i].a) && !twice(&named[*i]) && named[*i].iter().all(|n| done.contains(n)))
    {
        done.insert(declared[i].a);
        order.push(declared[i]);
    }
    order
}

/// The declared constants that an expression names, each as often as it does.
fn references(book: &Book, at: u16, declared: &HashSet<u16>) -> Vec<u16> {
    let r = book.records[at as usize];
    match r.kind {
        11 if declared.contains(&r.a) => vec![r.a],
        12 => [references(book, r.a, declared), references(book, r.b, declared)].concat(),
        _ => Vec::new(),
    }
}

/// Diagnostics in order; those of constants as a collection, unless their order is `fixed` too.
fn messages(ours: &[Diagnostic], trace: &Trace, rust: &Lowered, fixed: bool) -> Found {
    let [_, _, aliases, constants, bodies] = trace.diagnostics.map(|n| n as usize);
    let sorted = |all: &[Diagnostic]| {
        let mut all = all.to_vec();
        all.sort();
        all
    };
    same("diagnostics of aliases", &ours[..aliases].to_vec(), &rust.diagnostics[0])?;
    let part = &ours[aliases..constants];
    same("diagnostics of constants", &sorted(part), &sorted(&rust.diagnostics[1]))?;
    if fixed {
        same("diagnostics of constants in order", &part.to_vec(), &rust.diagnostics[1])?;
    }
    same("diagnostics of bodies", &ours[constants..bodies].to_vec(), &rust.diagnostics[2])
}

/// Gives the stubs of the Rust's constants the numbers that they have in the answer. Which is which shows where they
/// are used; no two may become one, and all other numbers stay.
fn renumber(ours: &Results, rust: &mut Lowered, part: std::ops::Range<u32>) -> Found {
    let theirs = named_by(rust);
    let ours = named_of(ours);
    let mut to: HashMap<u32, u32> = HashMap::new();
    for (o, t) in ours.iter().zip(&theirs) {
        if part.contains(t) && *to.entry(*t).or_insert(*o) != *o {
            return Err(format!("stub {t} of the Rust has two numbers, {o} and {}", to[t]));
        }
    }
    let distinct: HashSet<u32> = to.values().copied().collect();
    same("stubs of constants that have become one", &distinct.len(), &to.len())?;
    if !distinct.iter().all(|n| part.contains(n)) {
        return Err("a stub of the constants has the number of another part".to_string());
    }
    for_types(rust, &mut |t| rename(t, &to));
    Ok(())
}

fn rename(t: &mut Type, to: &HashMap<u32, u32>) {
    match t {
        Type::Named(n) => *n = *to.get(n).unwrap_or(n),
        Type::One { child, .. } => rename(child, to),
        Type::Two { left, right, .. } => {
            rename(left, to);
            rename(right, to);
        }
        _ => {}
    }
}

/// The type numbers in a type, left before right.
fn named_in(t: &Type, out: &mut Vec<u32>) {
    match t {
        Type::Named(n) => out.push(*n),
        Type::One { child, .. } => named_in(child, out),
        Type::Two { left, right, .. } => {
            named_in(left, out);
            named_in(right, out);
        }
        _ => {}
    }
}

/// The type numbers in all that the Rust gives: stored constants by name, then bodies.
fn named_by(rust: &mut Lowered) -> Vec<u32> {
    let mut out = Vec::new();
    for_types(rust, &mut |t| named_in(t, &mut out));
    out
}

/// The type numbers of an answer, in the same order.
fn named_of(ours: &Results) -> Vec<u32> {
    let mut out = Vec::new();
    let mut stored: Vec<&results::Reached> = ours.reached.iter().filter(|c| c.stored).collect();
    stored.sort_by_key(|c| c.name);
    stored.iter().for_each(|c| named_in(&c.resolved, &mut out));
    let mut bodies = Lowered { bodies: ours.bodies.clone(), ..Lowered::default() };
    for_types(&mut bodies, &mut |t| named_in(t, &mut out));
    out
}

/// Every type of the constants and the bodies.
fn for_types(rust: &mut Lowered, f: &mut impl FnMut(&mut Type)) {
    rust.constants.iter_mut().for_each(|c| f(&mut c.resolved));
    for body in &mut rust.bodies {
        match body {
            Body::Message { fields, tombstones, .. } => {
                fields.iter_mut().for_each(|x| f(&mut x.resolved));
                tombstones.iter_mut().filter_map(|x| x.original.as_mut()).for_each(&mut *f);
            }
            Body::Union { variants, tombstones, .. } => {
                for v in variants {
                    v.fields.iter_mut().for_each(|x| f(&mut x.resolved));
                    v.tombstones.iter_mut().filter_map(|x| x.original.as_mut()).for_each(&mut *f);
                }
                tombstones.iter_mut().filter_map(|x| x.original.as_mut()).for_each(&mut *f);
            }
            Body::Newtype { inner, .. } => f(inner),
        }
    }
}
