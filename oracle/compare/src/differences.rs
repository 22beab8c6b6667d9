//! What docs/DIFFERENCES.md says of the original, by a run of it.

use crate::agree;
use crate::judge::full;
use crate::named::{chain, Draft};
use model::Reply;
use std::collections::HashSet;
use std::hash::Hash;
use vexil::facts::{Body, Lowered, Stub, Type};

/// What comes of a book in the original, over many runs.
fn seen<T: Eq + Hash>(d: &Draft, what: impl Fn(&Lowered) -> T) -> HashSet<T> {
    let bytes = d.book.bytes();
    (0..300).map(|_| what(&vexil::lower_book(&bytes))).collect()
}

/// A constant of some type, worth 1.
fn constant(d: &mut Draft, name: u16, t: u16) {
    let e = d.int(1);
    d.put(24, 0, [name, t, e], 0);
}

#[test]
fn order_of_constants() {
    let mut d = Draft::default();
    for name in [1, 2] {
        let (l, r) = (d.int(1), d.int(0));
        let e = d.operation(3, l, r);
        d.constant(name, e);
    }
    assert_eq!(seen(&d, |l| l.diagnostics[1][0].name), HashSet::from([1, 2]));
    assert_eq!(seen(&d, |l| l.constants.len()), HashSet::from([0]));
}

#[test]
fn numbers_of_stubs() {
    let mut d = Draft::default().wild();
    for name in [1, 2] {
        let t = d.named(name + 4);
        constant(&mut d, name, t);
    }
    let first = seen(&d, |l| match l.stubs[0].0 {
        Stub::Bare(name) => name,
        Stub::Pair(..) => 0,
    });
    assert_eq!(first, HashSet::from([5, 6]));
}

#[test]
fn books_that_are_not_compared() {
    let mut qualified = Draft::default().wild();
    let t = qualified.named(5);
    constant(&mut qualified, 1, t);
    let mut head = qualified.clone();
    let t = qualified.qualified(5, 6);
    constant(&mut qualified, 2, t);
    let argument = head.u8();
    let t = head.generic(5, argument);
    constant(&mut head, 2, t);
    let messages = |l: &Lowered| l.diagnostics[1].iter().map(|d| d.message).collect::<Vec<u8>>();
    assert_eq!(seen(&qualified, messages), HashSet::from([vec![], vec![2]]));
    assert_eq!(seen(&head, messages), HashSet::from([vec![3], vec![4]]));
    for d in [qualified, head] {
        assert!(!agree::compared(true, &full(&d.book.bytes()).unwrap().trace));
    }
}

#[test]
fn over_deep_aliases() {
    let mut d = Draft::default();
    let t = chain(&mut d, 300);
    let at = d.newtype(3_000, t);
    let bytes = d.book.bytes();
    assert_eq!(full(&bytes).unwrap().reply, Reply::Refused { number: 9, place: at as u32 });
    let Body::Newtype { inner, .. } = &vexil::lower_book(&bytes).bodies[0] else {
        panic!("no newtype");
    };
    assert_eq!(*inner, Type::Primitive(1));
}

/// A generic alias N1<N2> = N1<N2>, and a newtype over N1<u8>.
fn endless() -> Vec<u8> {
    let mut d = Draft::default();
    let t = d.named(2);
    let t = d.generic(1, t);
    d.alias(1, t, &[2]);
    let t = d.u8();
    let t = d.generic(1, t);
    d.newtype(3, t);
    d.book.bytes()
}

/// Fills the stack and ends the process; `endless_aliases` runs it in one of its own.
#[test]
#[ignore]
fn fills_the_stack() {
    vexil::lower_book(&endless());
}

#[test]
fn endless_aliases() {
    assert_eq!(full(&endless()).unwrap().reply, Reply::Refused { number: 9, place: 6 });
    let me = std::env::current_exe().unwrap();
    let run =
        std::process::Command::new(me).args(["--ignored", "--exact", "differences::fills_the_stack"]).output().unwrap();
    assert!(!run.status.success());
    assert!(String::from_utf8_lossy(&run.stderr).contains("overflowed its stack"));
}

#[test]
fn limits() {
    let mut d = Draft::default();
    for name in 0..257 {
        let t = d.named(4_000);
        d.newtype(name, t);
    }
    let bytes = d.book.bytes();
    assert_eq!(full(&bytes).unwrap().reply, Reply::Refused { number: 10, place: 513 });
    assert_eq!(vexil::lower_book(&bytes).diagnostics[2].len(), 257);
}

#[test]
fn an_order_of_its_own() {
    let mut d = Draft::default();
    let argument = d.u8();
    let t = d.generic(2, argument);
    d.alias(1, t, &[]);
    let t = d.named(3);
    d.alias(2, t, &[3]);
    let bytes = d.book.bytes();
    let own: Vec<u8> = vexil::lower_with_own_order(&bytes).iter().map(|d| d.message).collect();
    assert_eq!(own, [4]);
    assert_eq!(vexil::lower_book(&bytes).aliases, [(1, Type::Primitive(1))]);
}

#[test]
fn bodies_before_constants() {
    let mut d = Draft::default();
    let t = d.named(9);
    constant(&mut d, 1, t);
    let t = d.named(8);
    d.newtype(2, t);
    let bytes = d.book.bytes();
    let own: Vec<u16> = vexil::lower_with_own_order(&bytes).iter().map(|d| d.name).collect();
    assert_eq!(own, [8, 9]);
    let ours = vexil::lower_book(&bytes).diagnostics;
    assert_eq!((ours[1][0].name, ours[2][0].name), (9, 8));
}
