//! Books of constants, by the order in which they name each other.

use super::draft::{Draft, ADD, PLACES, U8};

/// Constants of three records with these names: 0 is a literal, each other one is the one whose name is one less.
fn chain(d: &mut Draft, names: impl Iterator<Item = u16>) {
    for name in names {
        let e = if name == 0 { d.int(1) } else { d.reference(name - 1) };
        d.constant(name, U8, e);
    }
}

/// How many such constants fit.
fn most(blocks: usize) -> u16 {
    (PLACES * blocks / 3) as u16
}

/// Best order: always the next constant is ready.
pub fn forwards(blocks: usize) -> Option<Draft> {
    let mut d = Draft::default();
    chain(&mut d, 0..most(blocks));
    Some(d)
}

/// Worst order: always the last constant of those that are left is ready.
pub fn backwards(blocks: usize) -> Option<Draft> {
    let mut d = Draft::default();
    chain(&mut d, (0..most(blocks)).rev());
    Some(d)
}

/// How many others the sum of all others can have: two records in the sum for each, and three of its own.
fn others(blocks: usize) -> u16 {
    ((PLACES * blocks - 1) / 5) as u16
}

/// The sum of n constants, as a tree that is as low as can be.
fn sum(d: &mut Draft, first: u16, n: u16) -> u16 {
    if n == 1 {
        return d.reference(first);
    }
    let left = sum(d, first, n / 2);
    let right = sum(d, first + n / 2, n - n / 2);
    d.operation(ADD, left, right)
}

/// The sum of all others comes first, and waits for them one after the other; these are in best order.
pub fn sum_first(blocks: usize) -> Option<Draft> {
    let (mut d, n) = (Draft::default(), others(blocks));
    let e = sum(&mut d, 0, n);
    d.constant(n, U8, e);
    chain(&mut d, 0..n);
    Some(d)
}

/// The same with the others in worst order: each time all that are left are looked at, and the sum up to the next.
pub fn sum_first_backwards(blocks: usize) -> Option<Draft> {
    let (mut d, n) = (Draft::default(), others(blocks));
    let e = sum(&mut d, 0, n);
    d.constant(n, U8, e);
    chain(&mut d, (0..n).rev());
    Some(d)
}
