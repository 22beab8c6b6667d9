//! Books of generic aliases, as deep as resolving goes, and of long chains of plain ones.

use super::draft::{Draft, NONE, PLACES, U8};

/// The name of every parameter.
const T: u16 = 4_000;

/// The name of the message that uses the aliases.
const USER: u16 = 4_001;

/// Generic aliases 0, 1, .. so many, each the next one of its argument, and the last u8. A use of the first takes a
/// step for each.
pub fn steps(d: &mut Draft, n: u16) {
    for name in 0..n {
        let target = if name + 1 < n {
            let argument = d.named(T);
            d.generic(name + 1, argument)
        } else {
            d.primitive(U8)
        };
        d.generic_alias(name, target, T);
    }
}

/// Fields that use the first generic alias, up to so many, as far as they fit; the places left hold types that nothing
/// uses.
fn uses(d: &mut Draft, records: usize, most: usize) {
    d.message(USER);
    let fits = (records - d.len()) / 3;
    for ordinal in 0..fits.min(most) as u16 {
        let t = d.generic_u8(0);
        d.field(ordinal, u64::from(ordinal), t, NONE);
    }
    unused(d, records);
}

/// A chain of generic aliases by which each field takes as many steps as resolving allows, where half the book has
/// room for it.
pub fn deep(blocks: usize) -> Option<Draft> {
    let (mut d, records) = (Draft::default(), PLACES * blocks);
    steps(&mut d, (records / 8).min(63) as u16);
    uses(&mut d, records, 682);
    Some(d)
}

/// A chain of generic aliases, each an array of the next: each step writes a record too.
pub fn deep_arrays(blocks: usize) -> Option<Draft> {
    let (mut d, records) = (Draft::default(), PLACES * blocks);
    let n = (records / 10).min(31) as u16;
    for name in 0..n {
        let inner = if name + 1 < n { d.generic_u8(name + 1) } else { d.named(T) };
        let target = d.array(inner);
        d.generic_alias(name, target, T);
    }
    uses(&mut d, records, (2_048 - 1) / (usize::from(n) + 3));
    Some(d)
}

/// Types that nothing uses, up to so many records.
pub fn unused(d: &mut Draft, records: usize) {
    (d.len()..records).for_each(|_| {
        d.primitive(U8);
    });
}

/// A chain of plain aliases, each an array of the one before; a fresh chain so that results stay below their limit.
pub fn arrays(blocks: usize) -> Option<Draft> {
    let (mut d, records) = (Draft::default(), PLACES * blocks);
    let length = longest(records);
    d.fill(records, |d, name| {
        let inner = if name % length == 0 { d.primitive(U8) } else { d.named(name - 1) };
        let t = if name % length == 0 { inner } else { d.array(inner) };
        d.alias(name, t);
    });
    unused(&mut d, records);
    Some(d)
}

/// The longest chains, three records for each alias but the first, that stay below the limit of results: the k-th of a
/// chain gives k records and its own.
fn longest(records: usize) -> u16 {
    let results = |length: usize| records.div_ceil(3 * length - 1) * (length * (length + 3) / 2);
    (1..=62).rev().find(|length| results(*length) <= 2_048).unwrap_or(1) as u16
}

/// A chain of plain aliases, each the one before.
pub fn chain(blocks: usize) -> Option<Draft> {
    let (mut d, records) = (Draft::default(), PLACES * blocks);
    d.fill(records, |d, name| {
        let t = if name == 0 { d.primitive(U8) } else { d.named(name - 1) };
        d.alias(name, t);
    });
    unused(&mut d, records);
    Some(d)
}
