//! Sizes of books, checks of blocks, lengths of slices, used limits, depths of trees.

use super::constants::{k1, k7, of};
use super::types::k10;
use super::{accepted, chain, refused, Books, Draft, FULL};
use books::seal;
use model::Reply;

/// "Depth 64 passes, 65 gives 8."
pub fn depths(to: &mut Books) {
    for depth in [63, 64, 65] {
        let results = depth as u32;
        tree(to, depth, "type", deep_type, accepted(results + 1, 0, 0));
        tree(to, depth, "constant", deep_constant, accepted(2, 0, 1));
        tree(to, depth, "constraint", deep_constraint, accepted(results + 4, 0, 0));
        tree(to, depth, "unused", Draft::arrays_u8, accepted(0, 0, 0));
    }
    for depth in [64, 65] {
        let results = depth as u32;
        tree(to, depth, "right-type", right_type, accepted(2 * results, 0, 0));
        tree(to, depth, "right-constant", right_constant, accepted(2, 0, 1));
        tree(to, depth, "right-and", right_constraint, accepted(3 * results, 0, 0));
        tree(to, depth, "range", deep_range, accepted(results + 5, 0, 0));
        tree(to, depth, "generic", deep_argument, accepted(0, 0, 0));
    }
}

/// A book with a tree of some depth, which `make` puts and gives the root of.
fn tree(to: &mut Books, depth: usize, what: &str, make: fn(&mut Draft, usize) -> u16, otherwise: Option<Reply>) {
    let mut d = Draft::default();
    let root = make(&mut d, depth);
    to.add(format!("depth-{depth}-{what}"), &d, if depth > 64 { refused(8, root) } else { otherwise });
}

fn deep_type(d: &mut Draft, depth: usize) -> u16 {
    let t = d.arrays_u8(depth);
    d.newtype(1, t);
    t
}

fn deep_constant(d: &mut Draft, depth: usize) -> u16 {
    let mut e = d.int(0);
    for _ in 1..depth {
        let one = d.int(1);
        e = d.operation(0, e, one);
    }
    d.constant(1, e);
    e
}

fn deep_constraint(d: &mut Draft, depth: usize) -> u16 {
    let c = comparison(d);
    nots(d, c, depth)
}

/// A comparison with an operand, of depth 2.
fn comparison(d: &mut Draft) -> u16 {
    let operand = d.operand(7);
    d.put(14, 2, [operand, 0, 0], 0)
}

/// Nots over a constraint of depth 2, in a field.
fn nots(d: &mut Draft, inner: u16, depth: usize) -> u16 {
    let c = (2..depth).fold(inner, |c, _| d.put(13, 2, [c, 0, 0], 0));
    constrained(d, c)
}

/// A message with a field of u8 that has this constraint; gives the constraint.
fn constrained(d: &mut Draft, c: u16) -> u16 {
    d.message(1);
    let t = d.u8();
    d.field(2, t, c);
    c
}

/// Maps of u8 and the next one.
fn right_type(d: &mut Draft, depth: usize) -> u16 {
    let mut t = d.u8();
    for _ in 1..depth {
        let key = d.u8();
        t = d.map(key, t);
    }
    d.newtype(1, t);
    t
}

/// 1 + (1 + ...).
fn right_constant(d: &mut Draft, depth: usize) -> u16 {
    let mut e = d.int(0);
    for _ in 1..depth {
        let one = d.int(1);
        e = d.operation(0, one, e);
    }
    d.constant(1, e);
    e
}

/// Ands of a comparison and the next one.
fn right_constraint(d: &mut Draft, depth: usize) -> u16 {
    let mut c = comparison(d);
    for _ in 2..depth {
        let left = comparison(d);
        c = d.put(13, 0, [left, c, 0], 0);
    }
    constrained(d, c)
}

/// Nots over a range.
fn deep_range(d: &mut Draft, depth: usize) -> u16 {
    let (l, r) = (d.operand(1), d.operand(2));
    let range = d.put(15, 0, [l, r, 0], 0);
    nots(d, range, depth)
}

/// A generic over arrays, which nothing uses.
fn deep_argument(d: &mut Draft, depth: usize) -> u16 {
    let argument = d.arrays_u8(depth - 1);
    d.generic(9, argument)
}

/// That many newtypes, of two records each.
fn newtypes(n: usize) -> Draft {
    let mut d = Draft::default();
    for name in 0..n {
        let t = d.u8();
        d.newtype(name as u16, t);
    }
    d
}

fn one_record() -> Draft {
    let mut d = Draft::default();
    d.u8();
    d
}

/// 336 constants, each but the last naming the one behind it.
fn constants_backwards() -> Draft {
    let mut d = Draft::default();
    for n in (0..336).rev() {
        let e = if n == 0 { d.int(1) } else { d.reference(n - 1) };
        d.constant(n, e);
    }
    d
}

/// Lengths and numbers of blocks.
pub fn sizes(to: &mut Books) {
    to.add("64-blocks", &newtypes(672), accepted(1_344, 0, 0));
    to.add("65-blocks", &newtypes(673), refused(1, 0));
    to.add("constants-worst-order", &constants_backwards(), accepted(672, 0, 336));
    let whole = k1().book.bytes();
    for length in [0, 511, 513, 32_769, 33_280] {
        let mut bytes = whole.clone();
        bytes.resize(length, 0);
        to.bytes(format!("length-{length}"), bytes, FULL, refused(1, 0));
    }
    to.add("one-record", &one_record(), accepted(0, 0, 0));
    let mut whole_block = newtypes(10);
    whole_block.u8();
    to.add("21-records", &whole_block, accepted(20, 0, 0));
    to.add("22-records", &newtypes(11), accepted(22, 0, 0));
    checks(to);
}

fn checks(to: &mut Books) {
    let mut bytes = k1().book.bytes();
    bytes[510..].copy_from_slice(&[0, 0]);
    to.bytes("check-zero", bytes, FULL, refused(2, 0));
    ones(to);
    folded_twice(to);
}

/// A block whose words add up to FFFF has the check 0000, and FFFF there is refused.
fn ones(to: &mut Books) {
    let mut bytes = one_record().book.bytes();
    let check = u16::from_be_bytes([bytes[510], bytes[511]]);
    bytes[20..22].copy_from_slice(&[0, 0]);
    seal(&mut bytes, 0);
    let without = u16::from_be_bytes([bytes[510], bytes[511]]);
    assert!(without > check);
    bytes[20..22].copy_from_slice(&without.to_be_bytes());
    seal(&mut bytes, 0);
    assert_eq!(bytes[510..], [0, 0]);
    to.bytes("check-0000", bytes.clone(), FULL, accepted(0, 0, 0));
    bytes[510..].copy_from_slice(&[255, 255]);
    to.bytes("check-ffff-for-0000", bytes, FULL, refused(2, 0));
}

/// A block whose sum gives a carry twice.
fn folded_twice(to: &mut Books) {
    let mut bytes = one_record().book.bytes();
    bytes[22..28].fill(255);
    let sum = |bytes: &[u8]| bytes[..510].chunks(2).map(|w| u32::from(w[0]) << 8 | u32::from(w[1])).sum::<u32>();
    let twice = |sum: u32| sum % 65_536 + sum / 65_536 > 65_535;
    let word = (0..=u16::MAX).find(|w| {
        bytes[20..22].copy_from_slice(&w.to_be_bytes());
        twice(sum(&bytes))
    });
    assert!(word.is_some());
    seal(&mut bytes, 0);
    to.bytes("check-folded-twice", bytes, FULL, accepted(0, 0, 0));
}

/// "slices of 0, 23, 24, 47 and full lengths", longer ones too.
pub fn slices(to: &mut Books) {
    let k2 = of(0, i64::MAX, 1);
    for length in [0, 23, 24, 47, 48, 71, 72, 95, 96, 97, 49_175, 49_200] {
        let at = if length < 48 { 2 } else { 7 };
        let reply = if length >= 96 { accepted(4, 0, 2) } else { refused(10, at) };
        to.lend(format!("K1-results-{length}"), &k1(), (length, 6_144), reply);
    }
    for length in [0, 23, 24, 47, 6_143, 6_145, 6_192] {
        let reply = if length >= 24 { accepted(2, 1, 0) } else { refused(10, 4) };
        to.lend(format!("K2-diagnostics-{length}"), &k2, (49_152, length), reply);
    }
    for lent in [(0, 0), (23, 23), (24, 0), (48, 0), (24, 24)] {
        to.lend(format!("K2-{}-{}", lent.0, lent.1), &k2, lent, refused(10, 4));
        to.lend(format!("K10-{}-{}", lent.0, lent.1), &k10(), lent, refused(10, 10));
    }
    to.lend("K7-0-0", &k7(), (0, 0), accepted(0, 0, 0));
    let mut unknown = k1();
    unknown.put(99, 0, [0; 3], 0);
    to.lend("refused-short", &unknown, (47, 23), refused(4, 8));
}

/// Used limits: 2,048 results and 256 diagnostics; 9 or 10, first met.
pub fn limits(to: &mut Books) {
    for (over, lent) in [(0, FULL), (1, FULL), (0, (49_200, 6_192)), (1, (49_200, 6_192))] {
        most_results(to, over, lent);
        most_diagnostics(to, over, lent);
    }
    first_met(to);
}

/// 2,048 results, or one more.
fn most_results(to: &mut Books, over: usize, lent: (usize, usize)) {
    let mut d = Draft::default();
    let t = d.arrays_u8(61);
    d.alias(1, t, &[]);
    for name in 2..33 {
        let t = d.named(1);
        let t = d.one(0, t);
        d.newtype(name, t);
    }
    let t = d.arrays_u8(32 + over);
    let at = d.newtype(33, t);
    let reply = if over == 1 { refused(10, at) } else { accepted(2_048, 0, 0) };
    to.lend(format!("results-{}-of-{}", 2_048 + over, lent.0), &d, lent, reply);
}

/// 256 diagnostics, or one more.
fn most_diagnostics(to: &mut Books, over: usize, lent: (usize, usize)) {
    let mut d = Draft::default();
    for name in 0..256 + over as u16 {
        let t = d.named(4_000);
        d.newtype(name, t);
    }
    let reply = if over == 1 { refused(10, 513) } else { accepted(512, 256, 0) };
    to.lend(format!("told-{}-of-{}", 256 + over, lent.1), &d, lent, reply);
}

/// A map of u8, which no result is left for, and of a chain that is too deep under it; then the other way round.
fn first_met(to: &mut Books) {
    let mut right = Draft::default();
    let (l, r) = (right.u8(), chain(&mut right, 64));
    let t = right.map(l, r);
    let at = right.newtype(3_000, t);
    to.lend("map-of-u8-and-too-deep", &right, (0, 0), refused(10, at));
    let mut left = Draft::default();
    let (l, r) = (chain(&mut left, 64), left.u8());
    let t = left.map(l, r);
    let at = left.newtype(3_000, t);
    to.lend("map-of-too-deep-and-u8", &left, (0, 0), refused(9, at));
}
