//! Resolving up to depth 64 and one more.

use super::draft::NONE;
use super::{accepted, refused, Books, Draft};
use model::Reply;

/// A generic N1 whose use takes `steps` steps: the use is 1, each generic's target one more, the last one's target is
/// u8.
pub fn chain(d: &mut Draft, steps: usize) -> u16 {
    for n in 1..steps as u16 {
        let mut t = d.u8();
        if (n as usize) < steps - 1 {
            t = d.generic(n + 1, t);
        }
        d.alias(n, t, &[4_000]);
    }
    let argument = d.named(4_001);
    d.generic(1, argument)
}

/// What is lowered: puts it over a type and gives its number; and the counts of results and stored constants.
type Over = (&'static str, fn(&mut Draft, u16) -> u16, u32, u32);

const OVER: [Over; 5] = [
    ("newtype", |d, t| d.newtype(3_000, t), 2, 0),
    ("alias", |d, t| d.alias(3_000, t, &[]), 2, 0),
    ("constant", constant, 2, 1),
    ("field", field, 4, 0),
    ("tombstone", tombstone, 3, 0),
];

fn constant(d: &mut Draft, t: u16) -> u16 {
    let e = d.int(1);
    d.put(24, 0, [3_000, t, e], 0)
}

fn field(d: &mut Draft, t: u16) -> u16 {
    d.message(3_000);
    d.field(1, t, NONE)
}

fn tombstone(d: &mut Draft, t: u16) -> u16 {
    d.message(3_000);
    d.tombstone(0, t, 1)
}

/// Refused at `place` if the steps are more than 64, else accepted with these counts.
fn reply(steps: usize, place: u16, results: u32, constants: u32) -> Option<Reply> {
    if steps > 64 {
        refused(9, place)
    } else {
        accepted(results, 0, constants)
    }
}

/// Resolving: the start is 1; a step to a child, a target or a substituted argument adds 1.
pub fn resolving(to: &mut Books) {
    for steps in [64, 65] {
        targets(to, steps);
        substituted(to, steps);
        children(to, steps);
    }
    rings(to);
    copied(to);
}

/// Steps to targets only, for each declaration or item that has a type.
fn targets(to: &mut Books, steps: usize) {
    for (what, over, results, constants) in OVER {
        let mut d = Draft::default();
        let t = chain(&mut d, steps);
        let at = over(&mut d, t);
        to.add(format!("resolving-{steps}-{what}"), &d, reply(steps, at, results, constants));
    }
}

/// A target of arrays over the parameter, and an argument of arrays: 1 for the use, 2 to 2 + k for the target, 3 + k to
/// 3 + k + m for the argument.
fn substituted(to: &mut Books, steps: usize) {
    let (k, m) = (50, steps - 53);
    let mut d = Draft::default();
    let parameter = d.named(4_000);
    let target = d.arrays(parameter, k + 1);
    d.alias(1, target, &[4_000]);
    let argument = d.arrays_u8(m + 1);
    let t = d.generic(1, argument);
    let at = d.newtype(2, t);
    to.add(format!("resolving-{steps}-argument"), &d, reply(steps, at, (k + m + 2) as u32, 0));
}

/// Ten steps to children, then steps to targets.
fn children(to: &mut Books, steps: usize) {
    let mut d = Draft::default();
    let t = chain(&mut d, steps - 10);
    let t = d.arrays(t, 11);
    let at = d.newtype(3_000, t);
    to.add(format!("resolving-{steps}-children"), &d, reply(steps, at, 12, 0));
}

/// A generic alias whose target is a use of itself.
fn rings(to: &mut Books) {
    let mut ring = Draft::default();
    let p = ring.named(2);
    let t = ring.generic(1, p);
    ring.alias(1, t, &[2]);
    to.add("ring-of-generics-unused", &ring, accepted(0, 0, 0));
    let t = ring.generic_u8(1);
    let at = ring.newtype(3, t);
    to.add("ring-of-generics", &ring, refused(9, at));
}

/// A plain alias is copied, which takes no step: the result may be deeper than 64.
fn copied(to: &mut Books) {
    let mut d = Draft::default();
    let t = d.arrays_u8(64);
    d.alias(1, t, &[]);
    let n1 = d.named(1);
    let t = d.arrays(n1, 64);
    d.newtype(2, t);
    to.add("alias-of-64-under-63", &d, accepted(65 + 128, 0, 0));
}
