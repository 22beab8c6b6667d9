//! Books of names that they do not declare: wildcard stubs, pairs, ambiguous ones.

use super::draft::{Draft, NONE, PLACES};

/// The name of the message, and of the namespace.
const USER: u16 = 4_000;

/// Fields of a message with these types, as many as fit.
fn fields(mut d: Draft, blocks: usize, t: impl Fn(&mut Draft, u16) -> u16) -> Option<Draft> {
    d.message(USER);
    d.fill(PLACES * blocks, |d, name| {
        let t = t(d, name);
        d.field(name, u64::from(name), t, NONE);
    });
    Some(d)
}

/// Each field has a name that nothing declares, and no other field has.
pub fn stubs(blocks: usize) -> Option<Draft> {
    fields(Draft::wild(), blocks, |d, name| d.named(name))
}

/// Each field has a pair of its own.
pub fn pairs(blocks: usize) -> Option<Draft> {
    fields(Draft::wild(), blocks, |d, name| d.qualified(USER, name))
}

/// Each pair is met twice: all of them, then all again.
pub fn pairs_again(blocks: usize) -> Option<Draft> {
    let half = (PLACES * blocks - 1) as u16 / 2 / 2;
    fields(Draft::wild(), blocks, |d, name| d.qualified(USER, name % half.max(1)))
}
