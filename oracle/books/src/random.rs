//! Random readable books and lent lengths.

mod bodies;
mod constants;
mod draft;
mod maker;
mod steps;
mod themes;
mod types;

pub use draft::{Id, Placing, Spans};
pub use maker::Maker;
pub use themes::{sized, themed, FIRST_EDGE, THEMES};

use crate::layout::{Book, RECORD};
use crate::rng::Rng;

/// The most bytes of results and of diagnostics that are used.
pub const FULL: (usize, usize) = (49_152, 6_144);

/// A book that falls under no cause from 1 to 8. Lowering it may give acceptance, 9 or 10.
pub fn readable(rng: &mut Rng) -> Book {
    let theme = match rng.below(12) {
        0..=2 => &THEMES[0],
        3 | 4 => rng.pick(&THEMES[FIRST_EDGE..]),
        _ => rng.pick(&THEMES),
    };
    themed(rng, theme)
}

/// Lent lengths of results and diagnostics.
pub fn lengths(rng: &mut Rng) -> (usize, usize) {
    if rng.chance(2) {
        return FULL;
    }
    (length(rng, FULL.0), length(rng, FULL.1))
}

/// One lent length whose limit is `full`.
fn length(rng: &mut Rng, full: usize) -> usize {
    match rng.below(10) {
        0..=2 => full,
        3 => *rng.pick(&[0, 1, 23, 24, 25, 47, 48, 49]),
        4 | 5 => (RECORD * rng.between(1, 40) + 1).saturating_sub(rng.between(0, 2)),
        6 => RECORD * rng.between(0, full / RECORD) + rng.between(0, 23),
        7 => full + rng.between(0, 48),
        8 => full - rng.between(0, 48),
        _ => rng.between(0, full + 48),
    }
}
