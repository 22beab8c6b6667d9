//! Random signal books, readable ones and damaged ones.

mod counting;
mod damage;
mod input;
mod layout;
mod mutate;
mod random;
mod rng;
mod shape;

#[cfg(test)]
mod tests;

pub use counting::counted;
pub use damage::{damaged, Damaged};
pub use input::{Input, Rest};
pub use layout::{seal, Book, Record};
pub use mutate::mutate;
pub use random::{lengths, readable};
pub use rng::Rng;
