//! The unchanged text of the lowering, and a harness inside it.
//!
//! The build script copies the source into `source/` and appends one line to `lower.rs`, which makes `harness` a module
//! of it.

#[allow(warnings)]
#[rustfmt::skip]
#[path = "../source/ast/mod.rs"]
pub mod ast;
#[allow(warnings)]
#[rustfmt::skip]
#[path = "../source/diagnostic.rs"]
pub mod diagnostic;
#[allow(warnings)]
#[rustfmt::skip]
#[path = "../source/ir/mod.rs"]
pub mod ir;
#[allow(warnings)]
#[rustfmt::skip]
#[path = "../source/lower.rs"]
pub mod lower;
#[allow(warnings)]
#[rustfmt::skip]
#[path = "../source/span.rs"]
pub mod span;

mod shims;
use shims::{canonical, errors, remap};

pub mod facts;
pub use lower::harness::{lower_book, lower_book_in_order, lower_with_own_order, time_of_constants, timed};
