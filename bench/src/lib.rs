//! How fast the proved library is: beside the original, and beside one bare pass of the check.

pub mod books;
pub mod count;
pub mod measure;
pub mod sides;
pub mod stack;
pub mod table;
pub mod verdict;
