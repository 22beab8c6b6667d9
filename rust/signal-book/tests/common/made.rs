//! Results made by hand.

use super::{bytes, Plain};
use signal_book::Results;

/// The type records as an alias of them, the last being the root.
pub fn alias_of(types: &[Plain]) -> Vec<u8> {
    bytes(&[types, &[Plain::new(40, 0, [1, types.len() as u16 - 1, 0], 0)]].concat())
}

/// A message with one field that has a constraint, the last of these records; they are counted from 2.
pub fn field_with(constraint: &[Plain]) -> Vec<u8> {
    let head = [Plain::new(42, 0, [1, 0, 0], 0), Plain::new(1, 1, [0; 3], 0)];
    let field = [Plain::new(45, 0, [2, 1, 1 + constraint.len() as u16], 0), Plain::new(46, 0, [0; 3], 0)];
    bytes(&[&head, constraint, &field].concat())
}

/// A constraint as it is printed, and what it opens to.
pub fn constraint_texts(constraint: &[Plain]) -> (String, String) {
    let results = field_with(constraint);
    let message = Results::new(&results).unwrap().messages().next().unwrap();
    let constraint = message.fields().next().unwrap().constraint().unwrap();
    assert_eq!(format!("{constraint:?}"), constraint.to_string());
    (constraint.to_string(), format!("{:?}", constraint.constraint()))
}
