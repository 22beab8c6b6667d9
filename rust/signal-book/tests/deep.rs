//! Trees that are as deep as results can hold: printing them takes little stack.

mod common;

use common::made::{alias_of, constraint_texts};
use common::Plain;
use signal_book::Results;

/// The stack on which the deepest trees are printed: not much more than lowering itself takes.
const STACK: usize = 256 * 1024;

/// Does something on a thread with that stack.
fn on_a_small_stack<T: Send + 'static>(work: impl FnOnce() -> T + Send + 'static) -> T {
    std::thread::Builder::new().stack_size(STACK).spawn(work).unwrap().join().unwrap()
}

/// Prints results of as many records as there can be: types, and an alias of the last of them.
fn print_deep(types: &[Plain]) -> String {
    let results = alias_of(types);
    let results = Results::new(&results).unwrap();
    let ty = results.aliases().next().unwrap().ty();
    assert!(format!("{ty:#?}") == ty.to_string());
    assert!(format!("{results:?}").len() > ty.to_string().len());
    assert!(format!("{results:#?}").len() > ty.to_string().len());
    assert!(format!("{:?}", ty.resolved()).len() > 4000);
    ty.to_string()
}

#[test]
fn the_deepest_optionals() {
    let leaf = [Plain::new(1, 1, [0; 3], 0)];
    let chain: Vec<Plain> = (0..2046).map(|inner| Plain::new(7, 0, [inner, 0, 0], 0)).collect();
    let text = on_a_small_stack(move || print_deep(&[&leaf[..], &chain].concat()));
    assert!(text == format!("{}u8{}", "optional<".repeat(2046), ">".repeat(2046)));
}

#[test]
fn the_deepest_maps() {
    let leaf = Plain::new(1, 1, [0; 3], 0);
    // Each map has the one before it as its key.
    let keys = (0..1023).flat_map(|n| [leaf, Plain::new(8, 0, [2 * n, 2 * n + 1, 0], 0)]);
    let keys: Vec<Plain> = std::iter::once(leaf).chain(keys).collect();
    let text = on_a_small_stack(move || print_deep(&keys));
    assert!(text == format!("{}u8{}", "map<".repeat(1023), ", u8>".repeat(1023)));
    // Each result has the one before it as its second part: all first parts come first.
    let values = (0..1023).map(|n| Plain::new(8, 1, [1022 - n, 1023 + n, 0], 0));
    let values: Vec<Plain> = vec![leaf; 1024].into_iter().chain(values).collect();
    let text = on_a_small_stack(move || print_deep(&values));
    assert!(text == format!("{}u8{}", "result<u8, ".repeat(1023), ">".repeat(1023)));
}

#[test]
fn the_deepest_constraints() {
    let leaf = [Plain::new(16, 0, [0; 3], 7), Plain::new(14, 0, [2, 0, 0], 0)];
    let chain: Vec<Plain> = (0..2042).map(|n| Plain::new(13, 2, [3 + n, 0, 0], 0)).collect();
    let (shown, opened) = on_a_small_stack(move || constraint_texts(&[&leaf[..], &chain].concat()));
    assert!(shown == format!("{}value == 7", "not ".repeat(2042)));
    assert!(opened == format!("Not({}value == 7)", "not ".repeat(2041)));
    // Each "and" has the one before it on its left; three records for each.
    let more = (0..680).flat_map(|n| {
        let last = 3 + 3 * n;
        [leaf[0], Plain::new(14, 0, [last + 1, 0, 0], 0), Plain::new(13, 0, [last, last + 2, 0], 0)]
    });
    let ands: Vec<Plain> = leaf.into_iter().chain(more).collect();
    let (shown, _) = on_a_small_stack(move || constraint_texts(&ands));
    assert!(shown == format!("{}value == 7{}", "(".repeat(680), " and value == 7)".repeat(680)));
}
