//! What a fuzzer is handed.

use super::reader::{sum_holds, verdict};
use crate::damage::damaged;
use crate::input::{Input, Rest};
use crate::layout::{BLOCK, MOST_RECORDS};
use crate::mutate::mutate;
use crate::random::{lengths, readable, FULL};
use crate::rng::Rng;

#[test]
fn inputs_are_the_books_and_lengths_that_they_are_made_of() {
    let mut rng = Rng::new(8);
    for _ in 0..2_000 {
        let (bytes, lent) = if rng.chance(2) {
            (readable(&mut rng).bytes(), lengths(&mut rng))
        } else {
            let d = damaged(&mut rng);
            (d.bytes, (d.results, d.diagnostics))
        };
        let input = Input::of(&bytes, lent);
        assert_eq!(Input::read(&input.write()), input);
        assert_eq!((input.book(), input.lent()), (bytes, lent));
    }
}

#[test]
fn every_string_is_an_input() {
    let mut rng = Rng::new(9);
    for _ in 0..2_000 {
        let bytes: Vec<u8> = (0..rng.below(1_500)).map(|_| rng.next() as u8).collect();
        let input = Input::read(&bytes);
        assert_eq!(Input::read(&input.write()), input);
        match &input.rest {
            Rest::Bytes(rest) => assert_eq!(&input.book(), rest),
            Rest::Sealed(_) => assert!(input.book().chunks_exact(BLOCK).all(sum_holds)),
            Rest::Records(book) => assert_eq!(input.book(), book.bytes()),
        }
    }
    assert_eq!(Input::read(&[]).lent(), (0, 0));
    assert_eq!(Input::read(&[8]).lent(), FULL);
}

#[test]
fn some_changed_books_are_readable_and_some_are_not() {
    let mut rng = Rng::new(10);
    let mut readables = 0;
    for _ in 0..2_000 {
        let mut book = readable(&mut rng);
        let before = book.clone();
        mutate(&mut book, &mut rng);
        assert!(book.records.len() <= MOST_RECORDS);
        readables += usize::from(book != before && verdict(&book.bytes()).is_ok());
    }
    assert!((100..1_500).contains(&readables), "{readables}");
}
