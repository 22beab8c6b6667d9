//! Tests of the generator.

mod coverage;
mod inputs;
mod reader;

use std::collections::BTreeMap;

use crate::damage::{damaged, BREAKS};
use crate::layout::{check, Book, Record, BLOCK, MOST_RECORDS};
use crate::random::{lengths, readable, themed, FULL, THEMES};
use crate::rng::Rng;

use crate::counting::counted;
use reader::{block_holds, sum_holds, verdict};

#[test]
fn books_of_every_theme_are_readable() {
    let mut rng = Rng::new(1);
    for theme in &THEMES {
        for _ in 0..400 {
            let book = themed(&mut rng, theme);
            let bytes = book.bytes();
            let blocks = bytes.len() / BLOCK;
            for (number, block) in bytes.chunks(BLOCK).enumerate() {
                assert!(sum_holds(block) && block_holds(block, number, blocks), "{}", theme.name);
            }
            assert_eq!(verdict(&bytes), Ok((book.wildcards, book.records.clone())), "{}", theme.name);
        }
    }
}

#[test]
fn about_nine_in_ten_are_accepted() {
    let mut rng = Rng::new(5);
    let mut outcomes: BTreeMap<u8, usize> = BTreeMap::new();
    for _ in 0..3_000 {
        let book = readable(&mut rng);
        let outcome = counted(book.wildcards, &book.records, FULL).map_or_else(|refused| refused.0, |_| 0);
        *outcomes.entry(outcome).or_default() += 1;
    }
    assert!((2_600..2_940).contains(&outcomes[&0]), "{outcomes:?}");
    assert!(outcomes[&9] > 30 && outcomes[&10] > 30, "{outcomes:?}");
}

#[test]
fn round_trip() {
    let mut rng = Rng::new(2);
    for _ in 0..2_000 {
        let book = readable(&mut rng);
        assert_eq!(Book::read(&book.bytes()).as_ref(), Some(&book));
    }
}

#[test]
fn layout_by_hand() {
    let record = Record {
        kind: 1,
        sub: 2,
        a: 0x0403,
        b: 0x0605,
        c: 0x0807,
        v: 0x100f_0e0d_0c0b_0a09,
        offset: 0x1413_1211,
        len: 0x1817_1615,
    };
    let bytes: Vec<u8> = (1..=24).collect();
    assert_eq!(record.bytes()[..], bytes);
    assert_eq!(Record::read(&bytes), record);
    let book = Book { wildcards: true, records: vec![record; MOST_RECORDS + 22] };
    let bytes = book.bytes();
    assert_eq!(bytes.len(), 66 * BLOCK);
    assert_eq!(bytes[..4], [0, 0, 21, 1]);
    assert_eq!(bytes[65 * BLOCK..65 * BLOCK + 4], [65, 0, 1, 0]);
    assert!(bytes.chunks(BLOCK).all(sum_holds));
    assert_eq!(Book::read(&bytes), None);
    assert_eq!(check(&[0; BLOCK]), 0xFFFF);
}

#[test]
fn lengths_are_full_or_near_a_limit_or_any() {
    let mut rng = Rng::new(6);
    let all: Vec<(usize, usize)> = (0..4_000).map(|_| lengths(&mut rng)).collect();
    let full = all.iter().filter(|&&both| both == FULL).count();
    assert!((1_900..2_600).contains(&full), "{full}");
    for length in [0, 23, 24, 47, 48, 49, 71, 73] {
        assert!(all.iter().any(|both| both.0 == length), "{length}");
        assert!(all.iter().any(|both| both.1 == length), "{length}");
    }
    assert!(all.iter().any(|both| both.0 > FULL.0) && all.iter().all(|both| both.0 <= 49_200));
    assert!(all.iter().any(|both| both.1 > FULL.1) && all.iter().all(|both| both.1 <= 6_192));
}

#[test]
fn damages_are_what_they_say() {
    let mut rng = Rng::new(4);
    let mut causes: BTreeMap<u8, usize> = BTreeMap::new();
    let mut labels: BTreeMap<&str, usize> = BTreeMap::new();
    for _ in 0..20_000 {
        let case = damaged(&mut rng);
        *labels.entry(case.what).or_default() += 1;
        let Some(expected) = case.expected else {
            continue;
        };
        *causes.entry(expected.0).or_default() += 1;
        let found = verdict(&case.bytes)
            .and_then(|(wildcards, records)| counted(wildcards, &records, (case.results, case.diagnostics)));
        assert_eq!(found, Err(expected), "{}", case.what);
    }
    for cause in 1..=10 {
        assert!(causes[&cause] >= 200, "cause {cause}");
    }
    for (what, _) in &BREAKS {
        assert!(labels.contains_key(what), "{what}");
    }
}
