//! Every answer of the repository's list, and every sample book, by [`signal_book::lower`].

mod common;

use common::Answer;
use signal_book::{lower, Accepted, Cause, Place, Refused, DIAGNOSTICS_LIMIT, RESULTS_LIMIT};
use std::collections::BTreeSet;
use std::fs;

/// What is answered, as the four words.
fn reply(lowered: &Result<Accepted, Refused>) -> [u32; 4] {
    match lowered {
        Ok(accepted) => {
            let (results, diagnostics) = (accepted.results().len(), accepted.diagnostics().len());
            [0, results as u32, diagnostics as u32, accepted.stored() as u32]
        }
        Err(refused) => [refused.number().into(), refused.place().into(), 0, 0],
    }
}

/// The reply as a line of `books/replies.txt`.
fn line(reply: [u32; 4]) -> String {
    match reply {
        [0, results, diagnostics, stored] => format!("accepted {results} {diagnostics} {stored}"),
        [cause, place, ..] => format!("refused {cause} {place}"),
    }
}

/// Lowers the book of an answer, and compares the reply and every byte of both slices.
fn compare(answer: &Answer) {
    let name = &answer.name;
    let (mut results, mut diagnostics) = answer.lent();
    let lowered = lower(&answer.book, &mut results, &mut diagnostics);
    assert_eq!(reply(&lowered), answer.reply, "{name}");
    if let Ok(accepted) = lowered {
        let counted = (accepted.results().bytes(), accepted.diagnostics().bytes());
        assert!(counted == answer.written(), "{name}: the records counted");
    }
    assert!(results == answer.results, "{name}: the result slice");
    assert!(diagnostics == answer.diagnostics, "{name}: the diagnostics slice");
}

#[test]
fn every_answer_of_the_list() {
    let answers = common::answers();
    assert!(answers.len() >= 1054, "there are {} answers", answers.len());
    answers.iter().for_each(compare);
}

#[test]
fn every_cause_is_in_the_list() {
    let numbers: BTreeSet<u32> = common::answers().iter().map(|answer| answer.reply[0]).collect();
    assert!(numbers.into_iter().eq(0..=10));
}

/// A word that stands in what is said of each cause, and of no other.
const SAID: [(Cause, &str); 10] = [
    (Cause::BookLength, "the length is 0, above 32768 bytes"),
    (Cause::Check, "the check of the block is wrong"),
    (Cause::Block, "the block has a wrong number"),
    (Cause::Shape, "unknown kind"),
    (Cause::Child, "a child of the record"),
    (Cause::Follow, "may not stand behind"),
    (Cause::Name, "the name is declared already"),
    (Cause::Depth, "deeper than 64"),
    (Cause::TooDeep, "more than 64 steps to resolve"),
    (Cause::Full, "no room for one more"),
];

#[test]
fn causes_have_numbers_and_words() {
    for (number, (cause, words)) in (1..).zip(SAID) {
        assert_eq!(cause.number(), number);
        assert_eq!(Cause::from_number(number.into()), Some(cause));
        assert_eq!(Cause::ALL[usize::from(number) - 1], cause);
        let said: Vec<Cause> = Cause::ALL.into_iter().filter(|cause| cause.words().contains(words)).collect();
        assert_eq!(said, [cause]);
    }
    let none = [0, 11, 256, 257, 1 << 32, (1 << 32) + 1];
    assert!(none.into_iter().all(|number| Cause::from_number(number).is_none()));
}

/// What must be said of a refusal.
fn said(cause: Cause, at: Place) -> String {
    let place = match at {
        Place::Book => String::new(),
        Place::Block(number) => format!(" at block {number}"),
        Place::Record(number) => format!(" at record {number}"),
    };
    format!("refused by cause {}{place}: {}", cause.number(), cause.words())
}

/// Compares all that a refusal has to say with the cause and the place of its answer.
fn compare_refusal(answer: &Answer, refused: Refused) {
    let [number, place] = [answer.reply[0], answer.reply[1]];
    let place = u16::try_from(place).unwrap();
    let at = match number {
        1 => Place::Book,
        2 | 3 => Place::Block(place),
        _ => Place::Record(place),
    };
    assert_eq!(refused.at(), at, "{}", answer.name);
    assert_eq!(refused.cause(), SAID[number as usize - 1].0, "{}", answer.name);
    assert_eq!(refused.to_string(), said(refused.cause(), at), "{}", answer.name);
}

#[test]
fn every_refusal_says_why_and_where() {
    for answer in common::answers().iter().filter(|answer| !answer.accepted()) {
        let (mut results, mut diagnostics) = answer.lent();
        compare_refusal(answer, lower(&answer.book, &mut results, &mut diagnostics).unwrap_err());
    }
}

#[test]
fn places_are_printed() {
    let places = [Place::Book, Place::Block(63), Place::Record(1343)];
    assert_eq!(places.map(|place| place.to_string()), ["the book", "block 63", "record 1343"]);
}

#[test]
fn a_refusal_is_an_error() {
    let short = || -> Result<usize, Box<dyn std::error::Error>> { Ok(lower(&[0; 511], &mut [], &mut [])?.stored()) };
    let said = "refused by cause 1: the length is 0, above 32768 bytes, or no multiple of 512";
    assert_eq!(short().unwrap_err().to_string(), said);
}

#[test]
fn every_book_has_its_reply() {
    let mut replied = BTreeSet::new();
    for row in String::from_utf8(common::file("books/replies.txt")).unwrap().lines() {
        let (name, expected) = row.split_once(' ').unwrap();
        let book = common::file(&format!("books/{name}"));
        let (mut results, mut diagnostics) = (vec![0; RESULTS_LIMIT], vec![0; DIAGNOSTICS_LIMIT]);
        assert_eq!(line(reply(&lower(&book, &mut results, &mut diagnostics))), expected, "{name}");
        replied.insert(name.to_string());
    }
    let files = fs::read_dir(common::path("books")).unwrap();
    let names = files.map(|file| file.unwrap().file_name().into_string().unwrap());
    assert_eq!(names.filter(|name| name.ends_with(".book")).collect::<BTreeSet<_>>(), replied);
    assert!(replied.len() >= 7);
}

#[test]
fn the_limits_are_those_of_the_format() {
    assert_eq!((signal_book::BOOK_LIMIT, RESULTS_LIMIT, DIAGNOSTICS_LIMIT), (32_768, 49_152, 6_144));
}
