//! The text form and what it is made of, from the inside: books of any records come back from their text, no text makes the
//! tool fall over, and docs/TEXT.md has the words that are used.

use crate::build::build;
use crate::dump::dump;
use crate::names::Names;
use crate::rows::{row, Holds, Slot};
use signal_book::{BookBuilder, Fields, Span};

/// A row of numbers that looks random (splitmix64).
struct Numbers(u64);

impl Numbers {
    fn next(&mut self) -> u64 {
        self.0 = self.0.wrapping_add(0x9E37_79B9_7F4A_7C15);
        let mixed = (self.0 ^ self.0 >> 30).wrapping_mul(0xBF58_476D_1CE4_E5B9);
        let mixed = (mixed ^ mixed >> 27).wrapping_mul(0x94D0_49BB_1331_11EB);
        mixed ^ mixed >> 31
    }

    fn below(&mut self, limit: usize) -> usize {
        (self.next() % limit as u64) as usize
    }

    /// A field of 16 bits: mostly a number of a record near by, else one at an edge.
    fn field(&mut self, records: usize) -> u16 {
        match self.below(8) {
            0 => [0, 1, 255, 4095, 4096, 65534, 65535, 900][self.below(8)],
            1..=4 => records.saturating_sub(1 + self.below(3)) as u16,
            5 => (records + self.below(3)) as u16,
            _ => self.below(records + 1) as u16,
        }
    }

    fn record(&mut self, records: usize) -> Fields {
        let kinds =
            [1, 2, 3, 4, 5, 6, 7, 8, 9, 10, 11, 12, 13, 14, 15, 16, 20, 21, 22, 23, 24, 25, 30, 31, 32, 33, 34, 35, 36];
        let kind = if self.below(20) == 0 { self.next() as u8 } else { kinds[self.below(29)] };
        let sub = if self.below(20) == 0 { self.next() as u8 } else { self.below(6) as u8 };
        let used =
            |slot: char| row(kind, sub).is_some_and(|row| row.slots.iter().any(|s| s.letter.word().starts_with(slot)));
        let mut field = |letter: char| if used(letter) || self.below(20) == 0 { self.field(records) } else { 0 };
        let (a, b, c) = (field('a'), field('b'), field('c'));
        let (a, b, c) = if self.below(2) == 0 { self.just_before(kind, sub, records, [a, b, c]) } else { (a, b, c) };
        let v = match self.below(4) {
            0 => [1, 2, 1 << 63, u64::MAX, u64::MAX >> 1, 0x7FF8_0000_0000_0001, 0x7FF0_0000_0000_0000, 1 << 32]
                [self.below(8)],
            1 => self.next(),
            _ => 0,
        };
        let span = if self.below(2) == 0 { Span::NONE } else { (self.next() as u32, self.below(9) as u32).into() };
        Fields { kind, sub, a, b, c, v, span }
    }

    /// The fields with the records right before as children, in their order or in another.
    fn just_before(&mut self, kind: u8, sub: u8, records: usize, [a, b, c]: [u16; 3]) -> (u16, u16, u16) {
        let mut fields = Fields { a, b, c, ..Fields::default() };
        let slots = row(kind, sub).map_or(&[][..], |row| row.slots);
        let children: Vec<&Slot> = slots.iter().filter(|slot| slot.holds.child().is_some()).collect();
        let turn = self.below(2);
        for (place, slot) in children.iter().enumerate() {
            let behind = if turn == 0 { children.len() - place } else { place + 1 };
            slot.letter.set(&mut fields, records.saturating_sub(behind) as u64);
        }
        (fields.a, fields.b, fields.c)
    }

    fn book(&mut self) -> Vec<u8> {
        let mut builder = BookBuilder::new();
        builder.wildcards(self.below(2) == 0);
        for number in 0..=self.below(45) {
            builder.record(self.record(number));
        }
        builder.finish().unwrap()
    }
}

fn words() -> Names {
    Names::of_text("name 0 Rope\nname 1 tension # of the rope\nother lines\nname 4095 _x9").unwrap()
}

#[test]
fn books_of_any_records_come_back_from_their_text() {
    let mut numbers = Numbers(7);
    for turn in 0..4000 {
        let book = numbers.book();
        for names in [Names::default(), words()] {
            let text = dump(&book, &names);
            assert_eq!(build(&text).as_ref(), Ok(&book), "{turn}:\n{text}");
        }
    }
}

/// As deep as a book can be: a chain of all its records.
#[test]
fn the_deepest_book_comes_back_from_its_text() {
    let mut builder = BookBuilder::new();
    builder.record(Fields { kind: 1, ..Fields::default() });
    for inner in 0..1343 {
        builder.record(Fields { kind: 7, a: inner, ..Fields::default() });
    }
    let book = builder.finish().unwrap();
    let text = dump(&book, &Names::default());
    assert_eq!((text.lines().count(), build(&text)), (1, Ok(book)));
}

/// What any text builds has a text that builds the same.
#[test]
fn no_text_makes_it_fall_over() {
    let odd = [
        "(",
        ")",
        "^1",
        "x:",
        "type=",
        "=",
        "@",
        "@1+2",
        "N1",
        "#",
        "name",
        "wildcards",
        "record",
        "kind=1",
        "sub=0",
        "é",
        "-",
        "none",
    ];
    let mut numbers = Numbers(11);
    let mut built = 0;
    for _ in 0..2000 {
        let text = dump(&numbers.book(), &Names::default());
        let mut tokens: Vec<&str> = text.split_inclusive([' ', '\n', '(', ')', '=']).collect();
        for _ in 0..=numbers.below(2) {
            let at = numbers.below(tokens.len());
            match numbers.below(3) {
                0 => drop(tokens.remove(at)),
                1 => tokens.insert(at, odd[numbers.below(odd.len())]),
                _ => tokens.insert(at, tokens[numbers.below(tokens.len())]),
            }
        }
        if let Ok(book) = build(&tokens.concat()) {
            built += 1;
            assert_eq!(build(&dump(&book, &Names::default())), Ok(book));
        }
    }
    assert!(built > 100, "{built}");
}

/// A field as docs/TEXT.md has it.
fn described(slot: &Slot) -> String {
    let holds = match slot.holds {
        Holds::Name | Holds::NameOrNone => "name".to_string(),
        Holds::Text | Holds::TextOrNone => "string".to_string(),
        Holds::Child(group) | Holds::ChildOrNone(group) => format!("{group:?}").to_lowercase(),
        Holds::Number | Holds::NumberOrZero => "number".to_string(),
        Holds::Signed => "signed number".to_string(),
        Holds::Hex => "number".to_string(),
        Holds::Float => "fraction".to_string(),
        Holds::Truth => "`true` or `false`".to_string(),
    };
    let text = match slot.bare {
        true if slot.word == holds => holds,
        true => format!("{} ({holds})", slot.word),
        false => format!("`{}=` {holds}", slot.word),
    };
    match slot.holds.default() {
        Some(_) => format!("[{text}]"),
        None => text,
    }
}

/// The table of docs/TEXT.md: a line for each kind, and one more where the fields of a sub are others.
fn table() -> Vec<String> {
    let mut lines: Vec<(String, Vec<&str>, String)> = Vec::new();
    for (kind, sub) in (0..=255).flat_map(|kind| (0..=255).map(move |sub| (kind, sub))) {
        let Some(row) = row(kind, sub) else { continue };
        let head = format!("{kind} | `{}`", row.word);
        let fields = row.slots.iter().map(described).collect::<Vec<String>>().join(", ");
        match lines.iter_mut().find(|line| line.0 == head && line.2 == fields) {
            Some(line) => line.1.extend(row.sub_word),
            None => lines.push((head, row.sub_word.into_iter().collect(), fields)),
        }
    }
    let subs = |subs: Vec<&str>| subs.iter().map(|sub| format!("`{sub}`")).collect::<Vec<String>>().join(", ");
    lines.into_iter().map(|(head, words, fields)| format!("| {head} | {} | {fields} |", subs(words))).collect()
}

#[test]
fn the_paper_has_the_words() {
    let path = concat!(env!("CARGO_MANIFEST_DIR"), "/../../docs/TEXT.md");
    let paper = std::fs::read_to_string(path).unwrap();
    let held: Vec<&str> =
        paper.lines().filter(|line| line.starts_with("| ") && line.as_bytes()[2].is_ascii_digit()).collect();
    assert_eq!(held, table());
}

/// `tools/book` has the same words: a line for each kind, `KIND: ("WORD", "SUB SUB ..", ..),`.
#[test]
fn the_other_tool_has_the_same_words() {
    let path = concat!(env!("CARGO_MANIFEST_DIR"), "/../../tools/book");
    let tool = std::fs::read_to_string(path).unwrap();
    let table = tool.split("\nKINDS = {\n").nth(1).unwrap().split("\n}").next().unwrap();
    let mut kinds: Vec<u8> = Vec::new();
    for line in table.lines() {
        let (kind, words) = line.trim().split_once(": ").unwrap();
        let words: Vec<&str> = words.split('"').collect();
        let (word, subs) = (words[1], words[3].split_whitespace().collect::<Vec<&str>>());
        assert_eq!(crate::rows::kind(word), Some((kind.parse().unwrap(), &subs[..])), "{line}");
        kinds.push(kind.parse().unwrap());
    }
    assert_eq!(kinds, (0..=255).filter(|kind| row(*kind, 0).is_some()).collect::<Vec<u8>>());
}
