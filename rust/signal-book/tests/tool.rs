//! The tool from end to end: what it prints, what it says on standard error, and how it ends.

mod common;

use common::{answers, book_records, file, path};
use signal_book::{lower, Place, DIAGNOSTICS_LIMIT, RESULTS_LIMIT};
use std::collections::BTreeMap;
use std::fs;
use std::io::Write;
use std::path::{Path, PathBuf};
use std::process::{Command, Output, Stdio};

/// What a run of the tool gave.
#[derive(PartialEq, Debug)]
struct Said {
    status: i32,
    out: String,
    err: String,
}

impl Said {
    fn of(output: Output) -> Said {
        let text = |bytes: Vec<u8>| String::from_utf8(bytes).unwrap();
        Said { status: output.status.code().unwrap_or(-1), out: text(output.stdout), err: text(output.stderr) }
    }
}

fn tool(folder: &Path, words: &[&str]) -> Command {
    let mut command = Command::new(env!("CARGO_BIN_EXE_signal-book"));
    command.args(words).current_dir(folder).stdin(Stdio::null());
    command
}

fn run(folder: &Path, words: &[&str]) -> Said {
    Said::of(tool(folder, words).output().unwrap())
}

/// A run with bytes on standard input, and what it writes.
fn piped(words: &[&str], input: &[u8]) -> Output {
    let mut command = tool(&path("."), words);
    let mut child = command.stdin(Stdio::piped()).stdout(Stdio::piped()).stderr(Stdio::piped()).spawn().unwrap();
    let mut stdin = child.stdin.take().unwrap();
    let input = input.to_vec();
    let writer = std::thread::spawn(move || stdin.write_all(&input));
    let output = child.wait_with_output().unwrap();
    // The tool may stop reading where it has seen enough.
    let _ = writer.join().unwrap();
    output
}

/// A folder of a test's own, empty at first.
fn folder(test: &str) -> PathBuf {
    let folder = Path::new(env!("CARGO_TARGET_TMPDIR")).join(test);
    let _ = fs::remove_dir_all(&folder);
    fs::create_dir_all(&folder).unwrap();
    folder
}

/// The books of the list, each once, by name.
fn books() -> BTreeMap<String, Vec<u8>> {
    let mut books: Vec<(Vec<u8>, String)> = answers().into_iter().map(|answer| (answer.book, answer.name)).collect();
    books.sort();
    books.dedup_by(|one, other| one.0 == other.0);
    books.into_iter().map(|(book, name)| (name, book)).collect()
}

/// What the library replies to a book with the longest slices: the three counts, or the refusal.
fn reply(book: &[u8]) -> Result<[usize; 3], signal_book::Refused> {
    let (mut results, mut diagnostics) = (vec![0; RESULTS_LIMIT], vec![0; DIAGNOSTICS_LIMIT]);
    let lowered = lower(book, &mut results, &mut diagnostics)?;
    Ok([lowered.results().len(), lowered.diagnostics().len(), lowered.stored()])
}

fn counted(count: usize, what: &str) -> String {
    format!("{count} {what}{}", if count == 1 { "" } else { "s" })
}

fn counts([results, diagnostics, stored]: [usize; 3]) -> String {
    let [results, diagnostics] = [counted(results, "result"), counted(diagnostics, "diagnostic")];
    format!("{results}, {diagnostics}, {} stored", counted(stored, "constant"))
}

/// A line of `check`, up to what depends on the file; and the number of the record that is shown behind it.
fn check_line(name: &str, book: &[u8]) -> (String, Option<u16>) {
    match reply(book) {
        Ok(numbers) => (format!("{name}: accepted: {}", counts(numbers)), None),
        Err(refused) => {
            let shown = match refused.at() {
                Place::Record(number) => Some(number),
                _ => None,
            };
            (format!("{name}: {refused}"), shown)
        }
    }
}

#[test]
fn check_says_the_reply_to_every_book_of_the_list() {
    let (folder, books) = (folder("check"), books());
    books.iter().for_each(|(name, book)| fs::write(folder.join(name), book).unwrap());
    let names: Vec<&str> = books.keys().map(String::as_str).collect();
    let said = run(&folder, &[&["check"], &names[..]].concat());
    assert_eq!((said.status, said.err.as_str()), (1, ""));
    let mut lines = said.out.lines();
    for (name, book) in &books {
        let (line, shown) = check_line(name, book);
        assert!(lines.next().unwrap().starts_with(&line), "{line}");
        if let Some(number) = shown {
            let record = lines.next().unwrap();
            assert!(record.starts_with(&format!("  {number}: ")), "{name}: {record}");
        }
    }
    assert_eq!(lines.next(), None);
}

#[test]
fn check_ends_with_0_if_all_are_accepted() {
    let replies = String::from_utf8(file("books/replies.txt")).unwrap();
    let names: Vec<&str> = replies.lines().map(|line| line.split(' ').next().unwrap()).collect();
    let said = run(&path("books"), &[&["check"], &names[..]].concat());
    let expected = |line: &str| {
        let words: Vec<&str> = line.split(' ').collect();
        let numbers = [2, 3, 4].map(|at| words[at].parse().unwrap());
        format!("{}: accepted: {}\n", words[0], counts(numbers))
    };
    let out = replies.lines().map(expected).collect();
    assert_eq!(said, Said { status: 0, out, err: String::new() });
    let said = run(&path("books"), &["check", "k1.book", "README.md", "rope.book"]);
    assert_eq!((said.status, said.out.lines().count()), (1, 3));
}

#[test]
fn check_shows_the_record_that_is_refused() {
    let folder = folder("refused");
    let refused = |text: &str, out: &str| {
        fs::write(folder.join("t"), text).unwrap();
        assert_eq!(
            run(&folder, &["build", "t", "-o", "b"]),
            Said { status: 0, out: String::new(), err: String::new() }
        );
        let said = run(&folder, &["check", "b", "--names", "t"]);
        assert_eq!(said, Said { status: 1, out: out.to_string(), err: String::new() });
    };
    refused(
        "primitive u8 b=7",
        "b: refused by cause 4 at record 0: the record has an unknown kind, or a sub or a field outside its values\n  \
         0: primitive u8 b=7\n",
    );
    refused(
        "t: primitive u8\nname 5 Speed\nnewtype Speed type=^t @7+9\nnewtype N6 type=^t",
        "b: refused by cause 5 at record 2: a child of the record does not stand before it, is of another group, or is used \
         before\n  2: newtype N6 type=^0\n",
    );
    refused(
        "message N1\nvariant N2 ordinal=0",
        "b: refused by cause 6 at record 1: the record may not stand behind the one before it, or in this declaration\n  \
         1: variant N2 ordinal=0\n",
    );
    refused(
        "name 5 Rope\nmessage Rope\nunion Rope @3+4",
        "b: refused by cause 7 at record 1: the name is declared already\n  1: union Rope @3+4\n",
    );
    refused("record kind=99 sub=1 a=2 b=3 c=4 v=5 @6+7", &{
        let words = "the record has an unknown kind, or a sub or a field outside its values";
        format!("b: refused by cause 4 at record 0: {words}\n  0: record kind=99 sub=1 a=2 b=3 c=4 v=5 @6+7\n")
    });
}

#[test]
fn what_is_no_book_gets_one_line() {
    let folder = folder("no-book");
    let k1 = file("books/k1.book");
    let damaged: Vec<u8> = k1.iter().enumerate().map(|(at, byte)| if at == 100 { 9 } else { *byte }).collect();
    let length = "refused by cause 1: the length is 0, above 32768 bytes, or no multiple of 512";
    let check =
        "refused by cause 2 at block 0: the check of the block is wrong, so its bytes are not those that were written";
    let files: [(&str, Vec<u8>, String); 4] = [
        ("empty", Vec::new(), format!("{length} (the file is empty)")),
        ("cut", k1[..511].to_vec(), format!("{length} (the file has 511 bytes)")),
        ("long", vec![0; 65 * 512], format!("{length} (the file is longer)")),
        ("damaged", damaged, check.to_string()),
    ];
    for (name, bytes, why) in files {
        fs::write(folder.join(name), bytes).unwrap();
        let said = run(&folder, &["check", name]);
        assert_eq!(said, Said { status: 1, out: format!("{name}: {why}\n"), err: String::new() });
        for command in ["show", "dump"] {
            let said = run(&folder, &[command, name]);
            assert_eq!(said, Said { status: 1, out: String::new(), err: format!("signal-book: {name}: {why}\n") });
        }
    }
}

#[test]
fn files_that_cannot_be_read_get_one_line() {
    let folder = folder("unreadable");
    fs::write(folder.join("bytes"), [0xFF, 0xFE]).unwrap();
    fs::create_dir(folder.join("inside")).unwrap();
    let missing = "signal-book: missing: No such file or directory (os error 2)\n";
    for words in [&["show", "missing"][..], &["dump", "missing"], &["build", "missing"], &["check", "missing"]] {
        assert_eq!(run(&folder, words), Said { status: 1, out: String::new(), err: missing.to_string() });
    }
    assert_eq!(run(&folder, &["show", "bytes", "--names", "missing"]).err, missing);
    assert_eq!(run(&folder, &["build", "bytes"]).err, "signal-book: bytes: this is no text\n");
    assert_eq!(run(&folder, &["show", "inside"]).err, "signal-book: inside: Is a directory (os error 21)\n");
    fs::write(folder.join("text"), "message N1").unwrap();
    let said = run(&folder, &["build", "text", "-o", "no/such"]);
    assert_eq!((said.status, said.out.as_str()), (1, ""));
    assert_eq!(said.err, "signal-book: no/such: No such file or directory (os error 2)\n");
    // The others are checked all the same.
    let said = run(&path("books"), &["check", "missing", "k1.book"]);
    assert_eq!((said.status, said.err.as_str()), (1, missing));
    assert_eq!(said.out, "k1.book: accepted: 4 results, 0 diagnostics, 2 constants stored\n");
}

#[test]
fn wrong_arguments_get_one_line() {
    let wrong: [&[&str]; 12] = [
        &[],
        &["bake"],
        &["check"],
        &["show"],
        &["show", "a", "b"],
        &["dump"],
        &["build"],
        &["build", "a", "-o"],
        &["show", "a", "--names"],
        &["build", "a", "--names", "b"],
        &["dump", "a", "-o", "b"],
        &["show", "--frob", "a"],
    ];
    for words in wrong {
        let said = run(&path("books"), words);
        let err = "signal-book: use: signal-book check BOOK.. | show BOOK | dump BOOK | build TEXT [-o BOOK] | --help | --version\n";
        assert_eq!(said, Said { status: 2, out: String::new(), err: err.to_string() }, "{words:?}");
    }
}

#[test]
fn help_and_version() {
    for words in [&["--help"][..], &["-h"], &["show", "--help"]] {
        let said = run(&path("."), words);
        assert_eq!((said.status, said.err.as_str()), (0, ""));
        for word in ["check BOOK", "show BOOK", "dump BOOK", "build TEXT", "--names", "--version"] {
            assert!(said.out.contains(word), "{word}");
        }
    }
    let version = format!("signal-book {}\n", env!("CARGO_PKG_VERSION"));
    for word in ["--version", "-V"] {
        assert_eq!(run(&path("."), &[word]), Said { status: 0, out: version.clone(), err: String::new() });
    }
}

/// The example in the help is a text that builds.
#[test]
fn the_text_in_the_help_builds() {
    let help = run(&path("."), &["--help"]).out;
    let text = help.split("inside it:\n\n").nth(1).unwrap().split("\n\n").next().unwrap();
    let book = piped(&["build", "-"], text.as_bytes());
    assert_eq!((book.status.code(), &book.stderr[..]), (Some(0), &[][..]));
    let said = Said::of(piped(&["check", "-"], &book.stdout));
    assert_eq!(said.out, "-: accepted: 9 results, 0 diagnostics, 1 constant stored\n");
}

/// Every book whose blocks are right comes back from its text, byte for byte.
#[test]
fn books_of_the_list_come_back_from_their_text() {
    let mut dumped = 0;
    for (name, book) in books() {
        let text = piped(&["dump", "-"], &book);
        if reply(&book).is_err_and(|refused| refused.number() <= 3) {
            assert_eq!((text.status.code(), text.stdout.len()), (Some(1), 0), "{name}");
            continue;
        }
        assert_eq!((text.status.code(), text.stderr.len()), (Some(0), 0), "{name}");
        let again = piped(&["build", "-"], &text.stdout);
        assert!(again.stdout == book, "{name}: {}", String::from_utf8_lossy(&again.stderr));
        dumped += 1;
    }
    assert!(dumped > 700, "{dumped}");
}

#[test]
fn samples_come_back_from_their_text_with_names() {
    let folder = folder("named");
    let signals = path("books/signals.txt");
    let signals = signals.to_str().unwrap();
    run(&folder, &["build", signals, "-o", "b"]);
    let text = run(&folder, &["dump", "b", "--names", signals]).out;
    assert!(
        text.starts_with("name 10 Rope\n") && text.contains("\n  10:   field tension type=u16 ordinal=0\n"),
        "{text}"
    );
    fs::write(folder.join("t"), &text).unwrap();
    run(&folder, &["build", "t", "-o", "again"]);
    assert_eq!(fs::read(folder.join("b")).unwrap(), fs::read(folder.join("again")).unwrap());
    // Words of names that the book does not have are left out.
    let k1 = run(&path("books"), &["dump", "k1.book", "--names", signals]).out;
    assert!(!k1.contains("name"), "{k1}");
}

#[test]
fn dump_prints_the_records() {
    let said = run(&path("books"), &["dump", "k1.book"]);
    let out = "   2: constant N1 expression=6@100+1 type=u8@110+2 @120+3\n   \
        7: constant N2 expression=(operation mul N1@130+4 7@140+5 @150+6) type=u8@160+7 @170+8\n";
    assert_eq!(said, Said { status: 0, out: out.to_string(), err: String::new() });
    let said = run(&path("books"), &["dump", "log.book"]);
    let out = "   0: message N50 @100+1
   1:   annotation delta @110+2
   3:   field N51 type=u16@120+3 ordinal=0 @130+4
   4:     annotation zigzag @140+5
   6:   field N52 type=u32@150+6 ordinal=1 @160+7
   8:   field N53 type=bool@170+8 ordinal=2 @180+9\n";
    assert_eq!(said.out, out);
}

/// What a text builds, as bytes.
fn built(text: &str) -> Vec<u8> {
    let output = piped(&["build", "-"], text.as_bytes());
    assert_eq!((output.status.code(), String::from_utf8_lossy(&output.stderr).as_ref()), (Some(0), ""), "{text}");
    output.stdout
}

/// A record on a line: the text, and the fields it must have.
const FORMS: [(&str, [u64; 8]); 53] = [
    ("primitive bool", [1, 0, 0, 0, 0, 0, 0, 0]),
    ("primitive void @3+4", [1, 13, 0, 0, 0, 0, 3, 4]),
    ("sub-byte signed 5", [2, 1, 5, 0, 0, 0, 0, 0]),
    ("semantic hash", [3, 5, 0, 0, 0, 0, 0, 0]),
    ("named N17", [4, 0, 17, 0, 0, 0, 0, 0]),
    ("qualified N17 N18", [5, 0, 17, 18, 0, 0, 0, 0]),
    ("generic N17 ^x", [6, 0, 17, 0, 0, 0, 0, 0]),
    ("one-child optional ^x", [7, 0, 0, 0, 0, 0, 0, 0]),
    ("one-child fixed-array ^x size=18446744073709551615", [7, 2, 0, 0, 0, u64::MAX, 0, 0]),
    ("one-child mat4 ^y", [7, 9, 1, 0, 0, 0, 0, 0]),
    ("two-children map ^x ^y", [8, 0, 0, 1, 0, 0, 0, 0]),
    ("two-children result ^y ^x", [8, 1, 1, 0, 0, 0, 0, 0]),
    ("inline-bits 65535", [9, 0, 65535, 0, 0, 0, 0, 0]),
    ("literal int -1", [10, 0, 0, 0, 0, u64::MAX, 0, 0]),
    ("literal uint 18446744073709551615", [10, 1, 0, 0, 0, u64::MAX, 0, 0]),
    ("literal float 1.5", [10, 2, 0, 0, 0, 0x3FF8_0000_0000_0000, 0, 0]),
    ("literal float 0x7ff8000000000001", [10, 2, 0, 0, 0, 0x7FF8_0000_0000_0001, 0, 0]),
    ("literal hex 0xff", [10, 3, 0, 0, 0, 255, 0, 0]),
    ("literal bool true", [10, 4, 0, 0, 0, 1, 0, 0]),
    ("literal bool false", [10, 4, 0, 0, 0, 0, 0, 0]),
    ("literal bool 2", [10, 4, 0, 0, 0, 2, 0, 0]),
    ("reference N4095", [11, 0, 4095, 0, 0, 0, 0, 0]),
    ("operation ge ^y ^x", [12, 9, 1, 0, 0, 0, 0, 0]),
    ("logic or ^x ^y", [13, 1, 0, 1, 0, 0, 0, 0]),
    ("logic not ^y", [13, 2, 1, 0, 0, 0, 0, 0]),
    ("comparison ge ^y length=1", [14, 5, 1, 0, 1, 0, 0, 0]),
    ("comparison lt ^y", [14, 2, 1, 0, 0, 0, 0, 0]),
    ("range with-high ^x ^y length=1", [15, 0, 0, 1, 1, 0, 0, 0]),
    ("operand int -9223372036854775808", [16, 0, 0, 0, 0, 1 << 63, 0, 0]),
    ("operand float -0.0", [16, 1, 0, 0, 0, 1 << 63, 0, 0]),
    ("operand string S65534", [16, 2, 65534, 0, 0, 0, 0, 0]),
    ("operand bool true", [16, 3, 0, 0, 0, 1, 0, 0]),
    ("operand value value=3", [16, 4, 0, 0, 0, 3, 0, 0]),
    ("operand reference N9", [16, 5, 9, 0, 0, 0, 0, 0]),
    ("message N9", [20, 0, 9, 0, 0, 0, 0, 0]),
    ("union N9", [21, 0, 9, 0, 0, 0, 0, 0]),
    ("newtype N9 type=^y", [22, 0, 9, 1, 0, 0, 0, 0]),
    ("alias N9 target=^y", [23, 0, 9, 1, 0, 0, 0, 0]),
    ("constant N9 type=^x expression=^y", [24, 0, 9, 0, 1, 0, 0, 0]),
    ("ambiguous N9", [25, 0, 9, 0, 0, 0, 0, 0]),
    ("parameter N9", [30, 0, 9, 0, 0, 0, 0, 0]),
    ("field N9 ordinal=7 constraint=none type=^y", [31, 0, 9, 1, 65535, 7, 0, 0]),
    ("field N9 type=^x constraint=^y ordinal=0", [31, 0, 9, 0, 1, 0, 0, 0]),
    ("tombstone of-union ordinal=4294967295", [32, 1, 0, 0, 65535, 4294967295, 0, 0]),
    ("tombstone of-body type=^y ordinal=1", [32, 0, 0, 0, 1, 1, 0, 0]),
    ("variant N9 ordinal=3", [33, 0, 9, 0, 0, 3, 0, 0]),
    ("annotation limit", [34, 3, 0, 0, 0, 0, 0, 0]),
    ("argument hex 0x10 key=N3", [35, 1, 3, 0, 0, 16, 0, 0]),
    ("argument other", [35, 2, 65535, 0, 0, 0, 0, 0]),
    ("tombstone-argument since string=S3", [36, 1, 3, 0, 0, 0, 0, 0]),
    ("tombstone-argument other", [36, 2, 65535, 0, 0, 0, 0, 0]),
    ("field N9 b=900 c=901 ordinal=0", [31, 0, 9, 900, 901, 0, 0, 0]),
    ("record kind=255 sub=254 v=1 c=2 b=3 a=4 @5+6", [255, 254, 4, 3, 2, 1, 5, 6]),
];

#[test]
fn each_form_of_a_record() {
    for (text, [kind, sub, a, b, c, v, offset, length]) in FORMS {
        let book = built(&format!("x: primitive u8\ny: primitive u8\n{text}"));
        let record = book_records(&book)[2];
        let fields =
            [record.kind.into(), record.sub.into(), record.a.into(), record.b.into(), record.c.into(), record.v];
        assert_eq!(fields, [kind, sub, a, b, c, v], "{text}");
        assert_eq!((u64::from(record.span.0), u64::from(record.span.1)), (offset, length), "{text}");
    }
}

#[test]
fn records_inside_others_stand_before_them() {
    let book = built("wildcards\nfield N1 ordinal=0 constraint=(logic and (comparison le value) (range with-high true N5)) type=string");
    assert_eq!(book[3], 1);
    let kinds: Vec<(u8, u8)> = book_records(&book).iter().map(|record| (record.kind, record.sub)).collect();
    assert_eq!(kinds, [(16, 4), (14, 4), (16, 3), (16, 5), (15, 0), (13, 0), (3, 0), (31, 0)]);
    let records = book_records(&book);
    assert_eq!((records[7].b, records[7].c, records[5].a, records[5].b), (6, 5, 1, 4));
    // A label may stand further on, and inside brackets.
    let book =
        built("newtype N1 type=^late\nlate: primitive u8\nnewtype N2 type=(in: named N3)\nnewtype N4 type=^in #again");
    let records = book_records(&book);
    assert_eq!((records[0].b, records[3].b, records[4].b), (1, 2, 2));
}

/// Texts that make no book, and what is said of each.
const WRONG_TEXTS: &[(&str, &str)] = &[
    ("", "a book has at least one record"),
    ("# nothing\n\n", "a book has at least one record"),
    ("message N1\nmesage N2", "line 2: there is no record `mesage`"),
    (
        "primitive u7",
        "line 1: `primitive` is one of: bool, u8, u16, u32, u64, i8, i16, i32, i64, f32, f64, fixed32, fixed64, void",
    ),
    (
        "primitive",
        "line 1: `primitive` is one of: bool, u8, u16, u32, u64, i8, i16, i32, i64, f32, f64, fixed32, fixed64, void",
    ),
    ("message", "line 1: `message` needs its name"),
    ("constant N1 type=u8", "line 1: `constant` needs its expression"),
    ("field N1 type=u8", "line 1: `field` needs its ordinal"),
    ("message N1 N2", "line 1: `N2` is one too many"),
    ("message N1 )", "line 1: `)` is one too many"),
    ("message Rope", "line 1: `Rope` is no name"),
    ("message N65536", "line 1: `N65536` is no name"),
    ("message N01", "line 1: `N01` is no name"),
    ("newtype N1 type=foo", "line 1: `foo` is no type"),
    ("newtype N1 type=", "line 1: `` is no type"),
    ("newtype N1 type=(primitive u8", "line 1: a bracket is not closed"),
    ("newtype N1 type=^x", "line 1: no record has the label `x`"),
    ("x: message N1\nx: message N2", "line 2: the label `x` stands twice"),
    ("newtype N1 type=u8 b=3", "line 1: a field of `newtype` is given twice"),
    ("newtype N1 kind=3 type=u8", "line 1: `newtype` has no field `kind`"),
    ("newtype N1 b=65536", "line 1: 65536 does not fit into 16 bits"),
    ("newtype N1 b=x", "line 1: `x` is no number"),
    ("field N1 type=u8 constraint=5 ordinal=0", "line 1: `5` is no constraint"),
    ("constant N1 type=u8 expression=value", "line 1: `value` is no expression of a constant"),
    ("comparison le u8", "line 1: `u8` is no operand"),
    ("literal int 9223372036854775808", "line 1: `9223372036854775808` is no number of 64 bits"),
    ("literal float x", "line 1: `x` is no number with a fraction"),
    ("operand string 5", "line 1: `5` is no string, as S5"),
    ("message N1 @5", "line 1: `@5` is no span: @OFFSET+LENGTH"),
    ("message N1 @4294967296+0", "line 1: `@4294967296+0` is no span: @OFFSET+LENGTH"),
    ("message N1\nwildcards", "line 2: `wildcards` stands alone on a line, before all records"),
    ("name 4096 x", "line 1: the number of a name is 0 to 4095"),
    ("name 1", "line 1: a name is `name NUMBER WORD`"),
    ("name 1 u8", "line 1: `u8` is no word for a name: letters, digits and _, and none of this form's own words"),
    ("name 1 N7", "line 1: `N7` is no word for a name: letters, digits and _, and none of this form's own words"),
    ("name 1 Rope\nname 1 Wind", "line 2: the name 1 or the word `Wind` is given twice"),
    ("name 1 Rope\nname 2 Rope", "line 2: the name 2 or the word `Rope` is given twice"),
    ("record kind=300 sub=0", "line 1: a record by its numbers is `record kind=NUMBER sub=NUMBER` and its fields"),
];

#[test]
fn wrong_texts_are_told_by_line() {
    for (text, why) in WRONG_TEXTS {
        let said = Said::of(piped(&["build", "-"], text.as_bytes()));
        assert_eq!(said, Said { status: 1, out: String::new(), err: format!("signal-book: -: {why}\n") }, "{text}");
    }
    let said = Said::of(piped(&["build", "-"], "message N1\n".repeat(1345).as_bytes()));
    assert_eq!(said.err, "signal-book: -: a book has at most 1344 records, and this has 1345\n");
    let nested = |count: usize| format!("newtype N1 type={}u8{}", "(one-child set ".repeat(count), ")".repeat(count));
    let said = Said::of(piped(&["build", "-"], nested(2000).as_bytes()));
    assert_eq!(said.err, "signal-book: -: a book has at most 1344 records, and this has 2002\n");
    let said = Said::of(piped(&["build", "-"], nested(100_000).as_bytes()));
    assert_eq!(said.err, "signal-book: -: line 1: a book has at most 1344 records, and this has 65536\n");
}

/// The page of a text, without its first line.
fn page(text: &str) -> String {
    let said = Said::of(piped(&["show", "-"], &built(text)));
    assert_eq!((said.status, said.err.as_str()), (0, ""));
    said.out.split_once('\n').unwrap().1.to_string()
}

const ALL_FORMS: &str = "\
alias N1 target=(two-children map string (one-child optional N2))
alias N3 target=(one-child array N4)
  parameter N4
  parameter N5
constant N6 type=u8 expression=(operation div 7 0 @4+5)
constant N7 type=i64 expression=-9223372036854775808
constant N8 type=u8 expression=N8
message N2
  field N9 type=N1 ordinal=0
  tombstone of-body type=u8 ordinal=1
    tombstone-argument reason string=S3
  tombstone of-body ordinal=2
    tombstone-argument since string=S4
union N10
  variant N11 ordinal=0
    field N12 type=(sub-byte signed 3) constraint=(logic not (logic or (comparison ne (operand float 1.5)) (range with-high false 9 length=1))) ordinal=0
      annotation delta
      annotation zigzag
    tombstone of-body ordinal=9
  tombstone of-union ordinal=1
  variant N13 ordinal=2
newtype N14 type=(two-children result (generic N3 u8) (qualified N15 N16))
newtype N17 type=(one-child vec3 f32)
newtype N18 type=N99@6+7
newtype N19 type=N3
";

const ALL_FORMS_PAGE: &str = "
aliases
  N3  generic in N4, N5
  N1  map<string, optional<N2>>

constants
  N6  u8   no value
  N7  i64  -9223372036854775808
  N8       not reached: a reference is repeated or leads into a ring

message N2: no fixed layout, as something was removed from it
  ordinal  field  type                       encoding
  0        N9     map<string, optional<N2>>  default
  removed: ordinal 1, was u8, reason S3
  removed: ordinal 2, no reason, since S4

union N10
  variant N11, ordinal 0
    ordinal  field  type          encoding
    0        N12    signed 3-bit  delta over zigzag  where not (value != 1.5 or false <= length <= 9)
    removed: ordinal 9, no reason
  removed: ordinal 1, no reason
  variant N13, ordinal 2

newtype N14 of result<array<u8>, poison>

newtype N17 of vec3<f32>: 12 bytes

newtype N18 of poison

newtype N19 of N3

diagnostics
  at 4+5  the constant N6 has no value
  at 0+0  the type N15.N16 is not known
  at 6+7  the type N99 is not known
";

#[test]
fn the_page_has_every_form() {
    assert_eq!(page(ALL_FORMS), ALL_FORMS_PAGE);
}

/// The fields of a message, and what the page says of its layout.
const LAYOUTS: &[(&str, &str)] = &[
    ("", "0 bytes"),
    ("field N2 type=u8 ordinal=0", "1 byte"),
    ("field N2 type=void ordinal=0", "0 bytes"),
    ("field N2 type=(one-child fixed-array (one-child mat3 f64) size=2) ordinal=0", "144 bytes"),
    ("field N2 type=N3 ordinal=0\nnewtype N3 type=(one-child quat N4)\nnewtype N4 type=fixed32", "16 bytes"),
    (
        "field N2 type=u16 ordinal=3\nfield N4 type=(one-child vec2 i8) ordinal=5\nfield N5 type=u64 ordinal=6",
        "12 bytes",
    ),
    ("field N2 type=bool ordinal=0", "no fixed layout, as the type of N2 tells no number of bytes"),
    ("field N2 type=(sub-byte unsigned 8) ordinal=0", "no fixed layout, as the type of N2 tells no number of bytes"),
    ("field N2 type=uuid ordinal=0", "no fixed layout, as the type of N2 tells no number of bytes"),
    ("field N2 type=N1 ordinal=0", "no fixed layout, as the type of N2 tells no number of bytes"),
    ("field N2 type=N3 ordinal=0\nnewtype N3 type=N3", "no fixed layout, as the type of N2 tells no number of bytes"),
    ("field N2 type=N9 ordinal=0", "no fixed layout, as the type of N2 tells no number of bytes"),
    (
        "field N2 type=(one-child fixed-array (one-child fixed-array u16 size=18446744073709551615) size=2) ordinal=0",
        "no fixed layout, as the type of N2 tells no number of bytes",
    ),
    (
        "field N2 type=(one-child fixed-array (one-child fixed-array u8 size=9223372036854775808) size=2) ordinal=0",
        "no fixed layout, as the type of N2 tells no number of bytes",
    ),
    (
        "field N2 type=u8 ordinal=0\nfield N3 type=(one-child fixed-array u8 size=18446744073709551615) ordinal=1",
        "no fixed layout, as the type of N3 tells no number of bytes",
    ),
    ("field N2 type=u8 ordinal=0\nannotation varint", "no fixed layout, as N2 is encoded as varint"),
    ("annotation delta\nfield N2 type=u8 ordinal=0", "no fixed layout, as N2 is encoded as delta over varint"),
    (
        "field N2 type=u8 ordinal=0\nannotation limit\nargument int 3",
        "no fixed layout, as N2 is encoded as default, limit 3",
    ),
    (
        "field N2 type=u8 ordinal=1\nfield N3 type=u8 ordinal=0",
        "no fixed layout, as the ordinal of N3 is not above the one before",
    ),
    (
        "field N2 type=u8 ordinal=1\nfield N3 type=u8 ordinal=1",
        "no fixed layout, as the ordinal of N3 is not above the one before",
    ),
    ("field N2 type=u8 ordinal=1\ntombstone of-body ordinal=2", "no fixed layout, as something was removed from it"),
];

#[test]
fn layouts() {
    for (fields, layout) in LAYOUTS {
        let page = page(&format!("message N1\n{fields}"));
        assert!(page.starts_with(&format!("\nmessage N1: {layout}\n")), "{fields}: {page}");
    }
    let page = page("message N1\nfield N2 type=u16 ordinal=3\nfield N4 type=(one-child vec2 i8) ordinal=5\nfield N5 type=u64 ordinal=6");
    let offsets: Vec<&str> = page.lines().skip(3).map(|line| line.split_whitespace().next().unwrap()).collect();
    assert_eq!(offsets, ["0", "2", "4"]);
}

/// Long types stand out of their column, so that no page is out of proportion to its book; and newtypes that lead back to
/// themselves come to an end.
#[test]
fn pages_of_unfriendly_books() {
    let long = format!("{}u8{}", "(one-child optional ".repeat(60), ")".repeat(60));
    let fields: String = (0..400).map(|ordinal| format!("field N2 type=N9 ordinal={ordinal}\n")).collect();
    let rings = "newtype N9 type=N8\nnewtype N8 type=(one-child vec2 N9)\n";
    let page = page(&format!("message N1\n{fields}field N3 type={long} ordinal=400\n{rings}"));
    assert!(page.contains("\n  0        N2     N9    default\n"), "{page}");
    assert!(page.contains(&format!("\n  400      N3     {}u8{}  default\n", "optional<".repeat(60), ">".repeat(60))));
}

/// How many records of the results are of a kind.
fn of_kind(results: &[u8], kind: u8) -> usize {
    results.chunks(24).filter(|record| record[0] == kind).count()
}

/// Every accepted book has a page with a heading for each declaration and a line for each field and diagnostic.
#[test]
fn pages_of_the_list_leave_nothing_out() {
    for answer in answers().iter().filter(|answer| answer.accepted()) {
        let said = Said::of(piped(&["show", "-"], &answer.book));
        let Ok([_, diagnostics, _]) = reply(&answer.book) else { continue };
        assert_eq!((said.status, said.err.as_str()), (0, ""), "{}", answer.name);
        let begin = |word: &str| said.out.lines().filter(|line| line.trim_start().starts_with(word)).count();
        let results = answer.written().0;
        let headings = [("message N", 42), ("union N", 43), ("variant N", 44), ("newtype N", 48), ("removed: ", 47)];
        headings
            .iter()
            .for_each(|(word, kind)| assert_eq!(begin(word), of_kind(results, *kind), "{word} {}", said.out));
        assert_eq!(begin("at "), diagnostics);
        let bodies = said.out.lines().skip_while(|line| !line.starts_with("message") && !line.starts_with("union"));
        let row = |line: &&str| line.trim_start().starts_with(|c: char| c.is_ascii_digit());
        assert_eq!(bodies.filter(row).count(), of_kind(results, 45), "{}", said.out);
    }
}

#[test]
fn nobody_reading_on_is_no_fault() {
    let folder = folder("closed");
    fs::write(folder.join("t"), "message N1\n".repeat(1000)).unwrap();
    run(&folder, &["build", "t", "-o", "b"]);
    let mut child = tool(&folder, &["dump", "b"]).stdout(Stdio::piped()).stderr(Stdio::piped()).spawn().unwrap();
    drop(child.stdout.take());
    let said = Said::of(child.wait_with_output().unwrap());
    assert_eq!(said, Said { status: 0, out: String::new(), err: String::new() });
}

/// Colour stands on a terminal alone. A terminal is made by the command `script`, where it is at hand.
#[test]
fn colour_on_a_terminal_only() {
    let show = [env!("CARGO_BIN_EXE_signal-book"), "check", "k1.book", "README.md"].join(" ");
    let plain = run(&path("books"), &["check", "k1.book", "README.md"]).out;
    assert!(!plain.contains('\x1b'));
    let on_terminal = |variable: &str, value: &str| {
        let mut script = Command::new("script");
        script
            .args(["-qec", &show, "/dev/null"])
            .current_dir(path("books"))
            .env("TERM", "xterm")
            .env_remove("NO_COLOR");
        script.env(variable, value).stdin(Stdio::null()).output()
    };
    let Ok(output) = on_terminal("A", "b") else {
        eprintln!("not run: colour on a terminal, which needs the command script");
        return;
    };
    let out = Said::of(output).out.replace('\r', "");
    assert!(
        out.contains("k1.book: \x1b[32maccepted\x1b[0m: 4 results")
            && out.contains("README.md: \x1b[31mrefused by cause 1")
    );
    assert_eq!(out.replace("\x1b[32m", "").replace("\x1b[31m", "").replace("\x1b[0m", ""), plain);
    for (variable, value) in [("NO_COLOR", "1"), ("TERM", "dumb")] {
        let out = Said::of(on_terminal(variable, value).unwrap()).out.replace('\r', "");
        assert_eq!(out, plain, "{variable}");
    }
}

#[cfg(unix)]
#[test]
fn a_path_can_be_any_bytes() {
    use std::os::unix::ffi::OsStrExt;
    let folder = folder("bytes");
    let name = std::ffi::OsStr::from_bytes(b"\xFF.book");
    fs::write(folder.join(name), file("books/k1.book")).unwrap();
    let output = tool(&folder, &["check"]).arg(name).output().unwrap();
    assert_eq!(output.status.code(), Some(0));
}
