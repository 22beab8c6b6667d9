//! `signal-book`: looks at signal books, and writes them from text.

mod build;
mod dump;
mod layout;
mod names;
mod page;
mod paint;
mod rows;
#[cfg(test)]
mod tests;

use names::Names;
use paint::Paint;
use signal_book::{lower, Accepted, Cause, Place, Refused, BOOK_LIMIT, DIAGNOSTICS_LIMIT, RESULTS_LIMIT};
use std::ffi::OsString;
use std::fmt::Display;
use std::fs::File;
use std::io::{self, IsTerminal, Read, Write};
use std::path::{Path, PathBuf};
use std::process::ExitCode;

const HELP: &str = "\
signal-book: looks at signal books, and writes them from text

  signal-book check BOOK..           say whether each book is accepted, or why and where it is refused
  signal-book show BOOK              print what a book says: aliases, constants, messages with offsets, diagnostics
  signal-book dump BOOK              print the records of a book as text
  signal-book build TEXT [-o BOOK]   write the book of a text, to a file or to standard output
  signal-book --help | --version

  --names TEXT   with check, show and dump: take words for names from the lines `name NUMBER WORD` of a text
  -              as a file: standard input

check exits with 0 if every book is accepted, and else with 1. The others exit with 1 where a book is refused, a text is
wrong or a file cannot be read, and say why on standard error. Wrong arguments are 2.

The text form has a record on a line, and what it has as children inside it:

  name 10 Rope                          # a word for a name, which is N10 otherwise
  name 11 tension
  wildcards                             # if there are wildcard imports
  constant N13 type=u16 expression=5
  message Rope
    field tension type=u16 constraint=(range with-high 0 N13) ordinal=0 @40+12   # with its span

A line, and a record in brackets, may begin with a label, `LABEL:`, and ^LABEL stands for that record wherever a child
stands. Labels of `dump` are the numbers of the records. docs/TEXT.md lists all words.
";

/// What went wrong, in a line; and the status to exit with.
struct Fault(u8, String);

fn main() -> ExitCode {
    let words: Vec<OsString> = std::env::args_os().skip(1).collect();
    match run(&words) {
        Ok(status) => ExitCode::from(status),
        Err(Fault(status, why)) => {
            eprintln!("signal-book: {why}");
            ExitCode::from(status)
        }
    }
}

fn run(words: &[OsString]) -> Result<u8, Fault> {
    let arguments = Arguments::of(words)?;
    match (arguments.command.as_str(), &arguments.files[..]) {
        ("--help" | "-h", _) => print(HELP),
        ("--version" | "-V", _) => print(&format!("signal-book {}\n", env!("CARGO_PKG_VERSION"))),
        ("check", [_, ..]) => check(&arguments.files, &arguments.names()?),
        ("show", [path]) => show(path, &arguments.names()?),
        ("dump", [path]) => dump(path, &arguments.names()?),
        ("build", [path]) => build(path, arguments.out.as_deref()),
        _ => Err(usage()),
    }
}

fn usage() -> Fault {
    Fault(2, "use: signal-book check BOOK.. | show BOOK | dump BOOK | build TEXT [-o BOOK] | --help | --version".into())
}

/// What was asked for.
#[derive(Default)]
struct Arguments {
    command: String,
    files: Vec<PathBuf>,
    names: Option<PathBuf>,
    out: Option<PathBuf>,
}

impl Arguments {
    fn of(words: &[OsString]) -> Result<Arguments, Fault> {
        let mut words = words.iter();
        let command = words.next().and_then(|word| word.to_str()).ok_or_else(usage)?;
        let mut arguments = Arguments { command: command.to_string(), ..Arguments::default() };
        while let Some(word) = words.next() {
            let option = match word.to_str().unwrap_or("") {
                help @ ("--help" | "-h" | "--version" | "-V") => {
                    arguments.command = help.to_string();
                    continue;
                }
                "--names" if command != "build" => &mut arguments.names,
                "-o" if command == "build" => &mut arguments.out,
                other if other.starts_with('-') && other != "-" => return Err(usage()),
                _ => {
                    arguments.files.push(word.into());
                    continue;
                }
            };
            *option = Some(words.next().ok_or_else(usage)?.into());
        }
        Ok(arguments)
    }

    fn names(&self) -> Result<Names, Fault> {
        let Some(path) = &self.names else { return Ok(Names::default()) };
        Names::of_text(&read_text(path)?).map_err(|why| of_file(path, why))
    }
}

/// What went wrong with a file.
fn of_file(path: &Path, why: impl Display) -> Fault {
    Fault(1, format!("{}: {why}", path.display()))
}

/// The two slices that are lent, long enough for every book.
struct Slices {
    results: Vec<u8>,
    diagnostics: Vec<u8>,
}

impl Slices {
    fn new() -> Slices {
        Slices { results: vec![0; RESULTS_LIMIT], diagnostics: vec![0; DIAGNOSTICS_LIMIT] }
    }

    fn lower(&mut self, book: &[u8]) -> Result<Accepted<'_>, Refused> {
        lower(book, &mut self.results, &mut self.diagnostics)
    }
}

fn check(paths: &[PathBuf], names: &Names) -> Result<u8, Fault> {
    let mut slices = Slices::new();
    let mut status = 0;
    for path in paths {
        match read_book(path) {
            Ok(book) => status |= check_one(path, &book, &mut slices, names)?,
            Err(Fault(_, why)) => {
                eprintln!("signal-book: {why}");
                status = 1;
            }
        }
    }
    Ok(status)
}

fn check_one(path: &Path, book: &[u8], slices: &mut Slices, names: &Names) -> Result<u8, Fault> {
    let paint = Paint::of_stdout();
    let path = path.display();
    match slices.lower(book) {
        Ok(lowered) => print(&format!("{path}: {}: {}\n", paint.good("accepted"), page::counts(lowered))),
        Err(refused) => {
            let words = paint.bad(&in_words(refused, book));
            print(&format!("{path}: {words}\n{}", shown(refused, book, names)))?;
            Ok(1)
        }
    }
}

/// A refusal in words; of a wrong length, which it is.
fn in_words(refused: Refused, book: &[u8]) -> String {
    match (refused.cause(), book.len()) {
        (Cause::BookLength, 0) => format!("{refused} (the file is empty)"),
        (Cause::BookLength, length) if length > BOOK_LIMIT => format!("{refused} (the file is longer)"),
        (Cause::BookLength, length) => format!("{refused} (the file has {length} bytes)"),
        _ => refused.to_string(),
    }
}

/// The record that is refused, on a line.
fn shown(refused: Refused, book: &[u8], names: &Names) -> String {
    let Place::Record(number) = refused.at() else { return String::new() };
    let record = dump::records(book)[usize::from(number)];
    format!("  {number}: {}\n", dump::one(&record, names))
}

fn show(path: &Path, names: &Names) -> Result<u8, Fault> {
    let (book, mut slices) = (read_book(path)?, Slices::new());
    let lowered = slices.lower(&book).map_err(|refused| of_file(path, in_words(refused, &book)))?;
    print(&page::page(&path.display().to_string(), &book, lowered, names, Paint::of_stdout()))
}

fn dump(path: &Path, names: &Names) -> Result<u8, Fault> {
    let book = read_book(path)?;
    // Records can be told where the blocks are right, whatever is wrong with the records themselves.
    match Slices::new().lower(&book) {
        Err(refused) if refused.number() <= 3 => Err(of_file(path, in_words(refused, &book))),
        _ => print(&dump::dump(&book, names)),
    }
}

fn build(path: &Path, out: Option<&Path>) -> Result<u8, Fault> {
    let book = build::build(&read_text(path)?).map_err(|why| of_file(path, why))?;
    match out {
        Some(out) => std::fs::write(out, book).map(|()| 0).map_err(|error| of_file(out, error)),
        None if io::stdout().is_terminal() => {
            Err(Fault(2, "a book is no text for a terminal: give a file, -o BOOK".into()))
        }
        None => write(&book),
    }
}

/// A file, or standard input, up to so many bytes.
fn read(path: &Path, most: usize) -> Result<Vec<u8>, Fault> {
    let mut bytes = Vec::new();
    let most = most as u64;
    let done = match path.to_str() {
        Some("-") => io::stdin().take(most).read_to_end(&mut bytes),
        _ => File::open(path).and_then(|file| file.take(most).read_to_end(&mut bytes)),
    };
    done.map(|_| bytes).map_err(|error| of_file(path, error))
}

/// A book: one byte more than the longest has is enough to refuse it.
fn read_book(path: &Path) -> Result<Vec<u8>, Fault> {
    read(path, BOOK_LIMIT + 1)
}

/// A text: no book's is nearly as long as this.
fn read_text(path: &Path) -> Result<String, Fault> {
    let bytes = read(path, 1 << 24)?;
    String::from_utf8(bytes).map_err(|_| of_file(path, "this is no text"))
}

fn print(text: &str) -> Result<u8, Fault> {
    write(text.as_bytes())
}

/// Writes to standard output. Where nobody reads on, that is no fault.
fn write(bytes: &[u8]) -> Result<u8, Fault> {
    let mut out = io::stdout().lock();
    match out.write_all(bytes).and_then(|()| out.flush()) {
        Err(error) if error.kind() != io::ErrorKind::BrokenPipe => Err(Fault(1, format!("standard output: {error}"))),
        _ => Ok(0),
    }
}
