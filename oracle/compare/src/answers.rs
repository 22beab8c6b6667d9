//! The list of answers: books with lent lengths, the reply, and what both slices hold at exit. docs/ANSWERS.md
//! describes the file.

use crate::counts::Counts;
use crate::judge::{self, judge, lent_diagnostics, lent_results, MOST_DIAGNOSTICS, MOST_RESULTS};
use crate::named::{self, Named};
use crate::results;
use books::{Book, Rng};
use model::Reply;
use std::collections::{BTreeMap, BTreeSet};
use std::fs;
use std::io::{self, Cursor, Seek, SeekFrom, Write};

const MAGIC: &[u8; 8] = b"answers\n";
const HEADER: usize = 64;

/// One answer: a book, the lengths of the slices, the reply, and the bytes written at the front of each slice if the
/// book is accepted.
#[derive(PartialEq, Eq)]
pub struct Answer {
    pub name: String,
    pub book: Vec<u8>,
    pub lent: (usize, usize),
    pub reply: Reply,
    pub written: (Vec<u8>, Vec<u8>),
}

/// Lowers a book with the model, once everything agrees on it.
pub fn answer(n: &Named) -> Result<Answer, String> {
    let outcome = judge(&n.bytes, n.lent.0, n.lent.1, None)?;
    if n.expected.is_some_and(|e| e != outcome.reply) {
        return Err(format!("another reply than by hand: {:?}", outcome.reply));
    }
    let run = judge::run(&n.bytes, n.lent.0, n.lent.1)?;
    let written = match run.reply {
        Reply::Accepted { results, diagnostics, .. } => {
            (run.results[..24 * results as usize].to_vec(), run.diagnostics[..24 * diagnostics as usize].to_vec())
        }
        Reply::Refused { .. } => (Vec::new(), Vec::new()),
    };
    Ok(Answer { name: n.name.clone(), book: n.bytes.clone(), lent: n.lent, reply: run.reply, written })
}

impl Answer {
    /// How many bytes at the front of each slice have changed: written, or zero.
    fn changed(&self) -> (usize, usize) {
        match self.reply {
            Reply::Accepted { .. } => (self.written.0.len(), self.written.1.len()),
            Reply::Refused { number: 1..=8, .. } => (0, 0),
            Reply::Refused { .. } => {
                (24 * MOST_RESULTS.min(self.lent.0 / 24), 24 * MOST_DIAGNOSTICS.min(self.lent.1 / 24))
            }
        }
    }

    fn write(&self, out: &mut Vec<u8>) {
        let (cause, place, counts) = match self.reply {
            Reply::Accepted { results, diagnostics, constants } => (0, 0, [results, diagnostics, constants]),
            Reply::Refused { number, place } => (number as u32, place, [0; 3]),
        };
        let mut name = [0; 24];
        name[..self.name.len()].copy_from_slice(self.name.as_bytes());
        out.extend(name);
        let changed = self.changed();
        let lengths = [self.book.len(), self.lent.0, self.lent.1].map(|n| n as u32);
        let numbers = [&lengths[..], &[cause, place], &counts, &[changed.0 as u32, changed.1 as u32]].concat();
        numbers.iter().for_each(|n| out.extend(n.to_le_bytes()));
        out.extend(&self.book);
        out.extend(&self.written.0);
        out.extend(&self.written.1);
    }

    fn read(list: &mut &[u8]) -> Option<Answer> {
        let header = take(list, HEADER)?;
        let number = |at: usize| u32::from_le_bytes(header[at..at + 4].try_into().expect("four bytes"));
        let name = String::from_utf8(header[..24].iter().copied().take_while(|b| *b != 0).collect()).ok()?;
        let book = take(list, number(24) as usize)?.to_vec();
        let reply = match number(36) {
            0 => Reply::Accepted { results: number(44), diagnostics: number(48), constants: number(52) },
            cause => Reply::Refused { number: cause as u8, place: number(40) },
        };
        let follow = if number(36) == 0 { (number(56) as usize, number(60) as usize) } else { (0, 0) };
        let written = (take(list, follow.0)?.to_vec(), take(list, follow.1)?.to_vec());
        Some(Answer { name, book, lent: (number(28) as usize, number(32) as usize), reply, written })
    }
}

/// The totals of a list whose answers are right.
#[derive(Default)]
pub struct Totals {
    pub answers: usize,
    pub accepted: usize,
    /// what the replies to the accepted books count
    results: usize,
    diagnostics: usize,
    constants: usize,
}

impl Totals {
    fn count(&mut self, a: &Answer) {
        self.answers += 1;
        if let Reply::Accepted { results, diagnostics, constants } = a.reply {
            self.accepted += 1;
            self.results += results as usize;
            self.diagnostics += diagnostics as usize;
            self.constants += constants as usize;
        }
    }

    /// What `replay` prints of the list.
    pub fn says(&self) -> String {
        let Totals { answers, accepted, results, diagnostics, constants } = self;
        let lines = [
            ("answers", *answers),
            ("accepted", *accepted),
            ("refused", answers - accepted),
            ("results", *results),
            ("diagnostics", *diagnostics),
            ("constants", *constants),
            ("wrong", 0),
        ];
        lines.iter().map(|(word, n)| format!("{word} {n}\n")).collect()
    }
}

/// A list in the making: its answers are written one behind the other, their number at the end.
pub struct List<W> {
    out: W,
    totals: Totals,
}

impl<W: Write + Seek> List<W> {
    pub fn new(mut out: W) -> io::Result<List<W>> {
        out.write_all(MAGIC)?;
        out.write_all(&[0; 8])?;
        Ok(List { out, totals: Totals::default() })
    }

    /// One answer more.
    pub fn add(&mut self, a: &Answer) -> io::Result<()> {
        let mut bytes = Vec::new();
        a.write(&mut bytes);
        self.totals.count(a);
        self.out.write_all(&bytes)
    }

    /// Writes the number of answers into the head.
    pub fn end(mut self) -> io::Result<(W, Totals)> {
        self.out.seek(SeekFrom::Start(8))?;
        self.out.write_all(&(self.totals.answers as u32).to_le_bytes())?;
        self.out.flush()?;
        Ok((self.out, self.totals))
    }
}

fn take<'a>(list: &mut &'a [u8], n: usize) -> Option<&'a [u8]> {
    let (front, rest) = list.split_at_checked(n)?;
    *list = rest;
    Some(front)
}

/// All books of the list: those with names, one of each damage, and readable ones chosen so that every rare thing
/// comes.
fn chosen() -> Vec<Named> {
    let mut all = named::all();
    for mut n in damages() {
        if all.iter().any(|other| other.name == n.name) {
            n.name = format!("{:.22}-2", n.name);
        }
        all.push(n);
    }
    all.extend(readables());
    let names: BTreeSet<&str> = all.iter().map(|n| n.name.as_str()).collect();
    assert_eq!(names.len(), all.len(), "two answers with one name");
    let long: Vec<&&str> = names.iter().filter(|n| n.len() > 24).collect();
    assert!(long.is_empty(), "names of more than 24 characters: {long:?}");
    all
}

/// A book for each label of damage, of at most three blocks.
fn damages() -> Vec<Named> {
    let mut kept: BTreeMap<&'static str, Named> = BTreeMap::new();
    for n in 0..20_000 {
        let d = books::damaged(&mut Rng::new(n));
        if d.bytes.len() <= 3 * 512 {
            let name = short(d.what);
            kept.entry(d.what).or_insert(Named {
                name,
                bytes: d.bytes,
                lent: (d.results, d.diagnostics),
                expected: None,
            });
        }
    }
    kept.into_values().collect()
}

/// A label as a name, of at most 24 characters.
fn short(label: &str) -> String {
    let plain = label.chars().filter(|c| c.is_ascii_alphanumeric() || *c == ' ');
    plain.map(|c| if c == ' ' { '-' } else { c }).take(24).collect()
}

/// Readable books that show something that no one before them does.
fn readables() -> Vec<Named> {
    let mut kept = Vec::new();
    let mut seen = BTreeSet::new();
    for n in 0..10_000 {
        let mut rng = Rng::new(1 << 32 | n);
        let book = books::readable(&mut rng);
        let lent = books::lengths(&mut rng);
        let most = [1, 1, 2, 2, 3, 3, 4, 8][n as usize % 8];
        if book.records.len() > 21 * most {
            continue;
        }
        let before = seen.len();
        seen.extend(shows(&book));
        if seen.len() > before {
            let name = format!("readable-{n}");
            kept.push(Named { name, bytes: book.bytes(), lent, expected: None });
        }
    }
    kept
}

/// Kinds and subs of the book and its results, messages, which kind stands behind which, and which encoding comes
/// behind which kind of type.
fn shows(book: &Book) -> Vec<(&'static str, u32, u32)> {
    let mut counts = Counts::default();
    counts.book(book);
    let Ok(full) = judge::full(&book.bytes()) else {
        return Vec::new();
    };
    let items: Vec<u32> = book.records.iter().filter(|r| r.kind >= 20).map(|r| r.kind as u32).collect();
    items.windows(2).for_each(|w| counts.add("behind", w[0], w[1]));
    match full.reply {
        Reply::Accepted { results, diagnostics, .. } => {
            let written = results::records(&full.results, results);
            counts.records("result", &written);
            for w in written.windows(3).filter(|w| w[2].kind == 46) {
                counts.add("encoded", w[0].kind as u32, (w[2].sub as u32) << 2 | (w[2].a as u32) << 1 | w[2].b as u32);
            }
            let told = results::records(&full.diagnostics, diagnostics);
            told.iter().for_each(|r| counts.add("message", 0, r.sub as u32));
        }
        Reply::Refused { number, place } => {
            counts.add("cause at", number as u32, book.records[place as usize].kind as u32);
        }
    }
    counts.seen.into_keys().collect()
}

/// The list and what `replay` prints of it.
fn list() -> io::Result<(Vec<u8>, String)> {
    let mut list = List::new(Cursor::new(Vec::new()))?;
    for n in chosen() {
        list.add(&answer(&n).unwrap_or_else(|why| panic!("{}: {why}", n.name)))?;
    }
    let (out, totals) = list.end()?;
    Ok((out.into_inner(), totals.says()))
}

/// Makes both files.
pub fn make(folder: &str) -> Result<String, String> {
    let (bytes, says) = list().map_err(|e| e.to_string())?;
    let put = |name: &str, text: &[u8]| {
        fs::write(format!("{folder}/{name}"), text).map_err(|e| format!("{folder}/{name}: {e}"))
    };
    put("stdin", &bytes)?;
    put("stdout", says.as_bytes())?;
    Ok(format!("{} bytes\n{says}", bytes.len()))
}

/// Says whether both files are what `make` would write.
pub fn check(folder: &str) -> Result<String, String> {
    let (bytes, says) = list().map_err(|e| e.to_string())?;
    let same = |name: &str, text: &[u8]| match fs::read(format!("{folder}/{name}")) {
        Ok(old) if old == text => Ok(()),
        Ok(_) => Err(format!("{folder}/{name} is not what this command makes")),
        Err(e) => Err(format!("{folder}/{name}: {e}")),
    };
    same("stdin", &bytes)?;
    same("stdout", says.as_bytes())?;
    Ok("the list is as made".to_string())
}

/// The answers of the list in that folder.
pub fn read(folder: &str) -> Result<Vec<Answer>, String> {
    let path = format!("{folder}/stdin");
    let bytes = fs::read(&path).map_err(|e| format!("{path}: {e}"))?;
    let mut rest = &bytes[..];
    let head = take(&mut rest, 16).filter(|h| h.starts_with(MAGIC)).ok_or("no list of answers")?;
    let n = u32::from_le_bytes(head[8..12].try_into().expect("four bytes"));
    let answers: Option<Vec<Answer>> = (0..n).map(|_| Answer::read(&mut rest)).collect();
    answers.filter(|_| rest.is_empty()).ok_or_else(|| "a list that is cut short".to_string())
}

/// Lowers every book of the list with the model, and counts the answers that are another.
pub fn replay(folder: &str) -> Result<String, String> {
    let answers = read(folder)?;
    let wrong: Vec<&str> = answers.iter().filter(|a| !holds(a)).map(|a| a.name.as_str()).collect();
    match wrong.len() {
        0 => Ok(format!("{} answers, all as stored", answers.len())),
        n => Err(format!("{n} of {} answers are another: {}", answers.len(), wrong.join(" "))),
    }
}

/// Whether the model gives the stored reply and leaves both slices as stored.
fn holds(a: &Answer) -> bool {
    let Ok(run) = judge::run(&a.book, a.lent.0, a.lent.1) else {
        return false;
    };
    let exit = |mut lent: Vec<u8>, written: &[u8], changed: usize| {
        lent[..changed].fill(0);
        lent[..written.len()].copy_from_slice(written);
        lent
    };
    let (r, d) = a.changed();
    run.reply == a.reply
        && run.results == exit(lent_results(a.lent.0), &a.written.0, r)
        && run.diagnostics == exit(lent_diagnostics(a.lent.1), &a.written.1, d)
}

/// One line for each answer; or one answer in full.
pub fn show(folder: &str, name: Option<&str>) -> Result<String, String> {
    let answers = read(folder)?;
    let line = |a: &Answer| {
        let reply = match a.reply {
            Reply::Accepted { results, diagnostics, constants } => {
                format!("accepted {results} {diagnostics} {constants}")
            }
            Reply::Refused { number, place } => format!("refused {number} {place}"),
        };
        format!("{:24} {:6} {:6} {:5}  {reply}\n", a.name, a.book.len(), a.lent.0, a.lent.1)
    };
    let Some(name) = name else {
        return Ok(answers.iter().map(line).collect());
    };
    let a = answers.iter().find(|a| a.name == name).ok_or("no answer of that name")?;
    let mut text = line(a);
    for (what, records) in [
        ("book", Book::read(&a.book).map_or(Vec::new(), |b| b.records)),
        ("results", results::records(&a.written.0, u32::MAX)),
        ("diagnostics", results::records(&a.written.1, u32::MAX)),
    ] {
        text += &format!("{what}\n");
        let records = records.iter().enumerate();
        records.for_each(|(n, r)| text += &format!("{}\n", crate::shrink::line(n, r)));
    }
    Ok(text)
}

#[cfg(test)]
mod tests {
    /// The list in the repository is what `make` would write. The original wants a deep stack for the deepest trees.
    #[test]
    fn the_list_is_as_made() {
        let folder = concat!(env!("CARGO_MANIFEST_DIR"), "/../../crates/replay");
        let checked = std::thread::Builder::new().stack_size(256 << 20).spawn(|| super::check(folder));
        let said = checked.expect("a thread").join().expect("a thread that ends");
        assert_eq!(said, Ok("the list is as made".to_string()));
    }
}
