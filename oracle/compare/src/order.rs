//! How the work on constants grows with their number, by the order in which a book has them: instructions and time of
//! the proved program `replay`, and the time of the original. Run in the folder `oracle` by the script `order`, which
//! builds the program.

use crate::answers::{self, List};
use crate::named::{Draft, Named, FULL};
use crate::replayed::{self, PROGRAM, TARGET};
use std::fs::{self, File};
use std::io::BufWriter;
use std::process::Command;
use std::time::Instant;

/// A way to make a book of n constants, and three numbers of them. The last is about as many as fit.
struct Kind {
    name: &'static str,
    make: fn(u16) -> Draft,
    sizes: [u16; 3],
}

const KINDS: [Kind; 3] = [
    Kind { name: "best: each names the one before", make: forwards, sizes: [10, 100, 440] },
    Kind { name: "worst: each names the one behind", make: backwards, sizes: [10, 100, 440] },
    Kind { name: "the first names all others", make: sum, sizes: [10, 100, 269] },
];

/// For a time, a list has so many copies of the book.
const COPIES: [usize; 3] = [2_000, 500, 200];

/// Each time is the least of so many runs.
const RUNS: usize = 21;

/// Constants of three records with these names: 0 is a literal, each other one is the one whose name is one less.
fn chain(d: &mut Draft, names: impl Iterator<Item = u16>) {
    for name in names {
        let e = if name == 0 { d.int(1) } else { d.reference(name - 1) };
        d.constant(name, e);
    }
}

/// Best order: always the next constant is ready.
fn forwards(n: u16) -> Draft {
    let mut d = Draft::default();
    chain(&mut d, 0..n);
    d
}

/// Worst order: always the last constant of those that are left is ready.
fn backwards(n: u16) -> Draft {
    let mut d = Draft::default();
    chain(&mut d, (0..n).rev());
    d
}

/// The sum of all others comes first, and waits for them one after the other; these are in best order.
fn sum(n: u16) -> Draft {
    let mut d = Draft::default();
    let e = sum_of(&mut d, 0, n - 1);
    d.constant(n - 1, e);
    chain(&mut d, 0..n - 1);
    d
}

/// The sum of n constants, as a tree that is as low as can be.
fn sum_of(d: &mut Draft, first: u16, n: u16) -> u16 {
    if n == 1 {
        return d.reference(first);
    }
    let left = sum_of(d, first, n / 2);
    let right = sum_of(d, first + n / 2, n - n / 2);
    d.operation(0, left, right)
}

/// A book with a newtype for each constant of another: as many records, and as many results.
fn without_constants(book: &Draft, constants: u16) -> Draft {
    let mut d = Draft::default();
    let types = book.book.records.len() - 2 * constants as usize;
    (0..types).for_each(|_| {
        d.u8();
    });
    for name in 0..constants {
        let t = d.u8();
        d.newtype(name, t);
    }
    d
}

/// Writes two lists of copies of a book, which is accepted: as it is, and with newtypes in place of its constants.
fn lists(folder: &str, book: &Draft, constants: u16, copies: usize) -> Result<[String; 2], String> {
    let other = without_constants(book, constants);
    let paths = [0, 1].map(|n| format!("{folder}/{copies}-{n}"));
    for (path, d) in paths.iter().zip([book, &other]) {
        list(path, d, FULL, copies)?;
    }
    Ok(paths)
}

/// What the constants take more than as many newtypes: as many records are read, and as many results written and
/// compared.
fn of_constants([constants, newtypes]: [f64; 2]) -> f64 {
    constants - newtypes
}

/// Writes copies of the answer for a book, on which everything agrees, and has the program read them.
fn list(path: &str, d: &Draft, lent: (usize, usize), copies: usize) -> Result<(), String> {
    let named = Named { name: "constants".to_string(), bytes: d.book.bytes(), lent, expected: None };
    let a = answers::answer(&named)?;
    let write = || {
        let mut list = List::new(BufWriter::new(File::create(path)?))?;
        for _ in 0..copies {
            list.add(&a)?;
        }
        list.end()
    };
    let (_, totals) = write().map_err(|e: std::io::Error| format!("{path}: {e}"))?;
    replayed::same(&totals.says(), &replayed::replay(path)?)
}

/// The least time that the program takes for each list, in seconds. They have their turns, so that what else the
/// machine does meets all of them.
fn least(paths: &[String; 2]) -> Result<[f64; 2], String> {
    let mut least = [f64::MAX; 2];
    for n in (0..2).cycle().take(2 * RUNS) {
        let start = Instant::now();
        replayed::replay(&paths[n])?;
        least[n] = least[n].min(start.elapsed().as_secs_f64());
    }
    Ok(least)
}

/// How many instructions the program takes for each list.
fn counts(paths: &[String; 2]) -> Result<[f64; 2], String> {
    let mut counts = [0.0; 2];
    for (count, path) in counts.iter_mut().zip(paths) {
        *count = instructions(path)?;
    }
    Ok(counts)
}

/// How many instructions the program takes for a list, as valgrind counts them.
fn instructions(path: &str) -> Result<f64, String> {
    let input = File::open(path).map_err(|e| format!("{path}: {e}"))?;
    let words = ["--tool=callgrind", "--callgrind-out-file=/dev/null", PROGRAM];
    let output = Command::new("valgrind").args(words).stdin(input).output().map_err(|e| format!("valgrind: {e}"))?;
    let said = String::from_utf8_lossy(&output.stderr);
    let count = said.lines().find_map(|l| l.split_once("Collected : ")?.1.trim().parse().ok());
    count.ok_or_else(|| format!("valgrind says no count: {said}"))
}

/// The least time in which the original evaluates the constants of a book, in seconds.
fn original(book: &Draft) -> f64 {
    let bytes = book.book.bytes();
    (0..RUNS).map(|_| vexil::time_of_constants(&bytes).as_secs_f64()).fold(f64::MAX, f64::min)
}

/// A line for n constants of a kind.
fn line(folder: &str, kind: &Kind, n: u16, copies: usize) -> Result<String, String> {
    let book = (kind.make)(n);
    let count = of_constants(counts(&lists(folder, &book, n, 1)?)?);
    let time = of_constants(least(&lists(folder, &book, n, copies)?)?) / copies as f64;
    let each = count / f64::from(n);
    let [time, rust] = [time, original(&book)].map(|t| 1e6 * t);
    Ok(format!("{:34}{n:>10}{count:>14.0}{each:>8.0}{time:>14.1}{rust:>13.1}", kind.name))
}

fn table(folder: &str) -> Result<(), String> {
    fs::create_dir_all(folder).map_err(|e| format!("{folder}: {e}"))?;
    println!("what constants take more than newtypes: instructions, for all and for each, and microseconds (least of {RUNS})");
    let [n, count, each, time, rust] = ["constants", "instructions", "each", "microseconds", "in the Rust"];
    println!("{:34}{n:>10}{count:>14}{each:>8}{time:>14}{rust:>13}", "");
    for kind in &KINDS {
        for (n, copies) in kind.sizes.into_iter().zip(COPIES) {
            println!("{}", line(folder, kind, n, copies)?);
        }
    }
    Ok(())
}

/// A line for each kind of book and number of constants. Whether all could be measured.
pub fn print() -> bool {
    let folder = format!("{TARGET}/order-{}", std::process::id());
    let done = table(&folder).and_then(|()| fs::remove_dir_all(&folder).map_err(|e| format!("{folder}: {e}")));
    if let Err(why) = &done {
        println!("{why}");
    }
    done.is_ok()
}
