//! Generated books through the proved program `replay`: everything that `oracle/run` compares agrees on each, a list of
//! answers is made of them, and the program has to print what is expected of that list. Run in the folder `oracle` by the
//! script `replayed`, which builds the program.

use crate::answers::{self, Answer, List, Totals};
use crate::named::{Named, FULL};
use crate::run::{readable_book, share, Disagreement, ROUND};
use crate::shrink;
use model::Reply;
use std::fs::{self, File};
use std::io::{self, BufWriter};
use std::process::Command;
use std::time::Instant;

const HELP: &str = "usage: oracle/replayed [--books N] [--seed S] [--keep]
  --books N     N readable books (default 20000)
  --seed S      the books of oracle/run with that seed (default 1)
  --keep        leave the list where it is made, and say where";

/// The folder of what is built, and the program.
pub const TARGET: &str = "../target";
pub const PROGRAM: &str = "../target/bin/replay";

/// Of so many books one is lent the lengths of `oracle/run`, the others full slices.
const SHORT: u64 = 4;

/// As many lines are shown where the program prints something else.
const SHOWN: usize = 40;

struct Options {
    books: u64,
    seed: u64,
    /// Spoils one answer, which has to be found. For trying this command.
    damage: bool,
    keep: bool,
}

fn options(words: &[String]) -> Option<Options> {
    let mut o = Options { books: 20_000, seed: 1, damage: false, keep: false };
    let mut words = words.iter();
    while let Some(word) = words.next() {
        match word.as_str() {
            "--books" => o.books = words.next()?.parse().ok()?,
            "--seed" => o.seed = words.next()?.parse().ok()?,
            "--damage" => o.damage = true,
            "--keep" => o.keep = true,
            "--help" => {
                println!("{HELP}");
                std::process::exit(0)
            }
            _ => return None,
        }
    }
    (name(o.seed, o.books).len() <= 24).then_some(o)
}

/// The name of the answer for book number n.
fn name(seed: u64, n: u64) -> String {
    format!("s{seed}-{n}")
}

/// The answer for readable book number n, or what disagrees on it.
fn answer(seed: u64, n: u64) -> Result<Answer, Disagreement> {
    let (book, lent) = readable_book(seed, n);
    let lent = if n.is_multiple_of(SHORT) { lent } else { FULL };
    let named = Named { name: name(seed, n), bytes: book.bytes(), lent, expected: None };
    answers::answer(&named).map_err(|why| {
        let Named { name, bytes, lent, .. } = named;
        Disagreement { bytes, lent, expected: None, what: name, why }
    })
}

/// What the answers of a list have, beside the totals that `replay` prints.
#[derive(Default)]
struct Seen {
    by_nine: u64,
    by_ten: u64,
    reached: u64,
    unstored: u64,
    /// The answer that was spoiled.
    spoiled: Option<String>,
}

impl Seen {
    fn count(&mut self, a: &Answer) {
        match a.reply {
            Reply::Refused { number: 9, .. } => self.by_nine += 1,
            Reply::Refused { number: 10, .. } => self.by_ten += 1,
            _ => {}
        }
        for told in a.written.0.chunks(24).filter(|r| r[0] == 41) {
            self.reached += 1;
            self.unstored += (told[1] == 0) as u64;
        }
    }

    /// Changes the value in one 41, in the first answer that has a stored constant.
    fn spoil(&mut self, a: &mut Answer) {
        let told = a.written.0.chunks_mut(24).find(|r| r[0..2] == [41, 1]);
        if let (Some(told), None) = (told, &self.spoiled) {
            told[8] ^= 1;
            self.spoiled = Some(a.name.clone());
        }
    }
}

/// Why a run ends before its end.
enum Stop {
    Disagrees(Disagreement),
    Fails(String),
}

impl From<io::Error> for Stop {
    fn from(e: io::Error) -> Stop {
        Stop::Fails(e.to_string())
    }
}

/// Writes the list of the books, a round of them at a time. The same seed and number give the same list.
fn make(path: &str, o: &Options) -> Result<(Totals, Seen), Stop> {
    let mut list = List::new(BufWriter::new(File::create(path)?))?;
    let mut seen = Seen::default();
    for from in (0..o.books).step_by(ROUND as usize) {
        let round = from..o.books.min(from + ROUND);
        let halves = share(round, |n, to: &mut Vec<_>| to.push(answer(o.seed, n)));
        for made in halves.into_iter().flatten() {
            let mut a = made.map_err(Stop::Disagrees)?;
            seen.count(&a);
            if o.damage {
                seen.spoil(&mut a);
            }
            list.add(&a)?;
        }
    }
    Ok((list.end()?.1, seen))
}

/// What the program prints of a list.
pub fn replay(list: &str) -> Result<String, String> {
    let input = File::open(list).map_err(|e| format!("{list}: {e}"))?;
    let output = Command::new(PROGRAM).stdin(input).output().map_err(|e| format!("{PROGRAM}: {e}"))?;
    match output.status.success() {
        true => Ok(String::from_utf8_lossy(&output.stdout).into_owned()),
        false => Err(format!("{PROGRAM} ends with {}", output.status)),
    }
}

/// Whether the program prints, line by line, what is expected; if not, both.
pub fn same(expected: &str, printed: &str) -> Result<(), String> {
    if expected.lines().eq(printed.lines()) {
        return Ok(());
    }
    let front = |text: &str| {
        let more = text.lines().count().saturating_sub(SHOWN);
        let lines: String = text.lines().take(SHOWN).map(|l| format!("  {l}\n")).collect();
        if more == 0 {
            lines
        } else {
            format!("{lines}  and {more} more lines\n")
        }
    };
    Err(format!("expected:\n{}printed:\n{}", front(expected), front(printed)))
}

/// Makes the list, has the program read it, and compares.
fn compare(path: &str, o: &Options) -> Result<(), Stop> {
    let start = Instant::now();
    let (totals, seen) = make(path, o)?;
    let Totals { answers, accepted, .. } = totals;
    println!("{answers} books of seed {}, on which everything agrees", o.seed);
    println!("{accepted} accepted, {} refused by 9, {} by 10", seen.by_nine, seen.by_ten);
    println!("{} 41s in the accepted, {} of them unstored", seen.reached, seen.unstored);
    println!("{} bytes, {:.1} s to make", fs::metadata(path)?.len(), start.elapsed().as_secs_f64());
    seen.spoiled.iter().for_each(|name| println!("spoiled: a value in {name}"));
    let start = Instant::now();
    let printed = replay(path).map_err(Stop::Fails)?;
    println!("{:.1} s for replay", start.elapsed().as_secs_f64());
    same(&totals.says(), &printed).map_err(Stop::Fails)?;
    print!("{printed}");
    Ok(())
}

/// Whether all agrees; then the list is removed, unless it is to be kept.
pub fn run(words: &[String]) -> bool {
    let o = options(words).unwrap_or_else(|| crate::stop(HELP));
    std::panic::set_hook(Box::new(|_| {}));
    let path = format!("{TARGET}/replayed-{}", std::process::id());
    match compare(&path, &o) {
        Ok(()) => {
            println!("no difference");
            if o.keep {
                println!("the list is {path}");
            }
            o.keep || fs::remove_file(&path).is_ok()
        }
        Err(Stop::Fails(why)) => {
            println!("{}\nthe list is {path}", why.trim_end());
            false
        }
        Err(Stop::Disagrees(d)) => {
            println!("a disagreement; the list of the books before it is {path}");
            shrink::print(shrink::shrink(d));
            false
        }
    }
}

#[cfg(test)]
mod tests {
    use super::*;

    #[test]
    fn another_line_is_a_difference() {
        let says = "answers 2\nwrong 0\n";
        assert!(same(says, says).is_ok());
        for other in ["answers 2\nwrong 1\n", "answers 2\n", "wrong s1-0\nanswers 2\nwrong 0\n", ""] {
            assert!(same(says, other).is_err(), "{other}");
        }
    }

    /// The first stored constant gets another value; the answers behind it are left alone.
    #[test]
    fn one_value_is_spoiled() {
        let named = |lent| {
            let mut d = crate::named::Draft::default();
            let seven = d.int(7);
            d.constant(1, seven);
            Named { name: "seven".to_string(), bytes: d.book.bytes(), lent, expected: None }
        };
        let answer = |lent| answers::answer(&named(lent)).expect("an answer");
        let (mut refused, mut first, mut second) = (answer((0, 0)), answer(FULL), answer(FULL));
        let mut seen = Seen::default();
        [&mut refused, &mut first, &mut second].into_iter().for_each(|a| {
            seen.count(a);
            seen.spoil(a);
        });
        assert_eq!((seen.by_ten, seen.reached, seen.unstored), (1, 2, 0));
        assert!(refused == answer((0, 0)) && second == answer(FULL));
        assert_eq!(first.written.0[24..40], [41, 1, 1, 0, 0, 0, 0, 0, 6, 0, 0, 0, 0, 0, 0, 0]);
    }
}
