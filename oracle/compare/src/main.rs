//! Runs generated books through the proved library, the model, the rows and the Rust, and says where they disagree.

mod agree;
mod answers;
mod corpus;
mod counts;
#[cfg(test)]
mod differences;
mod judge;
mod library;
mod mutants;
mod named;
mod order;
mod replayed;
mod results;
mod rows;
mod run;
mod shrink;
#[cfg(feature = "reading")]
mod times;

use std::time::Instant;

const HELP: &str = "usage: oracle/run [--books N] [--damaged M] [--seed S] [--seeds K] [--least L] [--generated]
  --books N     until N accepted books agree with the Rust, its own order of constants too (default 2000)
  --damaged M   M damaged books (default 5000)
  --seed S      the same seed gives the same books (default 1)
  --seeds K     so many of each seed from S to S + K - 1 (default 1)
  --least L     fail if a kind, sub, message or cause came in fewer than L books (default 0)
  --generated   leave the books with names out";

const NOT_LOWERED: &str =
    "not run: the proved library, which is linked where the toolchain's command rt is on the PATH";
const READ: &str = "the library that only reads agrees in each on causes 1 to 8, number and place";

struct Options {
    books: u64,
    damaged: u64,
    seed: u64,
    seeds: u64,
    least: u64,
    named: bool,
}

fn options() -> Options {
    let mut chosen = Options { books: 2_000, damaged: 5_000, seed: 1, seeds: 1, least: 0, named: true };
    let mut words = std::env::args().skip(1);
    while let Some(word) = words.next() {
        if word == "--help" {
            println!("{HELP}");
            std::process::exit(0);
        }
        if word == "--generated" {
            chosen.named = false;
            continue;
        }
        let field = match word.as_str() {
            "--books" => &mut chosen.books,
            "--damaged" => &mut chosen.damaged,
            "--seed" => &mut chosen.seed,
            "--seeds" => &mut chosen.seeds,
            "--least" => &mut chosen.least,
            _ => stop(HELP),
        };
        *field = words.next().and_then(|n| n.parse().ok()).unwrap_or_else(|| stop(HELP));
    }
    chosen
}

fn stop(why: &str) -> ! {
    eprintln!("{why}");
    std::process::exit(2)
}

/// The commands on the list of answers: `make`, `check`, `replay` and `show`.
fn on_answers(words: &[String]) -> ! {
    let done = match words {
        [command, folder] if command == "make" => answers::make(folder),
        [command, folder] if command == "check" => answers::check(folder),
        [command, folder] if command == "replay" => answers::replay(folder),
        [command, folder] if command == "show" => answers::show(folder, None),
        [command, folder, name] if command == "show" => answers::show(folder, Some(name)),
        _ => stop("usage: oracle/answers make | check | replay | show [NAME]"),
    };
    end(done)
}

/// The commands on the inputs of a fuzzer: `make` and `judge`.
fn on_corpus(words: &[String]) -> ! {
    end(match words {
        [command, list, folder] if command == "make" => corpus::make(list, folder),
        [command, folder] if command == "judge" => corpus::judge_all(folder),
        _ => stop("usage: oracle/run corpus make LIST FOLDER | judge FOLDER"),
    })
}

/// Prints what came of a command.
fn end(done: Result<String, String>) -> ! {
    match done {
        Ok(text) => println!("{}", text.trim_end()),
        Err(why) => {
            eprintln!("{why}");
            std::process::exit(1)
        }
    }
    std::process::exit(0)
}

/// What the proved libraries have done.
fn print_library() {
    if !library::LOWERS {
        return println!("{NOT_LOWERED}");
    }
    println!(
        "{} lowerings of the proved library as the model's, reply and every byte of both slices",
        library::lowerings()
    );
    if library::READS {
        println!("{READ}");
    }
}

fn main() {
    let words: Vec<String> = std::env::args().skip(1).collect();
    if let Some((first, rest)) = words.split_first() {
        match first.as_str() {
            "answers" => on_answers(rest),
            "corpus" => on_corpus(rest),
            "mutants" => std::process::exit(!mutants::run(rest) as i32),
            "order" => std::process::exit(!order::print() as i32),
            "replayed" => std::process::exit(!replayed::run(rest) as i32),
            #[cfg(feature = "reading")]
            "times" => return times::print(),
            _ => {}
        }
    }
    let o = options();
    let start = Instant::now();
    std::panic::set_hook(Box::new(|_| {}));
    let all = run::run(o.named, o.books, o.damaged, o.seed..o.seed + o.seeds);
    all.counts.print();
    println!("{} books with names, {} readable, {} damaged", all.named, all.generated, o.seeds * o.damaged);
    println!("{} of the readable are accepted with full slices and agree with the Rust", all.accepted);
    println!("{} of these also with its own order of constants", all.compared);
    print_library();
    println!("{:.1} s", start.elapsed().as_secs_f64());
    let rare = all.counts.rare(o.least);
    rare.iter().for_each(|r| println!("rare: {r}"));
    if let Some(smallest) = all.smallest {
        println!("{} disagreements; the smallest found:", all.disagreements);
        shrink::print(shrink::shrink(smallest));
        std::process::exit(1);
    }
    println!("no disagreement");
    std::process::exit(!rare.is_empty() as i32);
}
