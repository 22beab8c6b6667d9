//! Measures the proved library beside the original and the bare check; `--help` says how.

use book_bench::books::{samples, SIZES};
use book_bench::{count, measure, stack, table, verdict};
use std::process::ExitCode;
use std::time::Duration;

const HELP: &str =
    "bench/run [times] [--quick] [--tsv FILE]   times of every book, peak stack, and whether the aims are met
bench/run count [--quick] [--tsv FILE]     instructions at 1, 8 and 64 blocks; it needs valgrind
bench/run stack                            peak stack alone
bench/run clearing                         how much of a call is clearing of tables
--quick takes a tenth of the time; count then takes 1 block alone. --tsv writes all numbers to a file, for bench/plot.";

/// A full run takes about so long.
const TIME: Duration = Duration::from_secs(75);

/// What was asked for.
#[derive(Default)]
struct Asked {
    mode: Option<String>,
    side: Option<String>,
    quick: bool,
    tsv: Option<String>,
}

fn asked(mut words: impl Iterator<Item = String>) -> Result<Asked, String> {
    let mut asked = Asked::default();
    while let Some(word) = words.next() {
        match word.as_str() {
            "--quick" => asked.quick = true,
            "--tsv" => asked.tsv = Some(words.next().ok_or("--tsv needs a file")?),
            "once" => (asked.mode, asked.side) = (Some(word), words.next()),
            _ if asked.mode.is_none() => asked.mode = Some(word),
            _ => return Err(format!("what is {word}?\n{HELP}")),
        }
    }
    Ok(asked)
}

fn write(to: Option<String>, tsv: &str) -> Result<(), String> {
    to.map_or(Ok(()), |path| std::fs::write(&path, tsv).map_err(|e| format!("{path}: {e}")))
}

fn times(asked: Asked) -> Result<(), String> {
    let samples = samples(&SIZES);
    let clock = measure::clock();
    println!("nanoseconds; the clock takes {:.0} of every time (p99 {:.0})", clock.median, clock.high);
    let rows = measure::rows(&samples, if asked.quick { TIME / 10 } else { TIME });
    table::print(&rows);
    let peaks = stack::peaks(&samples);
    stack::print(&peaks);
    verdict::print(&rows, &peaks);
    write(asked.tsv, &table::tsv(&rows))
}

fn run() -> Result<(), String> {
    let asked = asked(std::env::args().skip(1))?;
    match asked.mode.as_deref() {
        None | Some("times") => times(asked),
        Some("count") => {
            let sizes: &[usize] = if asked.quick { &[1] } else { &[1, 8, 64] };
            let tsv = count::print(&samples(sizes))?;
            write(asked.tsv, &tsv)
        }
        Some("stack") => {
            stack::print(&stack::peaks(&samples(&SIZES)));
            Ok(())
        }
        Some("once") => count::once(asked.side.as_deref().unwrap_or("")),
        _ => Err(HELP.to_string()),
    }
}

fn main() -> ExitCode {
    run().map_or_else(
        |why| {
            eprintln!("{why}");
            ExitCode::FAILURE
        },
        |()| ExitCode::SUCCESS,
    )
}
