//! What is printed of the times, and the file that the plot is drawn from.

use crate::measure::{Row, Times};
use std::fmt::Write;

/// A number of nanoseconds, or of instructions, without a fraction; `-` for none.
pub fn whole(n: Option<f64>) -> String {
    n.map_or("-".to_string(), |n| format!("{n:.0}"))
}

/// A ratio; `-` for none.
pub fn ratio(n: Option<f64>) -> String {
    n.map_or("-".to_string(), |n| format!("{n:.2}"))
}

const HEADS: [&str; 10] =
    ["blocks", "records", "ours", "p99", "Rust", "p99", "Rust/ours", "check", "ours/check", "per block"];

fn line(cells: [String; 10]) -> String {
    cells.iter().map(|cell| format!("{cell:>11}")).collect()
}

fn cells(row: &Row) -> [String; 10] {
    let of = |pick: fn(&Times) -> f64| row.rust.as_ref().map(pick);
    [
        row.sample.blocks.to_string(),
        row.sample.records.to_string(),
        whole(Some(row.ours.median)),
        whole(Some(row.ours.high)),
        whole(of(|t| t.median)),
        whole(of(|t| t.high)),
        ratio(row.gain()),
        whole(Some(row.check.median)),
        ratio(Some(row.over_check())),
        whole(Some(row.per_block())),
    ]
}

/// A table for each kind of book.
pub fn print(rows: &[Row]) {
    for kind in rows.chunk_by(|a, b| a.sample.kind == b.sample.kind) {
        println!("\n{} ({} blocks: {})", kind[0].sample.kind, last(kind).blocks, last(kind).says());
        println!("{}", line(HEADS.map(str::to_string)));
        kind.iter().for_each(|row| println!("{}", line(cells(row))));
    }
}

fn last<'a>(rows: &[Row<'a>]) -> &'a crate::books::Sample {
    rows[rows.len() - 1].sample
}

/// All numbers, a line for each book, with tabs between them; `-` where the Rust has none.
pub fn tsv(rows: &[Row]) -> String {
    let mut out =
        "kind\tblocks\trecords\treply\trounds\tours\tours_p99\trust\trust_p99\tcheck\tcheck_p99\n".to_string();
    for row in rows {
        let s = row.sample;
        write!(out, "{}\t{}\t{}\t{}\t{}", s.kind, s.blocks, s.records, s.says(), row.rounds).expect("a string");
        for times in [Some(row.ours), row.rust, Some(row.check)] {
            let of = |pick: fn(Times) -> f64| whole(times.map(pick));
            write!(out, "\t{}\t{}", of(|t| t.median), of(|t| t.high)).expect("a string");
        }
        out.push('\n');
    }
    out
}
