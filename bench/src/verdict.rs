//! Whether each aim is met, with the book that comes nearest to missing it.

use crate::books::{Sample, ORDINARY};
use crate::measure::Row;
use crate::stack::Peak;

/// Time for each block at 64 blocks may be so much of that at 8 where growth is called linear.
const LINEAR: f64 = 1.1;

/// A figure with the book that it is of.
type Figure<'a> = (f64, &'a Row<'a>);

/// The aim, the figure, and whether it is met.
fn say(met: bool, aim: &str, figure: String) {
    println!("{:8}{aim}: {figure}", if met { "met" } else { "NOT MET" });
}

fn place(sample: &Sample) -> String {
    format!("{}, {} block{}", sample.kind, sample.blocks, if sample.blocks == 1 { "" } else { "s" })
}

fn is_ordinary(row: &&Row) -> bool {
    row.sample.kind == ORDINARY
}

/// The ordinary book of so many blocks.
fn ordinary<'a>(rows: &'a [Row<'a>], blocks: usize) -> &'a Row<'a> {
    rows.iter().filter(is_ordinary).find(|row| row.sample.blocks == blocks).expect("an ordinary book of every size")
}

fn least<'a>(all: impl Iterator<Item = Figure<'a>>) -> Figure<'a> {
    all.min_by(|a, b| a.0.total_cmp(&b.0)).expect("a book")
}

fn most<'a>(all: impl Iterator<Item = Figure<'a>>) -> Figure<'a> {
    all.max_by(|a, b| a.0.total_cmp(&b.0)).expect("a book")
}

fn beside_the_rust(rows: &[Row]) {
    let (gain, row) = least(rows.iter().filter_map(|row| Some((row.gain()?, row))));
    let (of_ordinary, plain) = least(rows.iter().filter(is_ordinary).filter_map(|row| Some((row.gain()?, row))));
    let figure = format!("least {gain:.2} ({}), {of_ordinary:.2} ({})", place(row.sample), place(plain.sample));
    say(gain >= 2.0, "at least 2x the Rust's speed at every size", figure);
}

fn growth(rows: &[Row]) {
    let [short, long] = [8, 64].map(|blocks| ordinary(rows, blocks).per_block());
    let figure = format!("per block {short:.0} ns at 8 blocks, {long:.0} ns at 64: {:.2}", long / short);
    say(long / short <= LINEAR, "growth linear on ordinary books", figure);
}

fn beside_the_check(rows: &[Row]) {
    let (over, row) = most(rows.iter().filter(is_ordinary).map(|row| (row.over_check(), row)));
    let figure = format!("most {over:.2} ({}), {:.2} at 64", place(row.sample), ordinary(rows, 64).over_check());
    say(over <= 10.0, "within 10x of the bare check on ordinary books", figure);
}

fn beside_ordinary(rows: &[Row]) {
    let slower = |row: &Row| row.ours.median / ordinary(rows, row.sample.blocks).ours.median;
    let (times, row) = most(rows.iter().map(|row| (slower(row), row)));
    let figure = format!("most {times:.2} ({})", place(row.sample));
    say(times <= 50.0, "no book slower than 50x an ordinary one of its size", figure);
}

fn stack(peaks: &[Peak]) {
    let peak = peaks.iter().max_by_key(|peak| peak.bytes).expect("a book");
    let figure = format!("most {} bytes ({})", peak.bytes, place(peak.sample));
    say(peak.bytes < 256 << 10, "stack below 256 KiB", figure);
}

/// A line for each aim.
pub fn print(rows: &[Row], peaks: &[Peak]) {
    println!("\naims");
    beside_the_rust(rows);
    growth(rows);
    beside_the_check(rows);
    beside_ordinary(rows);
    stack(peaks);
}
