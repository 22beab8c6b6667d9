//! Instructions: each side makes one call on each book, in a process of its own under valgrind, which counts from the
//! entry of the function around the call to its end.

use crate::books::Sample;
use crate::sides::{check, counted_check, counted_ours, counted_rust, Ours};
use crate::table::{ratio, whole};
use std::fs::{self, File};
use std::hint::black_box;
use std::io::{self, Read};
use std::path::{Path, PathBuf};
use std::process::Command;
use vexil::timed::Prepared;

/// valgrind counts every byte that `rep stosb` or `rep movsb` moves as an instruction. With these limits of glibc's memset
/// and memcpy they take vectors, whatever the length, and a count says how much is done.
const VECTORS: &str = "glibc.cpu.x86_rep_stosb_threshold=1000000000:glibc.cpu.x86_rep_movsb_threshold=1000000000";

/// What is counted for one book. The Rust has none where it is refused.
pub struct Counts<'a> {
    sample: &'a Sample,
    ours: f64,
    /// What of it is in memset.
    clearing: f64,
    rust: Option<f64>,
    check: f64,
}

/// One call of a side on the book that stands on standard input, behind one that is not counted.
pub fn once(side: &str) -> Result<(), String> {
    let mut bytes = Vec::new();
    io::stdin().read_to_end(&mut bytes).map_err(|e| e.to_string())?;
    let book = bytes.as_slice();
    match side {
        "ours" => {
            let mut ours = Ours::new();
            black_box(ours.call(book));
            counted_ours(&mut ours, &book);
        }
        "rust" => {
            let prepared = Prepared::new(book);
            prepared.lower(&mut prepared.context());
            counted_rust(&prepared, &mut prepared.context());
        }
        "check" => {
            black_box(check(black_box(book)));
            counted_check(&book);
        }
        _ => return Err(format!("there is no side {side}")),
    }
    Ok(())
}

/// The instructions of one call, in all and in memset.
fn counted(side: &str, book: &Path, out: &Path) -> Result<(f64, f64), String> {
    let input = File::open(book).map_err(|e| format!("{}: {e}", book.display()))?;
    let program = std::env::current_exe().map_err(|e| e.to_string())?;
    let output = Command::new("valgrind")
        .arg("--tool=callgrind")
        .arg(format!("--callgrind-out-file={}", out.display()))
        .arg(format!("--toggle-collect=counted_{side}"))
        .args([program.as_os_str(), "once".as_ref(), side.as_ref()])
        .env("GLIBC_TUNABLES", VECTORS)
        .stdin(input)
        .output()
        .map_err(|e| format!("valgrind: {e}"))?;
    let said = String::from_utf8_lossy(&output.stderr);
    let count = said.lines().find_map(|l| l.split_once("Collected : ")?.1.trim().parse().ok());
    let count = count.filter(|n| *n > 0.0).ok_or_else(|| format!("valgrind says no count: {said}"))?;
    let list = fs::read_to_string(out).map_err(|e| format!("{}: {e}", out.display()))?;
    Ok((count, in_memset(&list)))
}

/// The instructions in memset, by the list that callgrind writes: lines that name a function, and lines with a place
/// and a count. The line behind one with `calls=` counts what was called, which has lines of its own.
fn in_memset(list: &str) -> f64 {
    let (mut numbers, mut inside, mut called, mut sum) = (Vec::new(), false, false, 0.0);
    for line in list.lines() {
        let named = ["fn=", "cfn="].iter().find_map(|word| line.strip_prefix(word));
        if let Some((number, name)) = named.and_then(|name| name.split_once(' ')) {
            numbers.extend(name.contains("memset").then(|| number.to_string()));
        }
        if let Some(name) = line.strip_prefix("fn=") {
            let number = name.split(' ').next().unwrap_or(name);
            inside = numbers.iter().any(|n| n == number);
        } else if line.starts_with(|c: char| c.is_ascii_digit() || "+-*".contains(c)) {
            let count: f64 = line.split(' ').nth(1).and_then(|n| n.parse().ok()).unwrap_or(0.0);
            sum += if inside && !called { count } else { 0.0 };
        }
        called = line.starts_with("calls=");
    }
    sum
}

fn counts<'a>(sample: &'a Sample, folder: &Path) -> Result<Counts<'a>, String> {
    let (book, out) = (folder.join("book"), folder.join("list"));
    fs::write(&book, &sample.bytes).map_err(|e| format!("{}: {e}", book.display()))?;
    let (ours, clearing) = counted("ours", &book, &out)?;
    let rust = if sample.accepted() { Some(counted("rust", &book, &out)?.0) } else { None };
    let check = counted("check", &book, &out)?.0;
    Ok(Counts { sample, ours, clearing, rust, check })
}

const HEADS: [&str; 8] = ["blocks", "ours", "in memset", "Rust", "Rust/ours", "check", "ours/check", "per block"];

fn cells(c: &Counts) -> [String; 8] {
    [
        c.sample.blocks.to_string(),
        whole(Some(c.ours)),
        whole(Some(c.clearing)),
        whole(c.rust),
        ratio(c.rust.map(|rust| rust / c.ours)),
        whole(Some(c.check)),
        ratio(Some(c.ours / c.check)),
        whole(Some(c.ours / c.sample.blocks as f64)),
    ]
}

fn line(kind: &str, cells: &[String; 8]) -> String {
    format!("{kind:32}{}", cells.iter().map(|cell| format!("{cell:>11}")).collect::<String>())
}

/// Counts each book and prints a line for it; all counts, with tabs between them.
fn table(samples: &[Sample], folder: &Path) -> Result<String, String> {
    let mut tsv = format!("kind\t{}\n", HEADS.join("\t"));
    println!("instructions\n{}", line("", &HEADS.map(str::to_string)));
    for sample in samples {
        let cells = cells(&counts(sample, folder)?);
        println!("{}", line(sample.kind, &cells));
        tsv += &format!("{}\t{}\n", sample.kind, cells.join("\t"));
    }
    Ok(tsv)
}

/// The table of instructions, and the same with tabs between its numbers.
pub fn print(samples: &[Sample]) -> Result<String, String> {
    let folder: PathBuf = std::env::temp_dir().join(format!("book-bench-{}", std::process::id()));
    fs::create_dir_all(&folder).map_err(|e| format!("{}: {e}", folder.display()))?;
    let tsv = table(samples, &folder);
    fs::remove_dir_all(&folder).map_err(|e| format!("{}: {e}", folder.display()))?;
    tsv
}
