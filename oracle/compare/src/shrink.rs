//! Makes a book on which something disagrees smaller, and prints it.

use crate::judge::judge;
use crate::rows;
use crate::run::Disagreement;
use books::{Book, Record};

/// Drops records as long as something still disagrees. What is known by construction is not known of a smaller book, so
/// a disagreement with that alone is left as it is.
pub fn shrink(mut d: Disagreement) -> Disagreement {
    let Some(mut book) = Book::read(&d.bytes).filter(|b| b.bytes() == d.bytes) else {
        return d;
    };
    let mut size = book.records.len();
    while size > 0 {
        let mut at = 0;
        let mut smaller = false;
        while at + size <= book.records.len() {
            let less = without(&book, at, size);
            let bytes = less.bytes();
            match judge(&bytes, d.lent.0, d.lent.1, None) {
                Err(why) if !less.records.is_empty() => {
                    d = Disagreement { bytes, why, ..d };
                    book = less;
                    smaller = true;
                }
                _ => at += 1,
            }
        }
        if !smaller || size > 1 {
            size /= 2;
        }
    }
    d
}

/// The book without some records; children behind them move down.
fn without(book: &Book, at: usize, size: usize) -> Book {
    let mut less = book.clone();
    less.records.drain(at..at + size);
    for r in &mut less.records {
        let moved = |n: u16| if n != 65_535 && n as usize >= at + size { n - size as u16 } else { n };
        let children = rows::child_fields(r);
        for (field, child) in [&mut r.a, &mut r.b, &mut r.c].into_iter().zip(children) {
            if child {
                *field = moved(*field);
            }
        }
    }
    less
}

/// A record in one line.
pub fn line(n: usize, r: &Record) -> String {
    format!(
        "  {n:4}  kind {} sub {}  a {} b {} c {}  v {}  span {} {}",
        r.kind, r.sub, r.a, r.b, r.c, r.v, r.offset, r.len
    )
}

pub fn print(d: Disagreement) {
    println!("{} ({} bytes, lent {} and {})", d.what, d.bytes.len(), d.lent.0, d.lent.1);
    println!("{}", d.why);
    d.expected.iter().for_each(|(number, place)| println!("expected by construction: refused {number} {place}"));
    if let Some(book) = Book::read(&d.bytes) {
        println!("wildcards {}", book.wildcards);
        for (n, r) in book.records.iter().enumerate() {
            println!("{}", line(n, r));
        }
    }
}
