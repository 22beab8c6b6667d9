//! From declarations to a book to its fields, as README.md has it.

use signal_book::{lower, BookBuilder, Name, PrimitiveType, DIAGNOSTICS_LIMIT, RESULTS_LIMIT};

fn main() -> Result<(), Box<dyn std::error::Error>> {
    // message Rope { tension @0 : u16  clock @1 : u32 }; the parser knows the words, a book has numbers and spans
    let [rope, tension, clock] = [10, 11, 12].map(|number| Name::new(number).unwrap());
    let mut book = BookBuilder::new();
    book.message(rope, (0, 49));
    let ty = book.primitive(PrimitiveType::U16, (28, 3));
    book.field(tension, ty, None, 0, (15, 16));
    let ty = book.primitive(PrimitiveType::U32, (44, 3));
    book.field(clock, ty, None, 1, (33, 14));
    let book = book.finish()?;

    let (mut results, mut diagnostics) = (vec![0; RESULTS_LIMIT], vec![0; DIAGNOSTICS_LIMIT]);
    let lowered = lower(&book, &mut results, &mut diagnostics)?;
    for message in lowered.results().messages() {
        for field in message.fields() {
            println!("{} {}: {}, {}", message.name(), field.name(), field.ty(), field.encoding());
        }
    }
    for diagnostic in lowered.diagnostics().iter() {
        println!("{diagnostic}, at {}", diagnostic.span());
    }
    Ok(())
}
