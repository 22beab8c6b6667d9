//! What a book says, as a page.

use crate::dump;
use crate::layout::{Declared, Layout, Open};
use crate::names::Names;
use crate::paint::Paint;
use signal_book::{
    Accepted, Field, Fields, Item, Message, Name, Results, Tombstone, TypeId, Union, UnionItem, Words, POISON_TYPE_ID,
};

/// As many letters a cell can have and make its column wider.
const WIDEST: usize = 40;

pub fn page(path: &str, book: &[u8], lowered: Accepted, names: &Names, paint: Paint) -> String {
    let records = dump::records(book);
    let mut page = Page {
        results: lowered.results(),
        declared: Declared::of(lowered.results()),
        words: PageWords { names, types: numbered(&records) },
        paint,
        lines: vec![format!("{path}: {}", counts(lowered))],
    };
    page.aliases(&records);
    page.constants(&records);
    page.bodies();
    page.diagnostics(lowered);
    page.lines.join("\n") + "\n"
}

/// The three counts.
pub fn counts(lowered: Accepted) -> String {
    let results = count(lowered.results().len(), "result");
    let diagnostics = count(lowered.diagnostics().len(), "diagnostic");
    format!("{results}, {diagnostics}, {} stored", count(lowered.stored(), "constant"))
}

fn count(count: usize, what: &str) -> String {
    format!("{count} {what}{}", if count == 1 { "" } else { "s" })
}

/// The words of a page: types are called by the names that the book declares them by.
struct PageWords<'n> {
    names: &'n Names,
    types: Vec<u16>,
}

impl Words for PageWords<'_> {
    fn name(&self, name: Name) -> String {
        self.names.name(name)
    }

    fn type_id(&self, id: TypeId) -> String {
        match self.types.get(id.index() as usize) {
            Some(name) => self.names.word(*name),
            None if id == POISON_TYPE_ID => id.to_string(),
            None => format!("outside {id}"),
        }
    }
}

/// The names behind the type numbers that a book's own declarations have: messages, unions and newtypes, then generic
/// aliases.
fn numbered(records: &[Fields]) -> Vec<u16> {
    let bodies = records.iter().filter(|record| (20..=22).contains(&record.kind)).map(|record| record.a);
    bodies.chain(generic(records).map(|(name, _)| name)).collect()
}

/// The generic aliases of a book: the name, and the names of the parameters.
fn generic(records: &[Fields]) -> impl Iterator<Item = (u16, Vec<u16>)> + '_ {
    let aliases = records.iter().enumerate().filter(|(_, record)| record.kind == 23);
    let with_parameters = aliases.map(|(at, alias)| {
        let behind = records[at + 1..].iter().filter(|record| record.kind > 16);
        (alias.a, behind.take_while(|record| record.kind == 30).map(|record| record.a).collect::<Vec<u16>>())
    });
    with_parameters.filter(|(_, parameters)| !parameters.is_empty())
}

struct Page<'a> {
    results: Results<'a>,
    declared: Declared<'a>,
    words: PageWords<'a>,
    paint: Paint,
    lines: Vec<String>,
}

impl<'a> Page<'a> {
    fn heading(&mut self, text: &str) {
        self.lines.push(String::new());
        self.lines.push(self.paint.heading(text));
    }

    fn line(&mut self, indent: usize, text: &str) {
        self.lines.push(format!("{:indent$}{text}", ""));
    }

    /// Rows of cells, each column as wide as its widest cell; but one that is too wide stands out of its column.
    fn table(&mut self, indent: usize, rows: &[Vec<String>]) {
        let columns = rows.iter().map(Vec::len).max().unwrap_or(0);
        let cell = |row: &[String], column: usize| row.get(column).map_or(0, |cell| cell.chars().count());
        let width =
            |column| rows.iter().map(|row| cell(row, column)).filter(|width| *width <= WIDEST).max().unwrap_or(0);
        let widths: Vec<usize> = (0..columns).map(width).collect();
        for row in rows {
            let cells: Vec<String> = row.iter().zip(&widths).map(|(cell, width)| format!("{cell:width$}")).collect();
            self.line(indent, cells.join("  ").trim_end());
        }
    }

    fn aliases(&mut self, records: &[Fields]) {
        let name = |number: &u16| self.words.names.word(*number);
        let mut rows: Vec<Vec<String>> = generic(records)
            .map(|(alias, parameters)| vec![name(&alias), format!("generic in {}", list(parameters.iter().map(name)))])
            .collect();
        let plain = self.results.aliases();
        rows.extend(
            plain.map(|alias| vec![self.words.name(alias.name()), alias.ty().in_words(&self.words).to_string()]),
        );
        if !rows.is_empty() {
            self.heading("aliases");
            self.table(2, &rows);
        }
    }

    fn constants(&mut self, records: &[Fields]) {
        let reached: Vec<Name> = self.results.constants().map(|constant| constant.name()).collect();
        let mut rows: Vec<Vec<String>> = Vec::new();
        for constant in self.results.constants() {
            let value = constant.value().map_or("no value".to_string(), |value| value.to_string());
            rows.push(vec![self.words.name(constant.name()), constant.ty().in_words(&self.words).to_string(), value]);
        }
        let declared = records.iter().filter(|record| record.kind == 24).filter_map(|record| Name::new(record.a));
        for name in declared.filter(|name| !reached.contains(name)) {
            let why = "not reached: a reference is repeated or leads into a ring";
            rows.push(vec![self.words.name(name), String::new(), why.into()]);
        }
        if !rows.is_empty() {
            self.heading("constants");
            self.table(2, &rows);
        }
    }

    /// Messages, unions and newtypes.
    fn bodies(&mut self) {
        for declaration in self.results.declarations() {
            use signal_book::Declaration::*;
            match declaration {
                Message(message) => self.message(message),
                Union(union) => self.union(union),
                Newtype(newtype) => {
                    let width = self.declared.width(newtype.ty());
                    let width = width.map_or(String::new(), |width| format!(": {}", bytes(width)));
                    let ty = newtype.ty().in_words(&self.words).to_string();
                    self.heading(&format!("newtype {} of {ty}{width}", self.words.name(newtype.name())));
                }
                Alias(_) | Constant(_) => {}
            }
        }
    }

    fn message(&mut self, message: Message<'a>) {
        let layout = self.declared.layout(message);
        let why = match &layout {
            Ok(layout) => bytes(layout.bytes),
            Err(open) => format!("no fixed layout, as {}", self.open(open)),
        };
        self.heading(&format!("message {}: {why}", self.words.name(message.name())));
        self.items(2, message.items().collect(), layout.ok());
    }

    fn open(&self, open: &Open) -> String {
        let name = |field: &Field| self.words.name(field.name());
        match open {
            Open::Tombstone => "something was removed from it".into(),
            Open::Order(field) => format!("the ordinal of {} is not above the one before", name(field)),
            Open::Encoding(field) => format!("{} is encoded as {}", name(field), field.encoding()),
            Open::Width(field) => format!("the type of {} tells no number of bytes", name(field)),
        }
    }

    fn union(&mut self, union: Union<'a>) {
        self.heading(&format!("union {}", self.words.name(union.name())));
        for item in union.items() {
            match item {
                UnionItem::Variant(variant) => {
                    self.line(
                        2,
                        &format!("variant {}, ordinal {}", self.words.name(variant.name()), variant.ordinal()),
                    );
                    self.items(4, variant.items().collect(), None);
                }
                UnionItem::Tombstone(tombstone) => self.line(2, &self.tombstone(tombstone)),
            }
        }
    }

    /// The fields of a message or variant as a table, then what was removed.
    fn items(&mut self, indent: usize, items: Vec<Item<'a>>, layout: Option<Layout>) {
        let mut rows = vec![["ordinal", "field", "type", "encoding"].map(String::from).to_vec()];
        let mut removed = Vec::new();
        for item in items {
            match item {
                Item::Field(field) => rows.push(self.field(field)),
                Item::Tombstone(tombstone) => removed.push(self.tombstone(tombstone)),
            }
        }
        if let Some(layout) = layout {
            rows[0].insert(0, "byte".into());
            rows[1..].iter_mut().zip(layout.offsets).for_each(|(row, offset)| row.insert(0, offset.to_string()));
        }
        if rows.len() > 1 {
            self.table(indent, &rows);
        }
        removed.iter().for_each(|line| self.line(indent, line));
    }

    fn field(&self, field: Field) -> Vec<String> {
        let ty = field.ty().in_words(&self.words).to_string();
        let mut cells =
            vec![field.ordinal().to_string(), self.words.name(field.name()), ty, field.encoding().to_string()];
        cells.extend(field.constraint().map(|constraint| format!("where {}", constraint.in_words(&self.words))));
        cells
    }

    fn tombstone(&self, tombstone: Tombstone) -> String {
        let mut text = format!("removed: ordinal {}", tombstone.ordinal());
        if let Some(ty) = tombstone.ty() {
            text += &format!(", was {}", ty.in_words(&self.words));
        }
        text += &tombstone.reason().map_or(", no reason".into(), |reason| format!(", reason {reason}"));
        text + &tombstone.since().map_or(String::new(), |since| format!(", since {since}"))
    }

    fn diagnostics(&mut self, lowered: Accepted) {
        let diagnostics = lowered.diagnostics();
        if diagnostics.is_empty() {
            return;
        }
        self.heading("diagnostics");
        let row = |diagnostic: signal_book::Diagnostic| {
            vec![format!("at {}", diagnostic.span()), diagnostic.in_words(&self.words).to_string()]
        };
        let rows: Vec<Vec<String>> = diagnostics.iter().map(row).collect();
        self.table(2, &rows);
    }
}

fn bytes(bytes: u64) -> String {
    format!("{bytes} byte{}", if bytes == 1 { "" } else { "s" })
}

fn list(words: impl Iterator<Item = String>) -> String {
    words.collect::<Vec<String>>().join(", ")
}
